/* When the record of 64 flows is well formed: a part of plain.c. */
#ifndef RECORD_H
#define RECORD_H

#include "plain.h"

#include "../shared/pie.h"

#define FLOWS PLAIN_FQ_FLOWS
#define ZERO 65535u /* the word of a deficit of 0 */
#define QUANTUM 1514u

static bool settings_in_range(uint64_t target, uint64_t buffer, uint64_t slots)
{
    return 1000 <= target && target <= 100000 && 1 <= buffer && buffer <= 16777216
        && 1 <= slots && slots <= 65536;
}

static inline bool common_well_formed(const struct plain_fq *q)
{
    const uint64_t *v = q->verdicts;
    return settings_in_range(q->target, q->buffer, q->slots)
        && q->salt <= UINT32_MAX
        && q->last <= q->clock && q->clock <= LIMIT
        && q->freed < q->slots && q->used <= q->slots
        && q->spare <= q->used && q->count == q->used - q->spare
        && v[0] <= LIMIT && v[1] <= LIMIT && v[2] <= LIMIT && v[3] <= LIMIT && v[4] <= LIMIT
        && arrivals_counted(q->verdicts) <= LIMIT;
}

static inline bool flow_well_formed(const struct plain_fq *q, const struct plain_flow *f)
{
    return f->probability <= WHOLE
        && f->old_delay <= LONGEST
        && f->allowance <= ALLOWANCE
        && f->accumulated < FORCED
        && f->average <= LONGEST
        && f->head < q->slots && f->tail < q->slots
        && f->count <= q->slots
        && f->count <= f->bytes && f->bytes <= LARGEST * f->count
        && f->bytes <= q->buffer
        && f->start <= q->clock
        && f->counted < THRESHOLD
        && (f->measuring ? 0 < f->count : f->start == 0 && f->counted == 0);
}

/* One pass tests each flow, its deficit and the totals, and marks the flows that hold a packet. */
static inline bool flows_well_formed(const struct plain_fq *q, uint64_t *holding)
{
    uint64_t count = 0, bytes = 0;
    *holding = 0;
    for (size_t i = 0; i < FLOWS; i++) {
        if (!flow_well_formed(q, &q->flow[i]) || ZERO + QUANTUM < q->deficits[i])
            return false;
        count += q->flow[i].count;
        bytes += q->flow[i].bytes;
        *holding |= (uint64_t)(0 < q->flow[i].count) << i;
    }
    return count == q->count && bytes == q->bytes && bytes <= q->buffer;
}

/* The flows in either list as bits; false where one is listed twice or is none. */
static inline bool lists_well_formed(const struct plain_fq *q, uint64_t *marks)
{
    *marks = 0;
    if (FLOWS <= q->first || FLOWS < q->listed || q->listed < q->old)
        return false;
    for (uint64_t i = 0; i < q->listed; i++) {
        uint64_t flow = q->order[(q->first + i) % FLOWS];
        if (FLOWS <= flow || (*marks >> flow & 1) != 0)
            return false;
        *marks |= UINT64_C(1) << flow;
    }
    return true;
}

static inline bool well_formed(const struct plain_fq *q, uint64_t *marks)
{
    uint64_t holding;
    return common_well_formed(q) && flows_well_formed(q, &holding) && lists_well_formed(q, marks)
        && (holding & ~*marks) == 0;
}

#endif
