/* Which of 64 flows a departure serves: a part of plain.c. */
#ifndef CHOOSE_H
#define CHOOSE_H

#include "record.h"

#include <string.h>

#define LOOKS 2880u

/* What choosing a flow changes: it comes back where the departure is refused by 9. The arrays are
 * copied only where one of them is to be written. */
struct kept {
    uint64_t first;
    uint64_t old;
    uint64_t listed;
    bool copied;
    uint64_t order[FLOWS];
    uint32_t deficits[FLOWS];
};

static inline void copy(struct kept *k, const struct plain_fq *q)
{
    k->copied = true;
    memcpy(k->order, q->order, sizeof k->order);
    memcpy(k->deficits, q->deficits, sizeof k->deficits);
}

static inline void put_back(struct plain_fq *q, const struct kept *k)
{
    q->first = k->first;
    q->old = k->old;
    q->listed = k->listed;
    if (k->copied) {
        memcpy(q->order, k->order, sizeof k->order);
        memcpy(q->deficits, k->deficits, sizeof k->deficits);
    }
}

/* One move of the flow at the head, which has a negative deficit or no packet. */
static inline void move(struct plain_fq *q, uint64_t flow, struct kept *k)
{
    bool negative = q->deficits[flow] < ZERO;
    if (negative) {
        if (!k->copied)
            copy(k, q);
        q->deficits[flow] += QUANTUM;
    }
    if (q->old < q->listed) { /* the new list's head becomes the old list's last */
        q->old++;
        return;
    }
    if (negative) {
        q->order[(q->first + q->listed) % FLOWS] = flow;
    } else {
        q->old--;
        q->listed--;
    }
    q->first = (q->first + 1) % FLOWS;
}

/* The flow that is served next. Some flow holds a packet, and each that does is listed. */
static inline uint64_t choose(struct plain_fq *q, struct kept *k)
{
    k->first = q->first;
    k->old = q->old;
    k->listed = q->listed;
    k->copied = false;
    for (uint32_t look = 0; look < LOOKS; look++) {
        if (q->listed == 0)
            break;
        uint64_t at = q->old < q->listed ? q->first + q->old : q->first;
        uint64_t flow = q->order[at % FLOWS];
        if (ZERO <= q->deficits[flow] && 0 < q->flow[flow].count)
            return flow;
        move(q, flow, k);
    }
    return 0;
}

#endif
