/* The rules of docs/SHARED-TABLES.md for 64 flows, in plain C. Numbers in comments are those of
 * document 01's rules and refusals. */
#include "plain.h"

#include "choose.h"
#include "record.h"

#define MEASURED struct plain_flow
#include "../shared/measure.h"

#include <string.h>

#define LINK 65536u /* a word of the sizes table: a size, and so many times a link */

/* The flow of a key: Jenkins' one-at-a-time hash, and the salt. */
uint32_t plain_fq_flow(const uint8_t *key, uint32_t salt)
{
    uint32_t h = 0;
    for (size_t i = 0; i < PLAIN_FQ_KEY; i++) {
        h += key[i];
        h += h << 10;
        h ^= h >> 6;
    }
    h += h << 3;
    h ^= h >> 11;
    h += h << 15;
    return (h + salt) % FLOWS;
}

bool plain_fq_well_formed(const struct plain_fq *fq)
{
    uint64_t marks;
    return well_formed(fq, &marks);
}

uint32_t plain_fq_fresh(struct plain_fq *fq, uint64_t target, uint64_t buffer, uint64_t slots,
                        uint32_t salt, uint64_t clock)
{
    memset(fq, 0, sizeof *fq);
    if (!settings_in_range(target, buffer, slots) || LIMIT < clock)
        return PLAIN_REFUSED_SETTINGS; /* 1 */
    fq->target = target;
    fq->buffer = buffer;
    fq->slots = slots;
    fq->salt = salt;
    fq->clock = clock;
    fq->last = clock;
    for (size_t i = 0; i < FLOWS; i++) {
        fq->flow[i].allowance = ALLOWANCE;
        fq->deficits[i] = ZERO;
    }
    return PLAIN_ACCEPTED;
}

/* Rules 1 to 7 of an arrival; the accumulated probability goes to `sum`. */
static inline uint32_t decide(const struct plain_fq *q, const struct plain_flow *f, uint32_t size,
                              bool ecn, uint32_t u, uint64_t *sum)
{
    *sum = f->accumulated;
    if (q->buffer < q->bytes + size) /* 1 */
        return PLAIN_DROPPED_BYTES;
    if (q->count == q->slots) /* 2 */
        return PLAIN_DROPPED_SLOTS;
    if (0 < f->allowance) /* 3 */
        return PLAIN_ENQUEUED;
    if (2 * f->old_delay < q->target && 5 * f->probability < WHOLE) /* 4 */
        return PLAIN_ENQUEUED;
    if (f->bytes <= SMALL) /* 5 */
        return PLAIN_ENQUEUED;
    *sum += f->probability;
    if (20 * *sum < 17 * WHOLE || (*sum < FORCED && f->probability <= u)) /* 7 */
        return PLAIN_ENQUEUED;
    *sum = 0; /* 6 */
    return ecn && f->probability < TENTH ? PLAIN_MARKED : PLAIN_DROPPED_EARLY;
}

/* The packet goes to `place`, behind the flow's tail. */
static inline void enter(struct plain_fq *q, struct plain_flow *f, uint64_t place,
                         uint32_t *handles, uint32_t *sizes, uint32_t handle, uint32_t size)
{
    if (0 < f->count)
        sizes[f->tail] = sizes[f->tail] % LINK + LINK * (uint32_t)place;
    else
        f->head = place;
    handles[place] = handle;
    sizes[place] = size;
    f->tail = place;
    f->count++;
    f->bytes += size;
    q->count++;
    q->bytes += size;
}

/* Whether a flow is in one of the lists: by their flows as bits, where these are known. */
static inline bool is_listed(const struct plain_fq *q, uint32_t flow, const uint64_t *marks)
{
    if (marks != NULL)
        return (*marks >> flow & 1) != 0;
    if (0 < q->flow[flow].count) /* one that holds a packet is listed */
        return true;
    for (uint64_t i = 0; i < q->listed; i++)
        if (q->order[(q->first + i) % FLOWS] == flow)
            return true;
    return false;
}

/* A flow in neither list goes to the end of the new one. */
static inline void list(struct plain_fq *q, uint32_t flow, const uint64_t *marks)
{
    if (!is_listed(q, flow, marks)) {
        q->order[(q->first + q->listed++) % FLOWS] = flow;
        q->deficits[flow] = ZERO + QUANTUM;
    }
}

/* An arrival at a well-formed record with tables that fit; `marks`: the flows in either list as bits,
 * or NULL; `room`: it is known that no refusal 8 is due. */
static inline uint32_t arrive(struct plain_fq *q, const uint64_t *marks, uint32_t *handles,
                              uint32_t *sizes, uint64_t clock, const uint8_t *key, uint32_t handle,
                              uint32_t size, bool ecn, uint32_t u, bool room)
{
    if (clock < q->clock || LIMIT < clock)
        return PLAIN_REFUSED_CLOCK; /* 4 */
    if (size == 0 || LARGEST < size)
        return PLAIN_REFUSED_SIZE; /* 7 */
    if (!room && arrivals_counted(q->verdicts) == LIMIT)
        return PLAIN_REFUSED_COUNTS; /* 8 */

    uint64_t sum;
    uint32_t flow = plain_fq_flow(key, (uint32_t)q->salt);
    struct plain_flow *f = &q->flow[flow];
    uint32_t verdict = decide(q, f, size, ecn, u, &sum);
    if (verdict == PLAIN_ENQUEUED || verdict == PLAIN_MARKED) {
        uint64_t place = q->spare == 0 ? q->used : q->freed;
        uint64_t next = 1 < q->spare ? sizes[place] / LINK : q->freed;
        if (q->slots <= next)
            return PLAIN_REFUSED_HEAD; /* 9 */
        list(q, flow, marks);
        enter(q, f, place, handles, sizes, handle, size);
        if (q->spare == 0) {
            q->used++;
        } else {
            q->freed = next;
            q->spare--;
        }
    }
    f->accumulated = sum;
    q->verdicts[verdict]++;
    q->clock = clock;
    return verdict;
}

uint32_t plain_fq_arrival(struct plain_fq *fq, uint32_t *handles, size_t handles_len,
                          uint32_t *sizes, size_t sizes_len, uint64_t clock, const uint8_t *key,
                          uint32_t handle, uint32_t size, bool ecn, uint32_t u)
{
    uint64_t marks;
    if (!well_formed(fq, &marks))
        return PLAIN_REFUSED_STATE; /* 2 */
    if (handles_len != fq->slots || sizes_len != fq->slots)
        return PLAIN_REFUSED_TABLES; /* 3 */
    return arrive(fq, &marks, handles, sizes, clock, key, handle, size, ecn, u, false);
}

/* The head leaves its flow, which has others behind it from `next` on. */
static inline void leave(struct plain_fq *q, struct plain_flow *f, uint64_t next, uint32_t *sizes,
                         uint32_t size)
{
    sizes[f->head] = LINK * (uint32_t)q->freed;
    q->freed = f->head;
    q->spare++;
    f->head = next;
    f->count--;
    f->bytes -= size;
    q->count--;
    q->bytes -= size;
}

/* Whether the head, of this word, can leave; `next` is the head after it. */
static inline bool head_fits(const struct plain_fq *q, const struct plain_flow *f, uint32_t word,
                             uint64_t *next)
{
    uint32_t size = word % LINK;
    if (size == 0 || f->bytes < size)
        return false;
    uint64_t count = f->count - 1, bytes = f->bytes - size;
    *next = count == 0 ? f->head : word / LINK;
    return count <= bytes && bytes <= LARGEST * count && *next < q->slots;
}

/* A departure of a well-formed record with tables that fit; the packet is {0, 0, 0} before. */
static inline uint32_t depart(struct plain_fq *q, const uint32_t *handles, uint32_t *sizes,
                              uint64_t clock, struct plain_flow_packet *packet)
{
    struct kept before;
    if (clock < q->clock || LIMIT < clock)
        return PLAIN_REFUSED_CLOCK; /* 4 */
    if (q->count == 0)
        return PLAIN_REFUSED_EMPTY; /* 6 */

    uint64_t flow = choose(q, &before);
    struct plain_flow *f = &q->flow[flow];
    uint64_t next;
    uint32_t size = sizes[f->head] % LINK;
    if (!head_fits(q, f, sizes[f->head], &next)) {
        put_back(q, &before);
        return PLAIN_REFUSED_HEAD; /* 9 */
    }
    *packet = (struct plain_flow_packet){(uint32_t)flow, handles[f->head], size};
    q->deficits[flow] -= size;
    leave(q, f, next, sizes, size);
    q->clock = clock;
    measure(f, size, clock);
    return PLAIN_ACCEPTED;
}

/* With `depart` in it: of itself gcc makes that a call, at 200 instructions more. */
__attribute__((flatten))
uint32_t plain_fq_departure(struct plain_fq *fq, const uint32_t *handles, size_t handles_len,
                            uint32_t *sizes, size_t sizes_len, uint64_t clock,
                            struct plain_flow_packet *packet)
{
    uint64_t marks;
    memset(packet, 0, sizeof *packet);
    if (!well_formed(fq, &marks))
        return PLAIN_REFUSED_STATE; /* 2 */
    if (handles_len != fq->slots || sizes_len != fq->slots)
        return PLAIN_REFUSED_TABLES; /* 3 */
    return depart(fq, handles, sizes, clock, packet);
}

/* A flow's share of a tick. */
static inline void update(struct plain_flow *f, uint64_t target)
{
    uint64_t product = f->bytes * f->average / THRESHOLD;
    uint32_t delay = LONGEST < product ? LONGEST : (uint32_t)product; /* 1 */
    uint32_t old = (uint32_t)f->old_delay;
    f->probability = next_probability(f->probability, delay, old, (uint32_t)target, false);
    f->allowance = f->allowance < PERIOD ? 0 : f->allowance - PERIOD; /* 7 */
    if (f->probability == 0 && 2 * delay < target && 2 * old < target)
        f->allowance = ALLOWANCE; /* 8 */
    f->old_delay = delay;         /* 9 */
}

/* A tick of a well-formed record. */
static inline uint32_t tick(struct plain_fq *q, uint64_t clock)
{
    if (clock < q->clock || LIMIT < clock)
        return PLAIN_REFUSED_CLOCK; /* 4 */
    if (clock < q->last + PERIOD)
        return PLAIN_REFUSED_TOO_SOON; /* 5 */
    for (size_t i = 0; i < FLOWS; i++)
        update(&q->flow[i], q->target);
    q->last = clock;
    q->clock = clock;
    return PLAIN_ACCEPTED;
}

uint32_t plain_fq_tick(struct plain_fq *fq, uint64_t clock)
{
    uint64_t marks;
    if (!well_formed(fq, &marks))
        return PLAIN_REFUSED_STATE; /* 2 */
    return tick(fq, clock);
}
