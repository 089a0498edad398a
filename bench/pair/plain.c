/* The rules of docs/SHARED-TABLES.md for two queues, in plain C. Numbers in comments are those of
 * document 01's rules and refusals. */
#include "plain.h"

#define MEASURED struct plain_pair_queue
#include "../shared/measure.h"

#include <string.h>

#define LINK 65536u /* a word of the sizes table: a size, and so many times a link */

static bool settings_in_range(uint32_t target, uint32_t buffer)
{
    return 1000 <= target && target <= 100000 && 1 <= buffer && buffer <= 16777216;
}

static bool slots_in_range(uint32_t slots, uint32_t reserve0, uint32_t reserve1)
{
    return 1 <= slots && slots <= 65536 && reserve0 <= slots && reserve1 <= slots - reserve0;
}

static inline bool queue_well_formed(const struct plain_pair_queue *q, uint32_t slots)
{
    return settings_in_range(q->target, q->buffer)
        && q->last <= q->clock && q->clock <= LIMIT
        && q->probability <= WHOLE
        && q->old_delay <= LONGEST
        && q->allowance <= ALLOWANCE
        && q->accumulated < FORCED
        && q->average <= LONGEST
        && q->head < slots && q->tail < slots
        && q->count <= slots
        && q->count <= q->bytes && q->bytes <= LARGEST * q->count
        && q->bytes <= q->buffer
        && q->start <= q->clock
        && q->counted < THRESHOLD
        && (q->measuring ? 0 < q->count : q->start == 0 && q->counted == 0)
        && q->verdicts[0] <= LIMIT && q->verdicts[1] <= LIMIT && q->verdicts[2] <= LIMIT
        && q->verdicts[3] <= LIMIT && q->verdicts[4] <= LIMIT
        && arrivals_counted(q->verdicts) <= LIMIT;
}

/* Packets of a queue that stand in common slots. */
static inline uint32_t above(uint32_t count, uint32_t reserve)
{
    return reserve < count ? count - reserve : 0;
}

/* Common slots that are free, for well-formed records. */
static inline uint32_t common_left(const struct plain_shared *s, uint32_t count0, uint32_t count1)
{
    return s->slots - s->reserve[0] - s->reserve[1] - above(count0, s->reserve[0])
        - above(count1, s->reserve[1]);
}

static inline bool well_formed(const struct plain_shared *s, const struct plain_pair_queue *q0,
                               const struct plain_pair_queue *q1)
{
    return slots_in_range(s->slots, s->reserve[0], s->reserve[1])
        && s->freed < s->slots && s->used <= s->slots
        && queue_well_formed(q0, s->slots) && queue_well_formed(q1, s->slots)
        && above(q0->count, s->reserve[0]) + above(q1->count, s->reserve[1])
            <= s->slots - s->reserve[0] - s->reserve[1]
        && s->spare <= s->used && q0->count + q1->count == s->used - s->spare;
}

bool plain_pair_well_formed(const struct plain_shared *shared,
                            const struct plain_pair_queue *intercom,
                            const struct plain_pair_queue *passengers)
{
    return well_formed(shared, intercom, passengers);
}

static void start_queue(struct plain_pair_queue *q, uint32_t target, uint32_t buffer,
                        uint64_t clock)
{
    q->target = target;
    q->buffer = buffer;
    q->clock = clock;
    q->last = clock;
    q->allowance = ALLOWANCE;
}

uint32_t plain_pair_fresh(struct plain_shared *shared, struct plain_pair_queue *intercom,
                          struct plain_pair_queue *passengers, uint32_t slots, uint32_t target0,
                          uint32_t buffer0, uint32_t reserve0, uint64_t clock0, uint32_t target1,
                          uint32_t buffer1, uint32_t reserve1, uint64_t clock1)
{
    memset(shared, 0, sizeof *shared);
    memset(intercom, 0, sizeof *intercom);
    memset(passengers, 0, sizeof *passengers);
    if (!slots_in_range(slots, reserve0, reserve1) || !settings_in_range(target0, buffer0)
        || LIMIT < clock0 || !settings_in_range(target1, buffer1) || LIMIT < clock1)
        return PLAIN_REFUSED_SETTINGS; /* 1 */
    shared->slots = slots;
    shared->reserve[0] = reserve0;
    shared->reserve[1] = reserve1;
    start_queue(intercom, target0, buffer0, clock0);
    start_queue(passengers, target1, buffer1, clock1);
    return PLAIN_ACCEPTED;
}

/* Rules 1 to 7 of an arrival; the accumulated probability goes to `sum`. */
static inline uint32_t decide(const struct plain_pair_queue *q, bool no_slot, uint32_t size,
                              bool ecn, uint32_t u, uint64_t *sum)
{
    *sum = q->accumulated;
    if (q->buffer < q->bytes + size) /* 1 */
        return PLAIN_DROPPED_BYTES;
    if (no_slot) /* 2 */
        return PLAIN_DROPPED_SLOTS;
    if (0 < q->allowance) /* 3 */
        return PLAIN_ENQUEUED;
    if (2 * q->old_delay < q->target && 5 * q->probability < WHOLE) /* 4 */
        return PLAIN_ENQUEUED;
    if (q->bytes <= SMALL) /* 5 */
        return PLAIN_ENQUEUED;
    *sum += q->probability;
    if (20 * *sum < 17 * WHOLE || (*sum < FORCED && q->probability <= u)) /* 7 */
        return PLAIN_ENQUEUED;
    *sum = 0; /* 6 */
    return ecn && q->probability < TENTH ? PLAIN_MARKED : PLAIN_DROPPED_EARLY;
}

/* The packet goes to `place`, behind the tail. */
static inline void enter(struct plain_pair_queue *q, uint32_t place, uint32_t *handles,
                         uint32_t *sizes, uint32_t handle, uint32_t size)
{
    if (0 < q->count)
        sizes[q->tail] = sizes[q->tail] % LINK + LINK * place;
    else
        q->head = place;
    handles[place] = handle;
    sizes[place] = size;
    q->tail = place;
    q->count++;
    q->bytes += size;
}

/* An arrival with well-formed records and tables that fit; `room`: it is known that no refusal 8 is
 * due. */
static inline uint32_t arrive(struct plain_shared *shared, struct plain_pair_queue *intercom,
                              struct plain_pair_queue *passengers, bool second,
                              struct plain_pair_queue *q, uint32_t *handles, uint32_t *sizes,
                              uint64_t clock, uint32_t handle, uint32_t size, bool ecn, uint32_t u,
                              bool room)
{
    if (clock < q->clock || LIMIT < clock)
        return PLAIN_REFUSED_CLOCK; /* 4 */
    if (size == 0 || LARGEST < size)
        return PLAIN_REFUSED_SIZE; /* 7 */
    if (!room && arrivals_counted(q->verdicts) == LIMIT)
        return PLAIN_REFUSED_COUNTS; /* 8 */

    uint64_t sum;
    bool no_slot = shared->reserve[second] <= q->count
        && common_left(shared, intercom->count, passengers->count) == 0;
    uint32_t verdict = decide(q, no_slot, size, ecn, u, &sum);
    if (verdict == PLAIN_ENQUEUED || verdict == PLAIN_MARKED) {
        if (shared->spare == 0) {
            enter(q, shared->used++, handles, sizes, handle, size);
        } else {
            uint32_t place = shared->freed;
            uint32_t next = shared->spare == 1 ? place : sizes[place] / LINK;
            if (shared->slots <= next)
                return PLAIN_REFUSED_HEAD; /* 9 */
            enter(q, place, handles, sizes, handle, size);
            shared->freed = next;
            shared->spare--;
        }
    }
    q->accumulated = sum;
    q->verdicts[verdict]++;
    q->clock = clock;
    return verdict;
}

uint32_t plain_pair_arrival(struct plain_shared *shared, struct plain_pair_queue *intercom,
                            struct plain_pair_queue *passengers, bool second, uint32_t *handles,
                            size_t handles_len, uint32_t *sizes, size_t sizes_len, uint64_t clock,
                            uint32_t handle, uint32_t size, bool ecn, uint32_t u)
{
    struct plain_pair_queue *q = second ? passengers : intercom;
    if (!well_formed(shared, intercom, passengers))
        return PLAIN_REFUSED_STATE; /* 2 */
    if (handles_len != shared->slots || sizes_len != shared->slots)
        return PLAIN_REFUSED_TABLES; /* 3 */
    return arrive(shared, intercom, passengers, second, q, handles, sizes, clock, handle, size, ecn,
                  u, false);
}

/* A departure with well-formed records and tables that fit; the packet is {0, 0} before. */
static inline uint32_t depart(struct plain_shared *shared, struct plain_pair_queue *q,
                              const uint32_t *handles, uint32_t *sizes, uint64_t clock,
                              struct plain_packet *packet)
{
    if (clock < q->clock || LIMIT < clock)
        return PLAIN_REFUSED_CLOCK; /* 4 */
    if (q->count == 0)
        return PLAIN_REFUSED_EMPTY; /* 6 */
    uint32_t head = q->head, word = sizes[head], size = word % LINK;
    if (size == 0 || q->bytes < size)
        return PLAIN_REFUSED_HEAD; /* 9 */
    uint32_t count = q->count - 1;
    uint32_t bytes = q->bytes - size;
    uint32_t next = count == 0 ? head : word / LINK;
    if (bytes < count || LARGEST * count < bytes || shared->slots <= next)
        return PLAIN_REFUSED_HEAD; /* 9 */

    packet->handle = handles[head];
    packet->size = size;
    sizes[head] = LINK * shared->freed;
    shared->freed = head;
    shared->spare++;
    q->head = next;
    q->count = count;
    q->bytes = bytes;
    q->clock = clock;
    measure(q, size, clock);
    return PLAIN_ACCEPTED;
}

uint32_t plain_pair_departure(struct plain_shared *shared, struct plain_pair_queue *intercom,
                              struct plain_pair_queue *passengers, bool second,
                              const uint32_t *handles, size_t handles_len, uint32_t *sizes,
                              size_t sizes_len, uint64_t clock, struct plain_packet *packet)
{
    struct plain_pair_queue *q = second ? passengers : intercom;
    packet->handle = 0;
    packet->size = 0;
    if (!well_formed(shared, intercom, passengers))
        return PLAIN_REFUSED_STATE; /* 2 */
    if (handles_len != shared->slots || sizes_len != shared->slots)
        return PLAIN_REFUSED_TABLES; /* 3 */
    return depart(shared, q, handles, sizes, clock, packet);
}

/* A tick of a well-formed record. */
static inline uint32_t tick(struct plain_pair_queue *q, uint64_t clock)
{
    if (clock < q->clock || LIMIT < clock)
        return PLAIN_REFUSED_CLOCK; /* 4 */
    if (clock < q->last + PERIOD)
        return PLAIN_REFUSED_TOO_SOON; /* 5 */

    uint64_t product = (uint64_t)q->bytes * q->average / THRESHOLD;
    uint32_t delay = LONGEST < product ? LONGEST : (uint32_t)product; /* 1 */
    uint32_t old = q->old_delay;
    q->probability = next_probability(q->probability, delay, old, q->target, false);
    q->allowance = q->allowance < PERIOD ? 0 : q->allowance - PERIOD; /* 7 */
    if (q->probability == 0 && 2 * delay < q->target && 2 * old < q->target)
        q->allowance = ALLOWANCE; /* 8 */
    q->old_delay = delay;         /* 9 */
    q->last = clock;
    q->clock = clock;
    return PLAIN_ACCEPTED;
}

uint32_t plain_pair_tick(struct plain_shared *shared, struct plain_pair_queue *intercom,
                         struct plain_pair_queue *passengers, bool second, uint64_t clock)
{
    struct plain_pair_queue *q = second ? passengers : intercom;
    if (!well_formed(shared, intercom, passengers))
        return PLAIN_REFUSED_STATE; /* 2 */
    return tick(q, clock);
}
