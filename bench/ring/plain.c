/* The rules of document 01, as changed by the requests that have landed, in plain C. Numbers in
 * comments are the rules' and refusals' own. */
#include "plain.h"

#define MEASURED struct plain_state
#include "../shared/measure.h"

#include <string.h>

static bool settings_in_range(uint32_t target, uint32_t buffer, uint32_t slots, uint32_t profile)
{
    return 1000 <= target && target <= 100000
        && 1 <= buffer && buffer <= 16777216
        && 1 <= slots && slots <= 65536
        && profile <= PLAIN_CALM;
}

/* Each count is tested before their sum, so that it does not wrap; here and not in a function of
 * their own, which gcc would call. */
static bool well_formed(const struct plain_state *s)
{
    return settings_in_range(s->target, s->buffer, s->slots, s->profile)
        && s->last <= s->clock && s->clock <= LIMIT
        && s->probability <= WHOLE
        && s->accumulated < FORCED
        && s->old_delay <= LONGEST
        && s->allowance <= ALLOWANCE
        && s->average <= LONGEST
        && s->first < s->slots
        && s->count <= s->slots
        && s->count <= s->bytes && s->bytes <= LARGEST * s->count
        && s->bytes <= s->buffer
        && s->start <= s->clock
        && s->counted < THRESHOLD
        && (s->measuring ? 0 < s->count : s->start == 0 && s->counted == 0)
        && (s->active || (s->profile == PLAIN_CALM && s->probability == 0))
        && s->verdicts[0] <= LIMIT && s->verdicts[1] <= LIMIT && s->verdicts[2] <= LIMIT
        && s->verdicts[3] <= LIMIT && s->verdicts[4] <= LIMIT
        && arrivals_counted(s->verdicts) <= LIMIT;
}

uint32_t plain_fresh(struct plain_state *s, uint32_t target, uint32_t buffer, uint32_t slots,
                     uint32_t profile, uint64_t clock)
{
    memset(s, 0, sizeof *s);
    if (!settings_in_range(target, buffer, slots, profile) || LIMIT < clock)
        return PLAIN_REFUSED_SETTINGS; /* 1 */
    s->target = target;
    s->buffer = buffer;
    s->slots = slots;
    s->profile = profile;
    s->active = profile != PLAIN_CALM;
    s->clock = clock;
    s->last = clock;
    s->allowance = ALLOWANCE;
    return PLAIN_ACCEPTED;
}

/* Three times the queued bytes are above the buffer. */
static bool above_third(const struct plain_state *s)
{
    return s->buffer < 3 * s->bytes;
}

/* An inactive queue turns active: the algorithm begins anew. */
static void turn_active(struct plain_state *s)
{
    s->active = true;
    s->probability = 0;
    s->old_delay = 0;
    s->average = 0;
    s->accumulated = 0;
    s->allowance = ALLOWANCE;
    stop_measurement(s);
}

/* Rules 1 to 7 of an arrival. After rule 5 the probability is added to those before. A queue that
 * turns active has the full allowance, and rule 3 decides there as if it were inactive. */
static inline uint32_t decide(struct plain_state *s, uint32_t size, bool ecn, uint32_t u)
{
    if (s->buffer < s->bytes + size) /* 1 */
        return PLAIN_DROPPED_BYTES;
    if (s->count == s->slots) /* 2 */
        return PLAIN_DROPPED_SLOTS;
    if (!s->active || 0 < s->allowance) /* 3 */
        return PLAIN_ENQUEUED;
    if (2 * s->old_delay < s->target && 5 * s->probability < WHOLE) /* 4 */
        return PLAIN_ENQUEUED;
    if (s->bytes <= SMALL) /* 5 */
        return PLAIN_ENQUEUED;
    uint64_t sum = s->accumulated + s->probability;
    if (20 * sum < 17 * WHOLE || (sum < FORCED && s->probability <= u)) { /* 7 */
        s->accumulated = sum;
        return PLAIN_ENQUEUED;
    }
    s->accumulated = 0; /* 6 */
    return ecn && s->probability < TENTH ? PLAIN_MARKED : PLAIN_DROPPED_EARLY;
}

/* An arrival at a well-formed record with tables that fit; `room`: it is known that no refusal 8 is
 * due. */
static inline uint32_t arrive(struct plain_state *s, uint32_t *handles, uint32_t *sizes,
                              uint64_t clock, uint32_t handle, uint32_t size, bool ecn, uint32_t u,
                              bool room)
{
    if (clock < s->clock || LIMIT < clock)
        return PLAIN_REFUSED_CLOCK; /* 4 */
    if (size == 0 || LARGEST < size)
        return PLAIN_REFUSED_SIZE; /* 7 */
    if (!room && arrivals_counted(s->verdicts) == LIMIT)
        return PLAIN_REFUSED_COUNTS; /* 8 */

    bool turns = !s->active && above_third(s);
    uint32_t verdict = decide(s, size, ecn, u);
    if (turns)
        turn_active(s);
    if (verdict == PLAIN_ENQUEUED || verdict == PLAIN_MARKED) {
        uint32_t tail = place(s->first + s->count, s->slots);
        handles[tail] = handle;
        sizes[tail] = size;
        s->count++;
        s->bytes += size;
    }
    s->verdicts[verdict]++;
    s->clock = clock;
    return verdict;
}

uint32_t plain_arrival(struct plain_state *s, uint32_t *handles, size_t handles_len,
                       uint32_t *sizes, size_t sizes_len, uint64_t clock, uint32_t handle,
                       uint32_t size, bool ecn, uint32_t u)
{
    if (!well_formed(s))
        return PLAIN_REFUSED_STATE; /* 2 */
    if (handles_len != s->slots || sizes_len != s->slots)
        return PLAIN_REFUSED_TABLES; /* 3 */
    return arrive(s, handles, sizes, clock, handle, size, ecn, u, false);
}

/* A departure from a well-formed record with tables that fit; the packet is {0, 0} before. */
static inline uint32_t depart(struct plain_state *s, const uint32_t *handles, const uint32_t *sizes,
                              uint64_t clock, struct plain_packet *packet)
{
    if (clock < s->clock || LIMIT < clock)
        return PLAIN_REFUSED_CLOCK; /* 4 */
    if (s->count == 0)
        return PLAIN_REFUSED_EMPTY; /* 6 */
    uint32_t size = sizes[s->first];
    if (head_refused(size, s->count, s->bytes))
        return PLAIN_REFUSED_HEAD; /* 9 */
    uint32_t count = s->count - 1;
    uint32_t bytes = s->bytes - size;

    packet->handle = handles[s->first];
    packet->size = size;
    s->first = place(s->first + 1, s->slots);
    s->count = count;
    s->bytes = bytes;
    s->clock = clock;
    measure(s, size, clock);
    return PLAIN_ACCEPTED;
}

uint32_t plain_departure(struct plain_state *s, const uint32_t *handles, size_t handles_len,
                         const uint32_t *sizes, size_t sizes_len, uint64_t clock,
                         struct plain_packet *packet)
{
    packet->handle = 0;
    packet->size = 0;
    if (!well_formed(s))
        return PLAIN_REFUSED_STATE; /* 2 */
    if (handles_len != s->slots || sizes_len != s->slots)
        return PLAIN_REFUSED_TABLES; /* 3 */
    return depart(s, handles, sizes, clock, packet);
}

/* Rules 1 to 9 of a tick, but for the clock of the last one. */
static inline void update(struct plain_state *s)
{
    uint64_t product = (uint64_t)s->bytes * s->average / THRESHOLD;
    uint32_t delay = LONGEST < product ? LONGEST : (uint32_t)product; /* 1 */
    uint32_t old = s->old_delay;
    s->probability = next_probability(s->probability, delay, old, s->target, s->profile == PLAIN_CALM);
    s->allowance = s->allowance < PERIOD ? 0 : s->allowance - PERIOD; /* 7 */
    if (s->probability == 0 && 2 * delay < s->target && 2 * old < s->target) {
        s->allowance = ALLOWANCE; /* 8 */
        s->active = s->profile != PLAIN_CALM || above_third(s);
    }
    s->old_delay = delay; /* 9 */
}

/* A tick of a well-formed record. */
static inline uint32_t tick(struct plain_state *s, uint64_t clock)
{
    if (clock < s->clock || LIMIT < clock)
        return PLAIN_REFUSED_CLOCK; /* 4 */
    if (clock < s->last + PERIOD)
        return PLAIN_REFUSED_TOO_SOON; /* 5 */

    if (s->active)
        update(s);
    s->last = clock;
    s->clock = clock;
    return PLAIN_ACCEPTED;
}

uint32_t plain_tick(struct plain_state *s, uint64_t clock)
{
    if (!well_formed(s))
        return PLAIN_REFUSED_STATE; /* 2 */
    return tick(s, clock);
}
