/* The cable modem's rules (docs/DOCSIS-PIE.md) in plain C. Numbers in comments are the rules' and
 * refusals' own. */
#include "plain.h"

#include "../shared/rules.h"

#include <string.h>

#define MOST UINT64_C(58411555225)    /* 13.6: the greatest probability */
#define LOW UINT64_C(3650722201)      /* 0.85 */
#define HIGH UINT64_C(36507222016)    /* 8.5 */
#define FASTEST 1250000000u           /* greatest rate */
#define LOW_DELAY 5000u
#define HIGH_DELAY 200000u
#define PERIOD 16000u
#define ALLOWANCE 142000u
#define TIMEOUT 1000000u              /* longest reset time */
#define MEAN 1024u                    /* bytes of a mean packet */

static bool settings_in_range(uint32_t target, uint32_t buffer, uint32_t slots, uint32_t peak,
                              uint32_t sustained)
{
    return 1000 <= target && target <= 100000
        && 1 <= buffer && buffer <= 16777216
        && 1 <= slots && slots <= 65536
        && 1 <= peak && peak <= FASTEST
        && 1 <= sustained && sustained <= FASTEST;
}

/* Each count is tested before their sum, so that it does not wrap. */
static inline bool well_formed(const struct plain_modem *s, const uint64_t *row)
{
    return settings_in_range(s->target, s->buffer, s->slots, s->peak, s->sustained)
        && s->last <= s->clock && s->clock <= LIMIT
        && s->probability <= MOST
        && s->accumulated <= HIGH
        && s->old_delay <= LONGEST
        && s->allowance <= ALLOWANCE
        && s->reset <= TIMEOUT
        && s->activity <= PLAIN_ACTIVE
        && s->first < s->slots
        && s->count <= s->slots
        && s->count <= s->bytes && s->bytes <= LARGEST * s->count
        && s->bytes <= s->buffer
        && (s->allowance == 0 || s->activity == PLAIN_ACTIVE)
        && (s->reset == 0 || (s->activity == PLAIN_QUIESCENT && s->probability == 0))
        && row[0] <= LIMIT && row[1] <= LIMIT && row[2] <= LIMIT && row[3] <= LIMIT
        && row[4] <= LIMIT
        && arrivals_counted(row) <= LIMIT;
}

uint32_t plain_modem_fresh(struct plain_modem *s, uint64_t (*counts)[5], uint32_t flow,
                           uint32_t target, uint32_t buffer, uint32_t slots, uint32_t peak,
                           uint32_t sustained, uint64_t clock)
{
    memset(s, 0, sizeof *s);
    if (PLAIN_FLOWS <= flow)
        return PLAIN_REFUSED_FLOW; /* 10 */
    if (!settings_in_range(target, buffer, slots, peak, sustained) || LIMIT < clock)
        return PLAIN_REFUSED_SETTINGS; /* 1 */
    s->target = target;
    s->buffer = buffer;
    s->slots = slots;
    s->peak = peak;
    s->sustained = sustained;
    s->clock = clock;
    s->last = clock;
    memset(counts[flow], 0, sizeof counts[flow]);
    return PLAIN_ACCEPTED;
}

/* Rules 4 to 15 of an arrival: what the probability decides. */
static inline uint32_t decide_early(struct plain_modem *s, uint32_t size, uint32_t u)
{
    if (s->probability == 0) /* 4 */
        s->accumulated = 0;
    if (s->activity == PLAIN_INACTIVE) {
        if (3 * s->bytes < s->buffer) /* 5 */
            return PLAIN_ENQUEUED;
        s->activity = PLAIN_QUIESCENT; /* 6 */
    }
    uint64_t scaled = s->probability * size / MEAN;
    scaled = scaled < LOW ? scaled : LOW; /* 7 */
    uint64_t sum = s->accumulated + scaled;
    s->accumulated = sum < HIGH ? sum : HIGH;                       /* 8 */
    if (2 * s->old_delay < s->target && 5 * s->probability < WHOLE) /* 9 */
        return PLAIN_ENQUEUED;
    if (s->bytes <= 2 * MEAN) /* 10 */
        return PLAIN_ENQUEUED;
    if (sum < LOW || (sum < HIGH && scaled <= u)) /* 11 to 14 */
        return PLAIN_ENQUEUED;
    s->accumulated = 0; /* 15 */
    if (s->activity == PLAIN_QUIESCENT) {
        s->activity = PLAIN_ACTIVE;
        s->allowance = ALLOWANCE;
    }
    return PLAIN_DROPPED_EARLY;
}

static inline uint32_t decide(struct plain_modem *s, uint32_t size, uint32_t u)
{
    if (s->buffer < s->bytes + size) { /* 1 */
        s->accumulated = 0;
        return PLAIN_DROPPED_BYTES;
    }
    if (s->count == s->slots) { /* 2 */
        s->accumulated = 0;
        return PLAIN_DROPPED_SLOTS;
    }
    if (0 < s->allowance) /* 3 */
        return PLAIN_ENQUEUED;
    return decide_early(s, size, u);
}

/* An arrival at a well-formed record with tables that fit; `room`: it is known that no refusal 8 is
 * due. */
static inline uint32_t arrive(struct plain_modem *s, uint64_t *row, uint32_t *handles,
                              uint32_t *sizes, uint64_t clock, uint32_t handle, uint32_t size,
                              uint32_t u, bool room)
{
    if (clock < s->clock || LIMIT < clock)
        return PLAIN_REFUSED_CLOCK; /* 4 */
    if (size == 0 || LARGEST < size)
        return PLAIN_REFUSED_SIZE; /* 7 */
    if (!room && arrivals_counted(row) == LIMIT)
        return PLAIN_REFUSED_COUNTS; /* 8 */

    uint32_t verdict = decide(s, size, u);
    if (verdict == PLAIN_ENQUEUED) {
        uint32_t tail = place(s->first + s->count, s->slots);
        handles[tail] = handle;
        sizes[tail] = size;
        s->count++;
        s->bytes += size;
    }
    row[verdict]++;
    s->clock = clock;
    return verdict;
}

uint32_t plain_modem_arrival(struct plain_modem *s, uint64_t (*counts)[5], uint32_t flow,
                             uint32_t *handles, size_t handles_len, uint32_t *sizes,
                             size_t sizes_len, uint64_t clock, uint32_t handle, uint32_t size,
                             uint32_t u)
{
    if (PLAIN_FLOWS <= flow)
        return PLAIN_REFUSED_FLOW; /* 10 */
    if (!well_formed(s, counts[flow]))
        return PLAIN_REFUSED_STATE; /* 2 */
    if (handles_len != s->slots || sizes_len != s->slots)
        return PLAIN_REFUSED_TABLES; /* 3 */
    return arrive(s, counts[flow], handles, sizes, clock, handle, size, u, false);
}

/* A departure from a well-formed record with tables that fit; the packet is {0, 0} before. */
static inline uint32_t depart(struct plain_modem *s, const uint32_t *handles, const uint32_t *sizes,
                              uint64_t clock, struct plain_packet *packet)
{
    if (clock < s->clock || LIMIT < clock)
        return PLAIN_REFUSED_CLOCK; /* 4 */
    if (s->count == 0)
        return PLAIN_REFUSED_EMPTY; /* 6 */
    uint32_t size = sizes[s->first];
    if (head_refused(size, s->count, s->bytes))
        return PLAIN_REFUSED_HEAD; /* 9 */
    uint32_t count = s->count - 1;
    uint32_t bytes = s->bytes - size;

    packet->handle = handles[s->first];
    packet->size = size;
    s->first = place(s->first + 1, s->slots);
    s->count = count;
    s->bytes = bytes;
    s->clock = clock;
    return PLAIN_ACCEPTED;
}

uint32_t plain_modem_departure(struct plain_modem *s, uint64_t (*counts)[5], uint32_t flow,
                               const uint32_t *handles, size_t handles_len,
                               const uint32_t *sizes, size_t sizes_len, uint64_t clock,
                               struct plain_packet *packet)
{
    packet->handle = 0;
    packet->size = 0;
    if (PLAIN_FLOWS <= flow)
        return PLAIN_REFUSED_FLOW; /* 10 */
    if (!well_formed(s, counts[flow]))
        return PLAIN_REFUSED_STATE; /* 2 */
    if (handles_len != s->slots || sizes_len != s->slots)
        return PLAIN_REFUSED_TABLES; /* 3 */
    return depart(s, handles, sizes, clock, packet);
}

/* Rule 1 of a tick. */
static uint32_t queueing_delay(const struct plain_modem *s, uint32_t credits)
{
    uint32_t fast = s->bytes < credits ? s->bytes : credits;
    uint64_t delay = (uint64_t)fast * 1000000 / s->peak
        + (uint64_t)(s->bytes - fast) * 1000000 / s->sustained;
    return LONGEST < delay ? LONGEST : (uint32_t)delay;
}

/* Rule 4 of a tick: k by the probability before it. */
static uint32_t divisor(uint64_t p)
{
    return p <= 4294 ? 65536
         : p <= 42949 ? 16384
         : p <= 429496 ? 4096
         : p <= 4294967 ? 1024
         : p <= 42949672 ? 256
         : p <= 429496729 ? 64
         : p <= 4294967295 ? 16
         : p <= 42949672959 ? 4
         : 1;
}

/* Rules 3 to 8 of a tick. */
static inline uint64_t next_probability(uint64_t before, uint32_t delay, uint32_t old, uint32_t target)
{
    int64_t x = ((int64_t)delay - target) + 10 * ((int64_t)delay - old);  /* 3 */
    int64_t step = x * 536870912 / (15625 * (int64_t)divisor(before));    /* 5 */
    if (TENTH <= before && CAP < step)
        step = CAP; /* 6 */
    int64_t p = (int64_t)before + step;
    if (delay < LOW_DELAY && old < LOW_DELAY)
        p -= p / 50; /* 7 */
    else if (HIGH_DELAY < delay)
        p += CAP;
    return p < 0 ? 0 : (int64_t)MOST < p ? MOST : (uint64_t)p; /* 8 */
}

/* Rules 9 to 11 of a tick. */
static void update_activity(struct plain_modem *s, uint32_t delay, uint32_t old)
{
    bool quiet = s->probability == 0 && s->allowance == 0 && 2 * delay < s->target
        && 2 * old < s->target; /* 9 */
    if (s->activity == PLAIN_ACTIVE) {
        if (quiet) /* 10 */
            s->activity = PLAIN_QUIESCENT;
    } else if (s->activity == PLAIN_QUIESCENT) {
        s->reset = quiet ? s->reset + PERIOD : 0; /* 11 */
        if (TIMEOUT < s->reset) {
            s->reset = 0;
            s->activity = PLAIN_INACTIVE;
        }
    }
}

/* A tick of a well-formed record. */
static inline uint32_t tick(struct plain_modem *s, uint64_t clock, uint32_t credits)
{
    if (clock < s->clock || LIMIT < clock)
        return PLAIN_REFUSED_CLOCK; /* 4 */
    if (clock < s->last + PERIOD)
        return PLAIN_REFUSED_TOO_SOON; /* 5 */

    uint32_t delay = queueing_delay(s, credits);
    uint32_t old = s->old_delay;
    if (0 < s->allowance) { /* 2 */
        s->probability = 0;
        s->allowance = s->allowance < PERIOD ? 0 : s->allowance - PERIOD;
    } else {
        s->probability = next_probability(s->probability, delay, old, s->target);
    }
    update_activity(s, delay, old);
    s->old_delay = delay; /* 12 */
    s->last = clock;
    s->clock = clock;
    return PLAIN_ACCEPTED;
}

uint32_t plain_modem_tick(struct plain_modem *s, uint64_t (*counts)[5], uint32_t flow,
                          uint64_t clock, uint32_t credits)
{
    if (PLAIN_FLOWS <= flow)
        return PLAIN_REFUSED_FLOW; /* 10 */
    if (!well_formed(s, counts[flow]))
        return PLAIN_REFUSED_STATE; /* 2 */
    return tick(s, clock, credits);
}

bool plain_modem_well_formed(const struct plain_modem *s, uint64_t (*counts)[5], uint32_t flow)
{
    return flow < PLAIN_FLOWS && well_formed(s, counts[flow]);
}
