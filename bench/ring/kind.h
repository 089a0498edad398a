/* The ring on the bench: its calls, plain C's record and the library's. shared/names.h has what each name means. */
#ifndef KIND_H
#define KIND_H

#include <stdbool.h>
#include <string.h>

#include "events.h"
#include "obikuteru.h"
#include "plain.h"

#define RECORD struct plain_state
#define QUEUES 1
#define QUEUE(e) ((void)(e), 0)
#define NAMED(side, name) side##name
#define LIBRARY_RECORD struct obikuteru_state
#define START(s, c, q) CALL(fresh)(s, stream->target, stream->buffer, stream->slots, stream->profile, 0)
#define ARRIVE(s, c, e, h, z)                                                                     \
    CALL(arrival)(s, h, slots, z, slots, (e)->clock, (e)->handle, (e)->size, (e)->ecn, (e)->u)
#define DEPART(s, c, e, h, z, p) CALL(departure)(s, h, slots, z, slots, (e)->clock, p)
#define UPDATE(s, c, e) CALL(tick)(s, (e)->clock)
#define PLAIN_RUN(entry, s, c, q, h, z, calls, answers, n)                                        \
    ((void)(c), entry(s, h, slots, z, slots, calls, answers, n))
#define LIBRARY_RUN(entry, s, c, q, h, z, calls, answers, n)                                      \
    ((void)(c), entry(s, h, slots, z, slots, (const uint32_t *)(calls), 6 * (n),                  \
                      (uint64_t *)(answers), n))

static inline struct plain_call call_of(const struct event *e)
{
    return (struct plain_call){e->clock, e->handle, e->size, e->u, burst_kind(e->kind, e->ecn)};
}

static inline struct obikuteru_state library_state(struct plain_state r)
{
    struct obikuteru_state s = {
        r.target, r.buffer, r.slots, r.clock, r.last, r.probability, r.old_delay, r.allowance,
        r.accumulated, r.average, r.measuring, r.start, r.counted, r.count, r.bytes, r.first, {0},
        r.profile, r.active};
    for (int i = 0; i < 5; i++)
        s.verdicts[i] = r.verdicts[i];
    return s;
}

static inline struct plain_state library_record(struct obikuteru_state s)
{
    struct plain_state r = {
        .target = (uint32_t)s.target, .buffer = (uint32_t)s.buffer, .slots = (uint32_t)s.slots,
        .old_delay = (uint32_t)s.old_delay, .clock = s.clock, .last = s.last,
        .probability = s.probability, .accumulated = s.accumulated, .start = s.start,
        .allowance = (uint32_t)s.allowance, .average = (uint32_t)s.average,
        .counted = (uint32_t)s.counted,
        .measuring = s.measuring != 0, .first = (uint32_t)s.first, .count = (uint32_t)s.count,
        .bytes = (uint32_t)s.bytes, .profile = (uint32_t)s.profile, .active = s.active != 0};
    for (int i = 0; i < 5; i++)
        r.verdicts[i] = s.verdicts[i];
    return r;
}

static inline bool same(struct plain_state a, struct plain_state b)
{
    return a.target == b.target && a.buffer == b.buffer && a.slots == b.slots
        && a.old_delay == b.old_delay && a.clock == b.clock && a.last == b.last
        && a.probability == b.probability && a.accumulated == b.accumulated
        && a.start == b.start && a.allowance == b.allowance && a.average == b.average
        && a.counted == b.counted && a.measuring == b.measuring
        && a.first == b.first && a.count == b.count && a.bytes == b.bytes
        && a.profile == b.profile && a.active == b.active
        && memcmp(a.verdicts, b.verdicts, sizeof a.verdicts) == 0;
}

#endif
