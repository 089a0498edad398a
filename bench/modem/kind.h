/* The modem on the bench: its calls, plain C's record of a flow and the library's. shared/names.h has what each name means. */
#ifndef KIND_H
#define KIND_H

#include <stdbool.h>

#include "events.h"
#include "obikuteru.h"
#include "plain.h"

#define RECORD struct plain_modem
#define QUEUES PLAIN_FLOWS
#define QUEUE(e) ((e)->flow)
#define NAMED(side, name) side##modem_##name
#define LIBRARY_RECORD struct obikuteru_modem_state
#define START(s, c, q)                                                                            \
    CALL(fresh)(s, c, q, stream->target, stream->buffer, stream->slots, stream->peak,             \
                stream->sustained, 0)
#define ARRIVE(s, c, e, h, z)                                                                     \
    CALL(arrival)(s, c, (e)->flow, h, slots, z, slots, (e)->clock, (e)->handle, (e)->size, (e)->u)
#define DEPART(s, c, e, h, z, p) CALL(departure)(s, c, (e)->flow, h, slots, z, slots, (e)->clock, p)
#define UPDATE(s, c, e) CALL(tick)(s, c, (e)->flow, (e)->clock, (e)->credits)
#define PLAIN_RUN(entry, s, c, q, h, z, calls, answers, n)                                        \
    entry(s, c, q, h, slots, z, slots, calls, answers, n)
#define LIBRARY_RUN(entry, s, c, q, h, z, calls, answers, n)                                      \
    entry(s, c, q, h, slots, z, slots, (const uint32_t *)(calls), 6 * (n), (uint64_t *)(answers), n)

static inline struct plain_call call_of(const struct event *e)
{
    uint32_t size = e->kind == TICK ? e->credits : e->size;
    return (struct plain_call){e->clock, e->handle, size, e->u, burst_kind(e->kind, false)};
}

static inline struct obikuteru_modem_state library_state(struct plain_modem r)
{
    return (struct obikuteru_modem_state){
        r.target, r.buffer, r.slots, r.peak, r.sustained, r.clock, r.last, r.probability,
        r.accumulated, r.old_delay, r.allowance, r.reset, r.activity, r.first, r.count, r.bytes};
}

static inline struct plain_modem library_record(struct obikuteru_modem_state s)
{
    return (struct plain_modem){
        .target = (uint32_t)s.target, .buffer = (uint32_t)s.buffer, .slots = (uint32_t)s.slots,
        .peak = (uint32_t)s.peak, .sustained = (uint32_t)s.sustained,
        .old_delay = (uint32_t)s.old_delay, .clock = s.clock, .last = s.last,
        .probability = s.probability, .accumulated = s.accumulated,
        .allowance = (uint32_t)s.allowance, .reset = (uint32_t)s.reset,
        .activity = (uint32_t)s.activity, .first = (uint32_t)s.first, .count = (uint32_t)s.count,
        .bytes = (uint32_t)s.bytes};
}

static inline bool same(struct plain_modem a, struct plain_modem b)
{
    return a.target == b.target && a.buffer == b.buffer && a.slots == b.slots && a.peak == b.peak
        && a.sustained == b.sustained && a.old_delay == b.old_delay && a.clock == b.clock
        && a.last == b.last && a.probability == b.probability && a.accumulated == b.accumulated
        && a.allowance == b.allowance && a.reset == b.reset && a.activity == b.activity
        && a.first == b.first && a.count == b.count && a.bytes == b.bytes;
}

#endif
