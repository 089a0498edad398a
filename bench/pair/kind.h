/* The pair on the bench: its calls, plain C's records and the library's. shared/names.h has what each name means. */
#ifndef KIND_H
#define KIND_H

#include <stdbool.h>
#include <string.h>

#include "events.h"
#include "obikuteru.h"
#include "plain.h"

#define RECORD struct plain_pair
#define OWN_TABLES
#define QUEUES 1
#define QUEUE(e) ((void)(e), 0)
#define RECORDS_OF(p) &(p)->shared, &(p)->queues[0], &(p)->queues[1]
#define NAMED(side, name) side##pair_##name
#define LIBRARY_RECORD struct library_pair
#define START(p, c, q)                                                                            \
    CALL(fresh)(RECORDS_OF(p), stream->slots, stream->target, stream->buffer, stream->reserve[0], \
                0, stream->target, stream->buffer, stream->reserve[1], 0)
#define ARRIVE(p, c, e, h, z)                                                                     \
    CALL(arrival)(RECORDS_OF(p), (e)->second, h, slots, z, slots, (e)->clock, (e)->handle,        \
                  (e)->size, (e)->ecn, (e)->u)
#define DEPART(p, c, e, h, z, t)                                                                  \
    CALL(departure)(RECORDS_OF(p), (e)->second, h, slots, z, slots, (e)->clock, t)
#define UPDATE(p, c, e) CALL(tick)(RECORDS_OF(p), (e)->second, (e)->clock)
#define PLAIN_RUN(entry, p, c, q, h, z, calls, answers, n)                                        \
    ((void)(c), entry(RECORDS_OF(p), h, slots, z, slots, calls, answers, n))
#define LIBRARY_RUN(entry, p, c, q, h, z, calls, answers, n)                                      \
    ((void)(c), entry(RECORDS_OF(p), h, slots, z, slots, (const uint32_t *)(calls), 6 * (n),      \
                      (uint64_t *)(answers), n))

static inline struct plain_call call_of(const struct event *e)
{
    uint32_t kind = burst_kind(e->kind, e->ecn) + (e->second ? PLAIN_PASSENGERS : 0);
    return (struct plain_call){e->clock, e->handle, e->size, e->u, kind};
}

/* All records of a pair. */
struct plain_pair {
    struct plain_shared shared;
    struct plain_pair_queue queues[2];
};

struct library_pair {
    struct obikuteru_shared shared;
    struct obikuteru_pair_queue queues[2];
};

static inline struct obikuteru_pair_queue library_queue(const struct plain_pair_queue *q)
{
    struct obikuteru_pair_queue made = {
        q->target, q->buffer, q->clock, q->last, q->probability, q->old_delay, q->allowance,
        q->accumulated, q->average, q->measuring, q->start, q->counted, q->count, q->bytes,
        q->head, q->tail, {0}};
    memcpy(made.verdicts, q->verdicts, sizeof made.verdicts);
    return made;
}

static inline struct plain_pair_queue plain_queue(const struct obikuteru_pair_queue *q)
{
    struct plain_pair_queue made = {
        .target = (uint32_t)q->target, .buffer = (uint32_t)q->buffer,
        .old_delay = (uint32_t)q->old_delay, .allowance = (uint32_t)q->allowance,
        .clock = q->clock, .last = q->last, .probability = q->probability,
        .accumulated = q->accumulated, .start = q->start, .average = (uint32_t)q->average,
        .counted = (uint32_t)q->counted, .measuring = q->measuring != 0,
        .count = (uint32_t)q->count, .bytes = (uint32_t)q->bytes, .head = (uint32_t)q->head,
        .tail = (uint32_t)q->tail};
    memcpy(made.verdicts, q->verdicts, sizeof made.verdicts);
    return made;
}

static inline struct library_pair library_state(struct plain_pair p)
{
    const struct plain_shared *s = &p.shared;
    return (struct library_pair){
        {s->slots, {s->reserve[0], s->reserve[1]}, s->used, s->freed, s->spare},
        {library_queue(&p.queues[0]), library_queue(&p.queues[1])}};
}

static inline struct plain_pair library_record(struct library_pair p)
{
    const struct obikuteru_shared *s = &p.shared;
    return (struct plain_pair){
        {(uint32_t)s->slots, {(uint32_t)s->reserve[0], (uint32_t)s->reserve[1]},
         (uint32_t)s->used, (uint32_t)s->freed, (uint32_t)s->spare},
        {plain_queue(&p.queues[0]), plain_queue(&p.queues[1])}};
}

static inline bool same_queue(const struct plain_pair_queue *a, const struct plain_pair_queue *b)
{
    return a->target == b->target && a->buffer == b->buffer && a->old_delay == b->old_delay
        && a->allowance == b->allowance && a->clock == b->clock && a->last == b->last
        && a->probability == b->probability && a->accumulated == b->accumulated
        && a->start == b->start && a->average == b->average && a->counted == b->counted
        && a->measuring == b->measuring && a->count == b->count && a->bytes == b->bytes
        && a->head == b->head && a->tail == b->tail
        && memcmp(a->verdicts, b->verdicts, sizeof a->verdicts) == 0;
}

static inline bool same(struct plain_pair a, struct plain_pair b)
{
    return memcmp(&a.shared, &b.shared, sizeof a.shared) == 0
        && same_queue(&a.queues[0], &b.queues[0]) && same_queue(&a.queues[1], &b.queues[1]);
}

#endif
