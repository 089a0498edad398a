/* The 64 flows on the bench: their calls, plain C's record and the library's, which have the same words.
 * shared/names.h has what each name means. */
#ifndef KIND_H
#define KIND_H

#include <stdbool.h>
#include <string.h>

#include "events.h"
#include "obikuteru.h"
#include "plain.h"

#define RECORD struct plain_fq
#define QUEUES 1
#define QUEUE(e) ((void)(e), 0)
#define BLOCK 4 /* a record has 7,064 bytes */
#define OWN_TABLES
#ifndef EVENTS
#define EVENTS 200000u /* fewer, as a call tests the whole record */
#endif
#define PLAIN_PACKET struct plain_flow_packet
#define LIBRARY_PACKET struct obikuteru_flow_packet
#define BURST_CALL struct plain_fq_call
#define BURST_ANSWER struct plain_fq_answered
#define NAMED(side, name) side##fq_##name
#define LIBRARY_RECORD struct obikuteru_fq
#define START(s, c, q)                                                                            \
    CALL(fresh)(s, stream->target, stream->buffer, stream->slots, stream->salt, 0)
#define ARRIVE(s, c, e, h, z)                                                                     \
    CALL(arrival)(s, h, slots, z, slots, (e)->clock, (e)->key, (e)->handle, (e)->size, (e)->ecn,  \
                  (e)->u)
#define DEPART(s, c, e, h, z, p) CALL(departure)(s, h, slots, z, slots, (e)->clock, p)
#define UPDATE(s, c, e) CALL(tick)(s, (e)->clock)
#define PLAIN_RUN(entry, s, c, q, h, z, calls, answers, n)                                        \
    ((void)(c), entry(s, h, slots, z, slots, calls, answers, n))
#define LIBRARY_RUN(entry, s, c, q, h, z, calls, answers, n)                                      \
    ((void)(c), entry(s, h, slots, z, slots, (const struct obikuteru_fq_call *)(calls),           \
                      (struct obikuteru_fq_answer *)(answers), n))

static inline struct plain_fq_call call_of(const struct event *e)
{
    struct plain_fq_call call = {e->clock, e->handle, e->size, e->u, burst_kind(e->kind, e->ecn), {0}, {0}};
    memcpy(call.key, e->key, sizeof call.key);
    return call;
}

_Static_assert(sizeof(struct plain_fq) == sizeof(struct obikuteru_fq), "the records differ in size");

static inline struct obikuteru_fq library_state(struct plain_fq r)
{
    struct obikuteru_fq s;
    memcpy(&s, &r, sizeof s);
    return s;
}

static inline struct plain_fq library_record(struct obikuteru_fq s)
{
    struct plain_fq r;
    memcpy(&r, &s, sizeof r);
    return r;
}

static inline bool same(struct plain_fq a, struct plain_fq b)
{
    return memcmp(&a, &b, sizeof a) == 0;
}

#endif
