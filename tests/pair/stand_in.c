/*
 * The pair's calls by bench/pair/plain.c, and the queue's by bench/ring/plain.c, under the library's names:
 * with it the comparison runs on plain C, which shows that the bench measures against the same
 * rules, refusals and all.
 *
 *   cc -O2 -Iinclude -c tests/pair/stand_in.c bench/pair/plain.c bench/pair/burst.c
 *   cc -O2 -Iinclude -c -o ring.o bench/ring/plain.c
 *   ar rcs libstand.a stand_in.o plain.o burst.o ring.o
 *   rustc --edition 2021 -O -L native=. -l static=stand tests/pair/main.rs -o pair
 *
 * A word that the narrower field of plain C cannot hold becomes the greatest number, which is out
 * of every range; a record is written back only where the call was accepted. A burst runs in bursts
 * of one call. Of the queue only what a run from fresh needs is here.
 */
#include <obikuteru.h>

#include <string.h>

#include "../../bench/pair/plain.h"
#include "../../bench/ring/plain.h"

static uint32_t narrow(uint64_t word)
{
    return word < UINT32_MAX ? (uint32_t)word : UINT32_MAX;
}

/* A word that says that a measurement runs stays as it is while one does. */
static uint64_t measuring_word(bool measuring, uint64_t before)
{
    return !measuring ? 0 : before != 0 ? before : 1;
}

static struct plain_shared read_shared(const struct obikuteru_shared *s)
{
    return (struct plain_shared){
        .slots = narrow(s->slots), .reserve = {narrow(s->reserve[0]), narrow(s->reserve[1])},
        .used = narrow(s->used), .freed = narrow(s->freed), .spare = narrow(s->spare)};
}

static struct plain_pair_queue read_queue(const struct obikuteru_pair_queue *q)
{
    struct plain_pair_queue p = {
        .target = narrow(q->target), .buffer = narrow(q->buffer), .clock = q->clock, .last = q->last,
        .probability = q->probability, .old_delay = narrow(q->old_delay),
        .allowance = narrow(q->allowance), .accumulated = q->accumulated,
        .average = narrow(q->average), .measuring = q->measuring != 0, .start = q->start,
        .counted = narrow(q->counted), .count = narrow(q->count), .bytes = narrow(q->bytes),
        .head = narrow(q->head), .tail = narrow(q->tail)};
    memcpy(p.verdicts, q->verdicts, sizeof p.verdicts);
    return p;
}

static void write_shared(struct obikuteru_shared *s, const struct plain_shared *p)
{
    *s = (struct obikuteru_shared){p->slots, {p->reserve[0], p->reserve[1]}, p->used, p->freed,
                                   p->spare};
}

static void write_queue(struct obikuteru_pair_queue *q, const struct plain_pair_queue *p)
{
    uint64_t measuring = measuring_word(p->measuring, q->measuring);
    *q = (struct obikuteru_pair_queue){
        p->target, p->buffer, p->clock, p->last, p->probability, p->old_delay, p->allowance,
        p->accumulated, p->average, measuring, p->start, p->counted, p->count, p->bytes, p->head,
        p->tail, {0}};
    memcpy(q->verdicts, p->verdicts, sizeof p->verdicts);
}

struct records {
    struct plain_shared shared;
    struct plain_pair_queue queues[2];
};

static struct records read(const struct obikuteru_shared *s, const struct obikuteru_pair_queue *q0,
                           const struct obikuteru_pair_queue *q1)
{
    return (struct records){read_shared(s), {read_queue(q0), read_queue(q1)}};
}

uint32_t obikuteru_pair_fresh(struct obikuteru_shared *shared,
                              struct obikuteru_pair_queue *intercom,
                              struct obikuteru_pair_queue *passengers, uint64_t slots,
                              uint64_t target0, uint64_t buffer0, uint64_t reserve0,
                              uint64_t clock0, uint64_t target1, uint64_t buffer1,
                              uint64_t reserve1, uint64_t clock1)
{
    struct records r;
    uint32_t answer = plain_pair_fresh(
        &r.shared, &r.queues[0], &r.queues[1], narrow(slots), narrow(target0), narrow(buffer0),
        narrow(reserve0), clock0, narrow(target1), narrow(buffer1), narrow(reserve1), clock1);
    write_shared(shared, &r.shared);
    write_queue(intercom, &r.queues[0]);
    write_queue(passengers, &r.queues[1]);
    return answer;
}

/* The two queues' records, the called one's first: plain C takes them in their own order. */
static struct records read_called(const struct obikuteru_shared *s,
                                  const struct obikuteru_pair_queue *own,
                                  const struct obikuteru_pair_queue *other, bool second)
{
    return second ? read(s, other, own) : read(s, own, other);
}

uint32_t obikuteru_pair_arrival_of(struct obikuteru_shared *shared,
                                   struct obikuteru_pair_queue *own,
                                   const struct obikuteru_pair_queue *other, bool second,
                                   uint32_t *handles, size_t handles_len, uint32_t *sizes,
                                   size_t sizes_len, uint64_t clock, uint32_t handle,
                                   uint32_t size, bool ecn, uint32_t u)
{
    struct records r = read_called(shared, own, other, second);
    uint32_t answer = plain_pair_arrival(&r.shared, &r.queues[0], &r.queues[1], second, handles,
                                         handles_len, sizes, sizes_len, clock, handle, size, ecn,
                                         u);
    if (!obikuteru_refused(answer)) {
        write_shared(shared, &r.shared);
        write_queue(own, &r.queues[second]);
    }
    return answer;
}

uint32_t obikuteru_pair_departure_of(struct obikuteru_shared *shared,
                                     struct obikuteru_pair_queue *own,
                                     const struct obikuteru_pair_queue *other, bool second,
                                     const uint32_t *handles, size_t handles_len, uint32_t *sizes,
                                     size_t sizes_len, uint64_t clock,
                                     struct obikuteru_packet *packet)
{
    struct records r = read_called(shared, own, other, second);
    struct plain_packet head;
    uint32_t answer = plain_pair_departure(&r.shared, &r.queues[0], &r.queues[1], second, handles,
                                           handles_len, sizes, sizes_len, clock, &head);
    packet->handle = head.handle;
    packet->size = head.size;
    if (!obikuteru_refused(answer)) {
        write_shared(shared, &r.shared);
        write_queue(own, &r.queues[second]);
    }
    return answer;
}

uint32_t obikuteru_pair_tick_of(const struct obikuteru_shared *shared,
                                struct obikuteru_pair_queue *own,
                                const struct obikuteru_pair_queue *other, bool second,
                                uint64_t clock)
{
    struct records r = read_called(shared, own, other, second);
    uint32_t answer = plain_pair_tick(&r.shared, &r.queues[0], &r.queues[1], second, clock);
    if (!obikuteru_refused(answer))
        write_queue(own, &r.queues[second]);
    return answer;
}

uint32_t obikuteru_pair_calls(struct obikuteru_shared *shared,
                              struct obikuteru_pair_queue *intercom,
                              struct obikuteru_pair_queue *passengers, uint32_t *handles,
                              size_t handles_len, uint32_t *sizes, size_t sizes_len,
                              const uint32_t *calls, size_t calls_len, uint64_t *answers,
                              size_t answers_len)
{
    if (calls_len % 6 != 0 || calls_len / 6 != answers_len)
        return OBIKUTERU_REFUSED_CALL;
    for (size_t i = 0; i < answers_len; i++) {
        struct records r = read(shared, intercom, passengers);
        struct plain_call call;
        struct plain_answered answer;
        memcpy(&call, &calls[6 * i], sizeof call);
        plain_pair_calls(&r.shared, &r.queues[0], &r.queues[1], handles, handles_len, sizes,
                         sizes_len, &call, &answer, 1);
        memcpy(&answers[i], &answer, sizeof answer);
        if (!obikuteru_refused(answer.code)) {
            bool second = PLAIN_PASSENGERS <= call.kind;
            write_shared(shared, &r.shared);
            write_queue(second ? passengers : intercom, &r.queues[second]);
        }
    }
    return OBIKUTERU_ACCEPTED;
}

bool obikuteru_pair_well_formed(const struct obikuteru_shared *shared,
                                const struct obikuteru_pair_queue *intercom,
                                const struct obikuteru_pair_queue *passengers)
{
    struct records r = read(shared, intercom, passengers);
    return plain_pair_well_formed(&r.shared, &r.queues[0], &r.queues[1]);
}

static struct plain_state read_state(const struct obikuteru_state *s)
{
    struct plain_state p = {
        .target = narrow(s->target), .buffer = narrow(s->buffer), .slots = narrow(s->slots),
        .clock = s->clock, .last = s->last, .probability = s->probability,
        .old_delay = narrow(s->old_delay), .allowance = narrow(s->allowance),
        .accumulated = s->accumulated, .average = narrow(s->average),
        .measuring = s->measuring != 0, .start = s->start, .counted = narrow(s->counted),
        .count = narrow(s->count), .bytes = narrow(s->bytes), .first = narrow(s->first),
        .profile = narrow(s->profile), .active = s->active != 0};
    memcpy(p.verdicts, s->verdicts, sizeof p.verdicts);
    return p;
}

static void write_state(struct obikuteru_state *s, const struct plain_state *p)
{
    uint64_t measuring = measuring_word(p->measuring, s->measuring);
    *s = (struct obikuteru_state){
        p->target, p->buffer, p->slots, p->clock, p->last, p->probability, p->old_delay,
        p->allowance, p->accumulated, p->average, measuring, p->start, p->counted, p->count,
        p->bytes, p->first, {0}, p->profile, p->active};
    memcpy(s->verdicts, p->verdicts, sizeof p->verdicts);
}

uint32_t obikuteru_fresh(struct obikuteru_state *state, uint64_t target, uint64_t buffer,
                         uint64_t slots, uint64_t profile, uint64_t clock)
{
    struct plain_state p;
    uint32_t answer = plain_fresh(&p, narrow(target), narrow(buffer), narrow(slots), narrow(profile), clock);
    write_state(state, &p);
    return answer;
}

uint32_t obikuteru_arrival(struct obikuteru_state *state, uint32_t *handles, size_t handles_len,
                           uint32_t *sizes, size_t sizes_len, uint64_t clock, uint32_t handle,
                           uint32_t size, bool ecn, uint32_t u)
{
    struct plain_state p = read_state(state);
    uint32_t answer = plain_arrival(&p, handles, handles_len, sizes, sizes_len, clock, handle,
                                    size, ecn, u);
    if (!obikuteru_refused(answer))
        write_state(state, &p);
    return answer;
}

uint32_t obikuteru_departure(struct obikuteru_state *state, const uint32_t *handles,
                             size_t handles_len, const uint32_t *sizes, size_t sizes_len,
                             uint64_t clock, struct obikuteru_packet *packet)
{
    struct plain_state p = read_state(state);
    struct plain_packet head;
    uint32_t answer = plain_departure(&p, handles, handles_len, sizes, sizes_len, clock, &head);
    packet->handle = head.handle;
    packet->size = head.size;
    if (!obikuteru_refused(answer))
        write_state(state, &p);
    return answer;
}

uint32_t obikuteru_tick(struct obikuteru_state *state, uint64_t clock)
{
    struct plain_state p = read_state(state);
    uint32_t answer = plain_tick(&p, clock);
    if (!obikuteru_refused(answer))
        write_state(state, &p);
    return answer;
}
