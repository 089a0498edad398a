/*
 * The modem's calls by bench/modem/plain.c, under the library's names: with it the comparison runs
 * on plain C, which shows that the bench measures against the same rules, refusals and all.
 *
 *   cc -O2 -Iinclude -c tests/modem/stand_in.c bench/modem/plain.c bench/modem/burst.c
 *   ar rcs libstand.a stand_in.o plain.o burst.o
 *   rustc --edition 2021 -O -L native=. -l static=stand tests/modem/main.rs -o modem
 *
 * A word that the narrower field of plain C cannot hold becomes the greatest number, which is out
 * of every range; a record is written back only where the call was accepted, and where one call of a
 * burst was.
 */
#include <obikuteru.h>

#include <string.h>

#include "../../bench/modem/plain.h"

static uint32_t narrow(uint64_t word)
{
    return word < UINT32_MAX ? (uint32_t)word : UINT32_MAX;
}

static struct plain_modem read(const struct obikuteru_modem_state *s)
{
    return (struct plain_modem){
        .target = narrow(s->target), .buffer = narrow(s->buffer), .slots = narrow(s->slots),
        .peak = narrow(s->peak), .sustained = narrow(s->sustained),
        .clock = s->clock, .last = s->last,
        .probability = s->probability, .accumulated = s->accumulated,
        .old_delay = narrow(s->old_delay), .allowance = narrow(s->allowance),
        .reset = narrow(s->reset), .activity = narrow(s->activity),
        .first = narrow(s->first), .count = narrow(s->count), .bytes = narrow(s->bytes)};
}

static void write(struct obikuteru_modem_state *s, const struct plain_modem *p)
{
    *s = (struct obikuteru_modem_state){
        p->target, p->buffer, p->slots, p->peak, p->sustained, p->clock, p->last, p->probability,
        p->accumulated, p->old_delay, p->allowance, p->reset, p->activity, p->first, p->count,
        p->bytes};
}

static uint32_t answered(struct obikuteru_modem_state *s, const struct plain_modem *p,
                         uint32_t answer)
{
    if (!obikuteru_refused(answer))
        write(s, p);
    return answer;
}

uint32_t obikuteru_modem_fresh(struct obikuteru_modem_state *state, uint64_t counts[16][5],
                               uint32_t flow, uint64_t target, uint64_t buffer, uint64_t slots,
                               uint64_t peak, uint64_t sustained, uint64_t clock)
{
    struct plain_modem p;
    uint32_t answer = plain_modem_fresh(&p, counts, flow, narrow(target), narrow(buffer),
                                        narrow(slots), narrow(peak), narrow(sustained), clock);
    write(state, &p);
    return answer;
}

uint32_t obikuteru_modem_arrival(struct obikuteru_modem_state *state, uint64_t counts[16][5],
                                 uint32_t flow, uint32_t *handles, size_t handles_len,
                                 uint32_t *sizes, size_t sizes_len, uint64_t clock,
                                 uint32_t handle, uint32_t size, uint32_t u)
{
    struct plain_modem p = read(state);
    return answered(state, &p, plain_modem_arrival(&p, counts, flow, handles, handles_len, sizes,
                                                   sizes_len, clock, handle, size, u));
}

uint32_t obikuteru_modem_departure(struct obikuteru_modem_state *state, uint64_t counts[16][5],
                                   uint32_t flow, const uint32_t *handles, size_t handles_len,
                                   const uint32_t *sizes, size_t sizes_len, uint64_t clock,
                                   struct obikuteru_packet *packet)
{
    struct plain_modem p = read(state);
    struct plain_packet head;
    uint32_t answer = plain_modem_departure(&p, counts, flow, handles, handles_len, sizes,
                                            sizes_len, clock, &head);
    packet->handle = head.handle;
    packet->size = head.size;
    return answered(state, &p, answer);
}

uint32_t obikuteru_modem_tick(struct obikuteru_modem_state *state, uint64_t counts[16][5],
                              uint32_t flow, uint64_t clock, uint32_t credits)
{
    struct plain_modem p = read(state);
    return answered(state, &p, plain_modem_tick(&p, counts, flow, clock, credits));
}

uint32_t obikuteru_modem_calls(struct obikuteru_modem_state *state, uint64_t counts[16][5],
                               uint32_t flow, uint32_t *handles, size_t handles_len,
                               uint32_t *sizes, size_t sizes_len, const uint32_t *calls,
                               size_t calls_len, uint64_t *answers, size_t answers_len)
{
    struct plain_modem p = read(state);
    bool accepted = false;
    if (calls_len % 6 != 0 || calls_len / 6 != answers_len)
        return OBIKUTERU_REFUSED_CALL;
    plain_modem_calls(&p, counts, flow, handles, handles_len, sizes, sizes_len,
                      (const struct plain_call *)calls, (struct plain_answered *)answers,
                      answers_len);
    for (size_t i = 0; i < answers_len; i++)
        accepted |= !obikuteru_refused(answers[i] & 0xffff);
    if (accepted)
        write(state, &p);
    return OBIKUTERU_ACCEPTED;
}

bool obikuteru_modem_well_formed(const struct obikuteru_modem_state *state,
                                 uint64_t counts[16][5], uint32_t flow)
{
    struct plain_modem p = read(state);
    return plain_modem_well_formed(&p, counts, flow);
}
