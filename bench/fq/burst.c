/* Bursts of calls by the rules of plain.c. */
#include "plain.h"

#include "../shared/burst.h"

#define plain_fq_flow BURST(fq_burst_flow)
#define plain_fq_fresh BURST(fq_burst_fresh)
#define plain_fq_arrival BURST(fq_burst_arrival)
#define plain_fq_departure BURST(fq_burst_departure)
#define plain_fq_tick BURST(fq_burst_tick)
#define plain_fq_well_formed BURST(fq_burst_well_formed)
#include "plain.c"

static inline struct plain_fq_answered fq_coded(uint32_t code)
{
    return (struct plain_fq_answered){(uint8_t)code, 0, 0, 0};
}

static inline struct plain_fq_answered fq_departed(uint32_t code, struct plain_flow_packet packet)
{
    return (struct plain_fq_answered){(uint8_t)code, (uint8_t)packet.flow, (uint16_t)packet.size,
                                      packet.handle};
}

/* With tests of everything, as each call has them alone. */
RARE struct plain_fq_answered single(struct plain_fq *q, uint32_t *handles, size_t handles_len,
                                     uint32_t *sizes, size_t sizes_len,
                                     const struct plain_fq_call *c)
{
    struct plain_flow_packet packet = {0, 0, 0};
    uint32_t code;
    switch (c->kind) {
    case PLAIN_ARRIVAL:
    case PLAIN_ECN_ARRIVAL:
        return fq_coded(plain_fq_arrival(q, handles, handles_len, sizes, sizes_len, c->clock,
                                         c->key, c->handle, c->size,
                                         c->kind == PLAIN_ECN_ARRIVAL, c->u));
    case PLAIN_DEPARTURE:
        code = plain_fq_departure(q, handles, handles_len, sizes, sizes_len, c->clock, &packet);
        return fq_departed(code, packet);
    case PLAIN_TICK:
        return fq_coded(plain_fq_tick(q, c->clock));
    }
    return fq_coded(PLAIN_REFUSED_CALL);
}

/* With the tests of its own alone. */
static inline struct plain_fq_answered next(struct plain_fq *q, uint32_t *handles, uint32_t *sizes,
                                            const struct plain_fq_call *c)
{
    struct plain_flow_packet packet = {0, 0, 0};
    uint32_t code;
    switch (c->kind) {
    case PLAIN_ARRIVAL:
    case PLAIN_ECN_ARRIVAL:
        return fq_coded(arrive(q, NULL, handles, sizes, c->clock, c->key, c->handle, c->size,
                               c->kind == PLAIN_ECN_ARRIVAL, c->u, ROOM));
    case PLAIN_DEPARTURE:
        code = depart(q, handles, sizes, c->clock, &packet);
        return fq_departed(code, packet);
    case PLAIN_TICK:
        return fq_coded(tick(q, c->clock));
    }
    return fq_coded(PLAIN_REFUSED_CALL);
}

void BURST(fq_calls)(struct plain_fq *fq, uint32_t *handles, size_t handles_len, uint32_t *sizes,
                     size_t sizes_len, const struct plain_fq_call *calls,
                     struct plain_fq_answered *answers, size_t n)
{
    uint64_t marks;
    if (!well_formed(fq, &marks) || handles_len != fq->slots || sizes_len != fq->slots
        || NO_ROOM(arrivals_counted(fq->verdicts), n)) {
        for (size_t i = 0; i < n; i++)
            answers[i] = single(fq, handles, handles_len, sizes, sizes_len, &calls[i]);
        return;
    }
    for (size_t i = 0; i < n; i++)
        answers[i] = next(fq, handles, sizes, &calls[i]);
}
