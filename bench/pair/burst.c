/* Bursts of calls by the rules of plain.c. */
#include "plain.h"

#include "../shared/burst.h"

#define plain_pair_fresh BURST(pair_burst_fresh)
#define plain_pair_arrival BURST(pair_burst_arrival)
#define plain_pair_departure BURST(pair_burst_departure)
#define plain_pair_tick BURST(pair_burst_tick)
#define plain_pair_well_formed BURST(pair_burst_well_formed)
#include "plain.c"

/* With tests of everything, as each call has them alone. */
RARE struct plain_answered single(struct plain_shared *shared, struct plain_pair_queue *intercom,
                                  struct plain_pair_queue *passengers, uint32_t *handles,
                                  size_t handles_len, uint32_t *sizes, size_t sizes_len,
                                  const struct plain_call *c)
{
    struct plain_packet packet = {0, 0};
    bool second = PLAIN_PASSENGERS <= c->kind;
    uint32_t code, kind = second ? c->kind - PLAIN_PASSENGERS : c->kind;
    switch (kind) {
    case PLAIN_ARRIVAL:
    case PLAIN_ECN_ARRIVAL:
        return coded(plain_pair_arrival(shared, intercom, passengers, second, handles, handles_len,
                                        sizes, sizes_len, c->clock, c->handle, c->size,
                                        kind == PLAIN_ECN_ARRIVAL, c->u));
    case PLAIN_DEPARTURE:
        code = plain_pair_departure(shared, intercom, passengers, second, handles, handles_len,
                                    sizes, sizes_len, c->clock, &packet);
        return departed(code, packet);
    case PLAIN_TICK:
        return coded(plain_pair_tick(shared, intercom, passengers, second, c->clock));
    }
    return coded(PLAIN_REFUSED_CALL);
}

/* With the tests of its own alone. */
static inline struct plain_answered next(struct plain_shared *shared,
                                         struct plain_pair_queue *intercom,
                                         struct plain_pair_queue *passengers, uint32_t *handles,
                                         uint32_t *sizes, const struct plain_call *c)
{
    struct plain_packet packet = {0, 0};
    bool second = PLAIN_PASSENGERS <= c->kind;
    struct plain_pair_queue *q = second ? passengers : intercom;
    uint32_t code, kind = second ? c->kind - PLAIN_PASSENGERS : c->kind;
    switch (kind) {
    case PLAIN_ARRIVAL:
    case PLAIN_ECN_ARRIVAL:
        return coded(arrive(shared, intercom, passengers, second, q, handles, sizes, c->clock,
                            c->handle, c->size, kind == PLAIN_ECN_ARRIVAL, c->u, ROOM));
    case PLAIN_DEPARTURE:
        code = depart(shared, q, handles, sizes, c->clock, &packet);
        return departed(code, packet);
    case PLAIN_TICK:
        return coded(tick(q, c->clock));
    }
    return coded(PLAIN_REFUSED_CALL);
}

void BURST(pair_calls)(struct plain_shared *shared, struct plain_pair_queue *intercom,
                       struct plain_pair_queue *passengers, uint32_t *handles, size_t handles_len,
                       uint32_t *sizes, size_t sizes_len, const struct plain_call *calls,
                       struct plain_answered *answers, size_t n)
{
    if (!well_formed(shared, intercom, passengers) || handles_len != shared->slots
        || sizes_len != shared->slots || NO_ROOM(arrivals_counted(intercom->verdicts), n)
        || NO_ROOM(arrivals_counted(passengers->verdicts), n)) {
        for (size_t i = 0; i < n; i++)
            answers[i] = single(shared, intercom, passengers, handles, handles_len, sizes,
                                sizes_len, &calls[i]);
        return;
    }
    for (size_t i = 0; i < n; i++)
        answers[i] = next(shared, intercom, passengers, handles, sizes, &calls[i]);
}
