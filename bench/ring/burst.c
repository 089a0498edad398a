/* Bursts of calls by the rules of plain.c. */
#include "plain.h"

#include "../shared/burst.h"

#define plain_fresh BURST(burst_fresh)
#define plain_arrival BURST(burst_arrival)
#define plain_departure BURST(burst_departure)
#define plain_tick BURST(burst_tick)
#include "plain.c"

/* With tests of everything, as each call has them alone. */
RARE struct plain_answered single(struct plain_state *s, uint32_t *handles, size_t handles_len,
                                  uint32_t *sizes, size_t sizes_len, const struct plain_call *c)
{
    struct plain_packet packet = {0, 0};
    uint32_t code;
    switch (c->kind) {
    case PLAIN_ARRIVAL:
    case PLAIN_ECN_ARRIVAL:
        return coded(plain_arrival(s, handles, handles_len, sizes, sizes_len, c->clock, c->handle,
                                   c->size, c->kind == PLAIN_ECN_ARRIVAL, c->u));
    case PLAIN_DEPARTURE:
        code = plain_departure(s, handles, handles_len, sizes, sizes_len, c->clock, &packet);
        return departed(code, packet);
    case PLAIN_TICK:
        return coded(plain_tick(s, c->clock));
    }
    return coded(PLAIN_REFUSED_CALL);
}

/* With the tests of its own alone. */
static inline struct plain_answered next(struct plain_state *s, uint32_t *handles, uint32_t *sizes,
                                         const struct plain_call *c)
{
    struct plain_packet packet = {0, 0};
    uint32_t code;
    switch (c->kind) {
    case PLAIN_ARRIVAL:
    case PLAIN_ECN_ARRIVAL:
        return coded(arrive(s, handles, sizes, c->clock, c->handle, c->size,
                            c->kind == PLAIN_ECN_ARRIVAL, c->u, ROOM));
    case PLAIN_DEPARTURE:
        code = depart(s, handles, sizes, c->clock, &packet);
        return departed(code, packet);
    case PLAIN_TICK:
        return coded(tick(s, c->clock));
    }
    return coded(PLAIN_REFUSED_CALL);
}

void BURST(calls)(struct plain_state *s, uint32_t *handles, size_t handles_len, uint32_t *sizes,
                  size_t sizes_len, const struct plain_call *calls, struct plain_answered *answers,
                  size_t n)
{
    if (!well_formed(s) || handles_len != s->slots || sizes_len != s->slots
        || NO_ROOM(arrivals_counted(s->verdicts), n)) {
        for (size_t i = 0; i < n; i++)
            answers[i] = single(s, handles, handles_len, sizes, sizes_len, &calls[i]);
        return;
    }
    for (size_t i = 0; i < n; i++)
        answers[i] = next(s, handles, sizes, &calls[i]);
}
