/* Bursts of calls by the rules of plain.c. */
#include "plain.h"

#include "../shared/burst.h"

#define plain_modem_fresh BURST(modem_burst_fresh)
#define plain_modem_arrival BURST(modem_burst_arrival)
#define plain_modem_departure BURST(modem_burst_departure)
#define plain_modem_tick BURST(modem_burst_tick)
#define plain_modem_well_formed BURST(modem_burst_well_formed)
#include "plain.c"

/* With tests of everything, as each call has them alone. */
RARE struct plain_answered single(struct plain_modem *s, uint64_t (*counts)[5], uint32_t flow,
                                  uint32_t *handles, size_t handles_len, uint32_t *sizes,
                                  size_t sizes_len, const struct plain_call *c)
{
    struct plain_packet packet = {0, 0};
    uint32_t code;
    switch (c->kind) {
    case PLAIN_ARRIVAL:
        return coded(plain_modem_arrival(s, counts, flow, handles, handles_len, sizes, sizes_len,
                                         c->clock, c->handle, c->size, c->u));
    case PLAIN_DEPARTURE:
        code = plain_modem_departure(s, counts, flow, handles, handles_len, sizes, sizes_len,
                                     c->clock, &packet);
        return departed(code, packet);
    case PLAIN_TICK:
        return coded(plain_modem_tick(s, counts, flow, c->clock, c->size));
    }
    return coded(PLAIN_REFUSED_CALL);
}

/* With the tests of its own alone. */
static inline struct plain_answered next(struct plain_modem *s, uint64_t *row, uint32_t *handles,
                                         uint32_t *sizes, const struct plain_call *c)
{
    struct plain_packet packet = {0, 0};
    uint32_t code;
    switch (c->kind) {
    case PLAIN_ARRIVAL:
        return coded(arrive(s, row, handles, sizes, c->clock, c->handle, c->size, c->u, ROOM));
    case PLAIN_DEPARTURE:
        code = depart(s, handles, sizes, c->clock, &packet);
        return departed(code, packet);
    case PLAIN_TICK:
        return coded(tick(s, c->clock, c->size));
    }
    return coded(PLAIN_REFUSED_CALL);
}

void BURST(modem_calls)(struct plain_modem *s, uint64_t (*counts)[5], uint32_t flow,
                        uint32_t *handles, size_t handles_len, uint32_t *sizes, size_t sizes_len,
                        const struct plain_call *calls, struct plain_answered *answers, size_t n)
{
    if (PLAIN_FLOWS <= flow || !well_formed(s, counts[flow]) || handles_len != s->slots
        || sizes_len != s->slots || NO_ROOM(arrivals_counted(counts[flow]), n)) {
        for (size_t i = 0; i < n; i++)
            answers[i] = single(s, counts, flow, handles, handles_len, sizes, sizes_len, &calls[i]);
        return;
    }
    for (size_t i = 0; i < n; i++)
        answers[i] = next(s, counts[flow], handles, sizes, &calls[i]);
}
