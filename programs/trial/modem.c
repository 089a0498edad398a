/* One of the modem's sixteen flows, with the modem's own target. The bottleneck has one rate: peak and sustained are equal. */
#include "queueing.h"

enum { FLOW = 0, CREDITS = 0 };

static struct obikuteru_modem_state state;
static uint64_t counts[OBIKUTERU_MODEM_FLOWS][5];
static uint32_t handles[SLOTS], sizes[SLOTS];

static void begin(uint64_t rate)
{
    uint32_t answer = obikuteru_modem_fresh(&state, counts, FLOW, OBIKUTERU_MODEM_TARGET, BUFFER, SLOTS, rate, rate, 0);

    outcome.refused += obikuteru_refused(answer);
}

static bool arrival(uint64_t clock, int number, uint32_t u)
{
    return note_arrival(obikuteru_modem_arrival(&state, counts, FLOW, handles, SLOTS, sizes, SLOTS, clock, (uint32_t)number,
                                                packets[number].length, u),
                        number);
}

static int departure(uint64_t clock)
{
    struct obikuteru_packet packet;
    uint32_t answer;

    if (state.count == 0)
        return NO_PACKET;
    answer = obikuteru_modem_departure(&state, counts, FLOW, handles, SLOTS, sizes, SLOTS, clock, &packet);
    outcome.refused += obikuteru_refused(answer);
    return obikuteru_refused(answer) ? NO_PACKET : (int)packet.handle;
}

static uint64_t due(void)
{
    return state.last + OBIKUTERU_MODEM_TICK_PERIOD;
}

static void tick(uint64_t clock)
{
    outcome.refused += obikuteru_refused(obikuteru_modem_tick(&state, counts, FLOW, clock, CREDITS));
}

const struct queueing modem = {"modem", begin, arrival, departure, due, tick};
