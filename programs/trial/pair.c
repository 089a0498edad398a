/*
 * The library's two queues in one pair of tables: voice in the intercom's, all else in the passengers'. The intercom's packets leave
 * first.
 */
#include "queueing.h"

enum { INTERCOM_BUFFER = 32000, INTERCOM_RESERVE = 128 };

static struct obikuteru_shared shared;
static struct obikuteru_pair_queue queues[2];
static uint32_t handles[SLOTS], sizes[SLOTS];

static void begin(uint64_t rate)
{
    uint32_t answer = obikuteru_pair_fresh(&shared, &queues[0], &queues[1], SLOTS, TARGET, INTERCOM_BUFFER, INTERCOM_RESERVE, 0, TARGET,
                                           BUFFER, 0, 0);

    (void)rate;
    outcome.refused += obikuteru_refused(answer);
}

static bool arrival(uint64_t clock, int number, uint32_t u)
{
    bool second = is_voice(number) ? OBIKUTERU_INTERCOM : OBIKUTERU_PASSENGERS;

    return note_arrival(obikuteru_pair_arrival(&shared, &queues[0], &queues[1], second, handles, SLOTS, sizes, SLOTS, clock,
                                               (uint32_t)number, packets[number].length, reads_marks(number), u),
                        number);
}

static int departure(uint64_t clock)
{
    bool second = queues[0].count == 0 ? OBIKUTERU_PASSENGERS : OBIKUTERU_INTERCOM;
    struct obikuteru_packet packet;
    uint32_t answer;

    if (queues[second].count == 0)
        return NO_PACKET;
    answer = obikuteru_pair_departure(&shared, &queues[0], &queues[1], second, handles, SLOTS, sizes, SLOTS, clock, &packet);
    outcome.refused += obikuteru_refused(answer);
    return obikuteru_refused(answer) ? NO_PACKET : (int)packet.handle;
}

static uint64_t due(void)
{
    uint64_t last = queues[0].last < queues[1].last ? queues[0].last : queues[1].last;

    return last + OBIKUTERU_TICK_PERIOD;
}

static void tick(uint64_t clock)
{
    for (int i = 0; i < 2; i++)
        if (queues[i].last + OBIKUTERU_TICK_PERIOD <= clock)
            outcome.refused += obikuteru_refused(obikuteru_pair_tick(&shared, &queues[0], &queues[1], i != 0, clock));
}

const struct queueing pair = {"pair", begin, arrival, departure, due, tick};
