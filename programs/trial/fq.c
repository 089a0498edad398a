/* The library's 64 flows in one pair of tables: a packet's flow is that of its key, by a salt drawn at the start. */
#include "queueing.h"

#include <sys/random.h>

static struct obikuteru_fq record;
static uint32_t handles[SLOTS], sizes[SLOTS];

static void begin(uint64_t rate)
{
    uint32_t salt = 0;

    (void)rate;
    if (getrandom(&salt, sizeof salt, 0) != sizeof salt)
        salt = 0;
    outcome.refused += obikuteru_refused(obikuteru_fq_fresh(&record, TARGET, BUFFER, SLOTS, salt, 0));
}

static bool arrival(uint64_t clock, int number, uint32_t u)
{
    uint8_t key[13];

    key_of(number, key);
    return note_arrival(obikuteru_fq_arrival(&record, handles, SLOTS, sizes, SLOTS, clock, key, (uint32_t)number, packets[number].length,
                                             reads_marks(number), u),
                        number);
}

static int departure(uint64_t clock)
{
    struct obikuteru_flow_packet packet;
    uint32_t answer;

    if (record.count == 0)
        return NO_PACKET;
    answer = obikuteru_fq_departure(&record, handles, SLOTS, sizes, SLOTS, clock, &packet);
    outcome.refused += obikuteru_refused(answer);
    return obikuteru_refused(answer) ? NO_PACKET : (int)packet.handle;
}

static uint64_t due(void)
{
    return record.last + OBIKUTERU_TICK_PERIOD;
}

static void tick(uint64_t clock)
{
    outcome.refused += obikuteru_refused(obikuteru_fq_tick(&record, clock));
}

const struct queueing fq = {"fq", begin, arrival, departure, due, tick};
