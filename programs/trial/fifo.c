/* A queue of the same buffer that sheds nothing early. */
#include "queueing.h"

static int waiting[SLOTS];
static uint32_t first, count, bytes;

static void begin(uint64_t rate)
{
    (void)rate;
    first = count = bytes = 0;
}

static bool arrival(uint64_t clock, int number, uint32_t u)
{
    uint32_t answer = OBIKUTERU_ENQUEUED;

    (void)clock;
    (void)u;
    if (bytes + packets[number].length > BUFFER)
        answer = OBIKUTERU_DROPPED_BYTES;
    else if (count == SLOTS)
        answer = OBIKUTERU_DROPPED_SLOTS;
    if (!note_arrival(answer, number))
        return false;
    waiting[(first + count++) % SLOTS] = number;
    bytes += packets[number].length;
    return true;
}

static int departure(uint64_t clock)
{
    int number = waiting[first];

    (void)clock;
    if (count == 0)
        return NO_PACKET;
    first = (first + 1) % SLOTS;
    count--;
    bytes -= packets[number].length;
    return number;
}

static uint64_t due(void)
{
    return UINT64_MAX;
}

static void tick(uint64_t clock)
{
    (void)clock;
}

const struct queueing fifo = {"fifo", begin, arrival, departure, due, tick};
