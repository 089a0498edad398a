/*
 * One implementation on the bench: the loops that are timed, the same text for each. Included
 * once for each implementation of a kind (names.h), with these defined:
 *
 *   SIDE(name)   a name in this file        CALL(name)   the measured call of that name
 *   STATE        its record, if that is not plain C's but the library's
 *
 * The calls are direct, into an object file of their own: none is inlined into a loop. Each loop
 * returns a sum of the answers, so that none can be left out.
 */
#ifdef STATE
#define PACKET LIBRARY_PACKET
#define READ(state) library_record(state)
#define WRITE(record) library_state(record)
#else
#define STATE RECORD
#define PACKET PLAIN_PACKET
#define READ(state) (state)
#define WRITE(record) (record)
#endif

static STATE SIDE(queues)[QUEUES];
static uint32_t SIDE(handles)[QUEUES][MOST_SLOTS];
static uint32_t SIDE(sizes)[QUEUES][MOST_SLOTS];
static STATE SIDE(states)[BLOCK];
static uint64_t SIDE(counts)[QUEUES][5]; /* not touched where the records have them */

static const uint64_t *SIDE(row)(size_t queue)
{
    return SIDE(counts)[queue];
}

static const uint32_t *SIDE(words)(size_t queue)
{
    return SIDE(sizes)[queue];
}

static void SIDE(fresh)(void)
{
    for (uint32_t q = 0; q < QUEUES; q++)
        START(&SIDE(queues)[q], SIDE(counts), q);
}

static RECORD SIDE(record)(size_t queue)
{
    return READ(SIDE(queues)[queue]);
}

/* The next n events on the queues. */
static uint64_t SIDE(mix)(const struct event *e, size_t n)
{
    PACKET packet = {0};
    size_t slots = stream->slots;
    uint64_t sum = 0;
    for (const struct event *end = e + n; e < end; e++) {
        uint32_t q = QUEUE(e);
        if (e->kind == ARRIVAL) {
            sum += ARRIVE(&SIDE(queues)[q], SIDE(counts), e, SIDE(handles)[q], SIDE(sizes)[q]);
        } else if (e->kind == DEPARTURE) {
            sum += DEPART(&SIDE(queues)[q], SIDE(counts), e, SIDE(handles)[q], SIDE(sizes)[q],
                          &packet);
            sum += packet.handle + (uint64_t)packet.size;
        } else {
            sum += UPDATE(&SIDE(queues)[q], SIDE(counts), e);
        }
    }
    return sum;
}

/* The states of a block of situations, and one of them afterwards. */
static void SIDE(load)(const RECORD *before)
{
    for (size_t i = 0; i < BLOCK; i++)
        SIDE(states)[i] = WRITE(before[i]);
}

static RECORD SIDE(loaded)(size_t i)
{
    return READ(SIDE(states)[i]);
}

static uint64_t SIDE(arrivals)(const struct event *e)
{
    size_t slots = stream->slots;
    uint64_t sum = 0;
    for (size_t i = 0; i < BLOCK; i++)
        sum += ARRIVE(&SIDE(states)[i], SIDE(counts), &e[i], LENT(block_handles, i),
                      LENT(block_sizes, i));
    return sum;
}

static uint64_t SIDE(departures)(const struct event *e)
{
    PACKET packet = {0};
    size_t slots = stream->slots;
    uint64_t sum = 0;
    for (size_t i = 0; i < BLOCK; i++) {
        sum += DEPART(&SIDE(states)[i], SIDE(counts), &e[i], LENT(block_handles, i),
                      LENT(block_sizes, i), &packet);
        sum += packet.handle + (uint64_t)packet.size;
    }
    return sum;
}

static uint64_t SIDE(ticks)(const struct event *e)
{
    uint64_t sum = 0;
    for (size_t i = 0; i < BLOCK; i++)
        sum += UPDATE(&SIDE(states)[i], SIDE(counts), &e[i]);
    return sum;
}

#undef SIDE
#undef CALL
#undef STATE
#undef PACKET
#undef READ
#undef WRITE
