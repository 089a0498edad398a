/* The library's queue. Each accepted call is recorded. */
#include "queueing.h"
#include "recording.h"

static struct obikuteru_state state;
static uint32_t handles[SLOTS], sizes[SLOTS];

static void begin_with(uint8_t profile)
{
    outcome.refused += obikuteru_refused(obikuteru_fresh(&state, TARGET, BUFFER, SLOTS, profile, 0));
    outcome.refused += !begin_recording(TARGET, BUFFER, SLOTS, profile, "a trial with real senders");
}

static void begin(uint64_t rate)
{
    (void)rate;
    begin_with(OBIKUTERU_PLAIN);
}

static void begin_calm(uint64_t rate)
{
    (void)rate;
    begin_with(OBIKUTERU_CALM);
}

static bool arrival(uint64_t clock, int number, uint32_t u)
{
    uint32_t size = packets[number].length;
    bool ecn = reads_marks(number);
    uint32_t answer = obikuteru_arrival(&state, handles, SLOTS, sizes, SLOTS, clock, (uint32_t)number, size, ecn, u);

    if (!obikuteru_refused(answer))
        record_call((struct obikuteru_record){.kind = 'a', .ecn = ecn, .handle = (uint32_t)number, .clock = clock, .size = size, .u = u,
                                              .verdict = answer, .bytes = (uint32_t)state.bytes, .probability = state.probability});
    return note_arrival(answer, number);
}

static int departure(uint64_t clock)
{
    struct obikuteru_packet packet;
    uint32_t answer;

    if (state.count == 0)
        return NO_PACKET;
    answer = obikuteru_departure(&state, handles, SLOTS, sizes, SLOTS, clock, &packet);
    outcome.refused += obikuteru_refused(answer);
    if (obikuteru_refused(answer))
        return NO_PACKET;
    record_call((struct obikuteru_record){.kind = 'd', .clock = clock, .verdict = packet.handle, .bytes = (uint32_t)state.bytes,
                                          .probability = state.probability});
    return (int)packet.handle;
}

static uint64_t due(void)
{
    return state.last + OBIKUTERU_TICK_PERIOD;
}

static void tick(uint64_t clock)
{
    uint32_t answer = obikuteru_tick(&state, clock);

    outcome.refused += obikuteru_refused(answer);
    if (!obikuteru_refused(answer))
        record_call((struct obikuteru_record){.kind = 't', .clock = clock, .bytes = (uint32_t)state.bytes,
                                              .probability = state.probability});
}

const struct queueing ring = {"ring", begin, arrival, departure, due, tick};
const struct queueing calm = {"calm", begin_calm, arrival, departure, due, tick};
