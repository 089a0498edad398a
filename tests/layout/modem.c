/* The modem runs, and each field must hold what docs/DOCSIS-PIE.md gives for it, and each constant must be the answer of a
 * call that deserves it. */
#include <obikuteru.h>

#include <string.h>

#include "parts.h"

enum { SLOTS = 4, FLOW = 6 };

/* A well-formed record, no two of its fields alike. Its flow is active, so its reset time is 0. */
static const struct obikuteru_modem_state start_state = {
    .target = 20000, .buffer = 60000, .slots = SLOTS, .peak = 3000000, .sustained = 2000000,
    .clock = 1000000, .last = 984000, .probability = 400000000, .accumulated = 4294967296,
    .old_delay = 12000, .allowance = 30000, .reset = 0, .activity = 2, .first = 1, .count = 3,
    .bytes = 20001,
};

static const uint64_t start_row[5] = {11, 0, 33, 44, 55};

static struct obikuteru_modem_state state;
static uint64_t counts[16][5];
static uint32_t handles[SLOTS], sizes[SLOTS];

/* The queue of start_state: its packets 70, 71 and 72 stand at the places 1, 2 and 3. The rows of
 * the other flows could not be counts. */
static void restore(void)
{
    static const uint32_t queued_handles[SLOTS] = {7, 70, 71, 72};
    static const uint32_t queued_sizes[SLOTS] = {8, 5000, 6000, 9001};

    state = start_state;
    memset(counts, 255, sizeof counts);
    memcpy(counts[FLOW], start_row, sizeof start_row);
    memcpy(handles, queued_handles, sizeof handles);
    memcpy(sizes, queued_sizes, sizeof sizes);
}

static uint32_t arrive(uint64_t clock, uint32_t handle, uint32_t size)
{
    return obikuteru_modem_arrival(&state, counts, FLOW, handles, SLOTS, sizes, SLOTS, clock, handle, size, 0);
}

static uint32_t depart(uint64_t clock, struct obikuteru_packet *packet)
{
    return obikuteru_modem_departure(&state, counts, FLOW, handles, SLOTS, sizes, SLOTS, clock, packet);
}

static uint32_t tick(uint64_t clock, uint32_t credits)
{
    return obikuteru_modem_tick(&state, counts, FLOW, clock, credits);
}

/* The row of the flow, and that all other rows are as they were. */
static void expect_row(uint64_t enqueued, uint64_t bytes, uint64_t slots, uint64_t early)
{
    expect("the count of enqueued", counts[FLOW][OBIKUTERU_ENQUEUED], enqueued);
    expect("the count of marked", counts[FLOW][OBIKUTERU_MARKED], 0);
    expect("the count of dropped, bytes", counts[FLOW][OBIKUTERU_DROPPED_BYTES], bytes);
    expect("the count of dropped, slots", counts[FLOW][OBIKUTERU_DROPPED_SLOTS], slots);
    expect("the count of dropped, early", counts[FLOW][OBIKUTERU_DROPPED_EARLY], early);
    for (int flow = 0; flow < 16; flow++)
        for (int v = 0; v < 5 && flow != FLOW; v++)
            expect("a count of another flow", counts[flow][v], UINT64_MAX);
}

static void run_fresh(void)
{
    struct obikuteru_modem_state wanted = {.target = OBIKUTERU_MODEM_TARGET, .buffer = 64000, .slots = 64,
                                           .peak = 2500000, .sustained = 625000, .clock = 99, .last = 99};

    restore();
    expect("fresh", obikuteru_modem_fresh(&state, counts, FLOW, OBIKUTERU_MODEM_TARGET, 64000, 64, 2500000, 625000, 99),
           OBIKUTERU_ACCEPTED);
    expect_fields("modem_state", &state, &wanted);
    expect_row(0, 0, 0, 0);
}

/* Delay 5,000 / 3 + 15,001 / 2 = 1,666 + 7,500; x = 9,166 - 20,000 + 10 x (9,166 - 12,000) =
 * -39,174; k = 64; step -39,174 x 536,870,912 / 1,000,000 = -21,031,381. */
static void run_ticks(void)
{
    struct obikuteru_modem_state wanted = start_state;

    wanted.clock = wanted.last = 984000 + OBIKUTERU_MODEM_TICK_PERIOD + 1;
    wanted.old_delay = 9166;
    wanted.probability = 0;
    wanted.allowance = 14000;
    restore();
    expect("a tick within the allowance", tick(1000001, 5000), OBIKUTERU_ACCEPTED);
    expect_fields("modem_state", &state, &wanted);

    wanted.probability = 400000000 - 21031381;
    wanted.allowance = 0;
    restore();
    state.allowance = 0;
    expect("a tick", tick(1000001, 5000), OBIKUTERU_ACCEPTED);
    expect_fields("modem_state", &state, &wanted);

    wanted.probability = 0; /* a quiet tick of a quiescent flow */
    wanted.activity = 1;
    wanted.reset = 48000;
    restore();
    state.allowance = state.probability = 0;
    state.old_delay = 9999;
    state.activity = 1;
    state.reset = 32000;
    expect("a quiet tick", tick(1000001, 5000), OBIKUTERU_ACCEPTED);
    expect_fields("modem_state", &state, &wanted);
    expect_row(11, 33, 44, 55);
}

static void run_departure(void)
{
    struct obikuteru_modem_state wanted = start_state;
    struct obikuteru_packet packet;

    wanted.clock = 1000100;
    wanted.first = 2;
    wanted.count = 2;
    wanted.bytes = 15001;
    restore();
    expect("a departure", depart(1000100, &packet), OBIKUTERU_ACCEPTED);
    expect("the handle that departs", packet.handle, 70);
    expect("the size that departs", packet.size, 5000);
    expect_fields("modem_state", &state, &wanted);
    expect_row(11, 33, 44, 55);
}

/* One arrival of each verdict. A quiescent flow with a sum of 2^32 and u = 0 drops early, and is
 * active then with a full allowance. */
static void run_arrivals(void)
{
    struct obikuteru_modem_state wanted = start_state;

    restore();
    state.allowance = wanted.allowance = 0;
    state.activity = 1;
    expect("an early drop", arrive(1000001, 80, 1024), OBIKUTERU_DROPPED_EARLY);
    wanted.clock = 1000001;
    wanted.accumulated = 0;
    wanted.allowance = 142000;
    expect_fields("modem_state", &state, &wanted);
    expect("an arrival", arrive(1000002, 81, 100), OBIKUTERU_ENQUEUED);
    wanted.clock = 1000002;
    wanted.count = 4;
    wanted.bytes = 20101;
    expect_fields("modem_state", &state, &wanted);
    expect("the handle written", handles[0], 81);
    expect("the size written", sizes[0], 100);
    expect("no slot", arrive(1000003, 82, 100), OBIKUTERU_DROPPED_SLOTS);
    expect("too many bytes", arrive(1000004, 83, 40000), OBIKUTERU_DROPPED_BYTES);
    wanted.clock = 1000004;
    expect_fields("modem_state", &state, &wanted);
    expect_row(12, 34, 45, 56);

    restore(); /* the sum, where nothing is dropped */
    state.allowance = 0;
    state.accumulated = 7;
    expect("a sum below 0.85", arrive(1000000, 84, 2048), OBIKUTERU_ENQUEUED);
    expect("the sum", state.accumulated, 800000007);
}

/* Each refusal by a call to which no other applies, and 110 ahead of the others. */
static void run_refusals(void)
{
    struct obikuteru_packet packet;

    restore();
    expect("a short table", obikuteru_modem_arrival(&state, counts, FLOW, handles, SLOTS - 1, sizes, SLOTS, 1000000, 1, 1, 0),
           OBIKUTERU_REFUSED_TABLES);
    expect("a clock that went back", arrive(999999, 1, 1), OBIKUTERU_REFUSED_CLOCK);
    expect("a packet of no bytes", arrive(1000000, 1, 0), OBIKUTERU_REFUSED_SIZE);
    sizes[state.first] = 0;
    expect("a head of no bytes", depart(1000000, &packet), OBIKUTERU_REFUSED_HEAD);
    expect("the packet of a refused departure", packet.handle + packet.size, 0);
    expect_fields("modem_state", &state, &start_state);
    state.last = 1000000 - OBIKUTERU_MODEM_TICK_PERIOD + 1;
    expect("a tick too soon", tick(1000000, 0), OBIKUTERU_REFUSED_TOO_SOON);
    counts[FLOW][4] = (UINT64_C(1) << 48) - 11 - 33 - 44;
    expect("2^48 arrivals", arrive(1000000, 1, 1), OBIKUTERU_REFUSED_COUNTS);
    expect("the record with them", obikuteru_modem_well_formed(&state, counts, FLOW), true);
    expect("the record with another row", obikuteru_modem_well_formed(&state, counts, 7), false);
    expect("the record with no row", obikuteru_modem_well_formed(&state, counts, 16), false);
    state.count = state.bytes = 0;
    expect("an empty queue", depart(1000000, &packet), OBIKUTERU_REFUSED_EMPTY);
    state.reset = 1;
    expect("a reset time of an active flow", tick(1000000, 0), OBIKUTERU_REFUSED_STATE);
    expect("no such flow", obikuteru_modem_tick(&state, counts, OBIKUTERU_MODEM_FLOWS, 0, 0), OBIKUTERU_REFUSED_FLOW);
    expect("no such flow", obikuteru_modem_fresh(&state, counts, OBIKUTERU_MODEM_FLOWS, 0, 0, 0, 0, 0, 0),
           OBIKUTERU_REFUSED_FLOW);
    expect("its record", state.target + state.clock + state.probability + state.bytes, 0);
    restore();
    expect("wrong settings", obikuteru_modem_fresh(&state, counts, FLOW, 10000, 64000, SLOTS, 0, 1, 0),
           OBIKUTERU_REFUSED_SETTINGS);
    expect("a record of zeros", tick(16000, 0), OBIKUTERU_REFUSED_STATE);
    expect_row(11, 33, 44, 55);
}

void check_modem(void)
{
    run_fresh();
    run_ticks();
    run_departure();
    run_arrivals();
    run_refusals();
}
