/* The ring runs, and each field must hold what document 01 gives for it, and each constant must be the answer of a call
 * that deserves it. */
#include <obikuteru.h>

#include "parts.h"

enum { SLOTS = 4 };

/* A well-formed record, no two of its fields alike. */
static const struct obikuteru_state start_state = {
    .target = 20000, .buffer = 60000, .slots = SLOTS, .clock = 1000000, .last = 985000,
    .probability = 1000000, .old_delay = 12000, .allowance = 30000, .accumulated = 4294967296,
    .average = 10000, .measuring = 1, .start = 990000, .counted = 16000, .count = 3, .bytes = 20001, .first = 2,
    .verdicts = {11, 22, 33, 44, 55}, .profile = OBIKUTERU_CALM, .active = 9,
};

static struct obikuteru_state state;
static uint32_t handles[SLOTS], sizes[SLOTS];

/* The queue of start_state: its packets 70, 71 and 72 stand at the places 2, 3 and 0. */
static void restore(void)
{
    static const uint32_t queued_handles[SLOTS] = {72, 7, 70, 71};
    static const uint32_t queued_sizes[SLOTS] = {9001, 8, 5000, 6000};

    state = start_state;
    for (int i = 0; i < SLOTS; i++) {
        handles[i] = queued_handles[i];
        sizes[i] = queued_sizes[i];
    }
}

static uint32_t arrive(uint64_t clock, uint32_t handle, uint32_t size, bool ecn)
{
    return obikuteru_arrival(&state, handles, SLOTS, sizes, SLOTS, clock, handle, size, ecn, 0);
}

static uint32_t depart(uint64_t clock, struct obikuteru_packet *packet)
{
    return obikuteru_departure(&state, handles, SLOTS, sizes, SLOTS, clock, packet);
}

static void expect_state(const char *after, const struct obikuteru_state *wanted)
{
    int before = mistakes;

    expect_fields("state", &state, wanted);
    if (mistakes > before)
        printf("layout: that was after %s.\n", after);
}

static void run_fresh(void)
{
    struct obikuteru_state wanted = {.target = 15000, .buffer = 64000, .slots = 64, .clock = 99,
                                     .last = 99, .allowance = 150000, .active = 1};

    state = start_state;
    expect("fresh", obikuteru_fresh(&state, 15000, 64000, 64, OBIKUTERU_PLAIN, 99), OBIKUTERU_ACCEPTED);
    expect_state("fresh", &wanted);
    wanted.profile = OBIKUTERU_CALM;
    wanted.active = 0;
    state = start_state;
    expect("calm fresh", obikuteru_fresh(&state, 15000, 64000, 64, OBIKUTERU_CALM, 99), OBIKUTERU_ACCEPTED);
    expect_state("calm fresh", &wanted);
}

/* Delay 20,001 x 10,000 / 16,384 = 12,207; x = 12,207 - 20,000 + 10 x 207 = -5,723; k = 32. */
static void run_tick(void)
{
    struct obikuteru_state wanted = start_state;

    wanted.clock = wanted.last = 985000 + OBIKUTERU_TICK_PERIOD + 1;
    wanted.old_delay = 12207;
    wanted.probability = 1000000 - 96016; /* 5,723 x 8,388,608 / (15,625 x 32) = 96,016.0 */
    wanted.allowance = 15000;
    restore();
    expect("a tick", obikuteru_tick(&state, 1000001), OBIKUTERU_ACCEPTED);
    expect_state("a tick", &wanted);
}

/* The head ends the measurement: its sample is 10,100, the new average (10,100 + 30,000) / 4. */
static void run_departures(void)
{
    struct obikuteru_state wanted = start_state;
    struct obikuteru_packet packet;

    wanted.clock = 1000100;
    wanted.average = 10025;
    wanted.measuring = wanted.start = wanted.counted = 0;
    wanted.count = 2;
    wanted.bytes = 15001;
    wanted.first = 3;
    restore();
    expect("a departure", depart(1000100, &packet), OBIKUTERU_ACCEPTED);
    expect("the handle that departs", packet.handle, 70);
    expect("the size that departs", packet.size, 5000);
    expect_state("a departure", &wanted);

    wanted = start_state; /* the same, but the measurement goes on */
    wanted.counted = 300 + 5000;
    wanted.count = 2;
    wanted.bytes = 15001;
    wanted.first = 3;
    restore();
    state.counted = 300;
    expect("a departure while measuring", depart(1000000, &packet), OBIKUTERU_ACCEPTED);
    expect_state("a departure while measuring", &wanted);

    wanted = start_state; /* the last packet leaves: the measurement is given up */
    wanted.measuring = wanted.start = wanted.counted = 0;
    wanted.count = wanted.bytes = 0;
    wanted.first = 3;
    restore();
    state.counted = 300;
    state.count = 1;
    state.bytes = 5000;
    expect("the last departure", depart(1000000, &packet), OBIKUTERU_ACCEPTED);
    expect_state("the last departure", &wanted);
}

/* Marks end at one tenth. */
static void run_marks(void)
{
    restore();
    state.allowance = 0;
    state.probability = 429496729;
    expect("below one tenth", arrive(1000000, 85, 100, true), OBIKUTERU_MARKED);
    restore();
    state.allowance = 0;
    state.probability = 429496730;
    expect("from one tenth on", arrive(1000000, 86, 100, true), OBIKUTERU_DROPPED_EARLY);
}

/* With a sum below 0.85 even u = 0 is not early, and the sum rises. */
static void run_sums(void)
{
    restore();
    state.allowance = 0;
    state.accumulated = 3650722201 - 1000000;
    expect("a sum below 0.85", arrive(1000000, 87, 100, false), OBIKUTERU_ENQUEUED);
    expect("the sum", state.accumulated, 3650722201);
    state.accumulated = UINT64_C(36507222015);
    expect("the greatest sum", obikuteru_well_formed(&state), true);
    state.accumulated = UINT64_C(36507222016);
    expect("a sum of 8.5", obikuteru_well_formed(&state), false);
}

/* One arrival of each verdict. With no allowance left and a sum of 2^32, u = 0 is early. */
static void run_arrivals(void)
{
    struct obikuteru_state wanted = start_state;

    restore();
    expect("too many bytes", arrive(1000001, 80, 40000, false), OBIKUTERU_DROPPED_BYTES);
    wanted.clock = 1000001;
    wanted.verdicts[2] = 34;
    expect_state("a drop for bytes", &wanted);
    state.allowance = wanted.allowance = 0;
    expect("an early drop", arrive(1000002, 81, 100, false), OBIKUTERU_DROPPED_EARLY);
    wanted.clock = 1000002;
    wanted.accumulated = 0;
    wanted.verdicts[4] = 56;
    expect_state("an early drop", &wanted);
    state.accumulated = UINT64_C(36506222016); /* with this probability 8.5 */
    expect("a mark", arrive(1000003, 82, 100, true), OBIKUTERU_MARKED);
    wanted.clock = 1000003;
    wanted.count = 4;
    wanted.bytes = 20101;
    wanted.verdicts[1] = 23;
    expect_state("a mark", &wanted);
    expect("no slot", arrive(1000004, 83, 100, true), OBIKUTERU_DROPPED_SLOTS);
    wanted.clock = 1000004;
    wanted.verdicts[3] = 45;
    expect_state("a drop for slots", &wanted);
    expect("the handle written", handles[1], 82);
    expect("the size written", sizes[1], 100);
    restore();
    expect("an arrival", arrive(1000005, 84, 100, false), OBIKUTERU_ENQUEUED);
    expect("the count of enqueued", state.verdicts[0], 12);
    run_marks();
    run_sums();
}

/* Three times 20,001 bytes are above 60,000: an arrival turns the queue active, and it begins anew. */
static void run_activation(void)
{
    struct obikuteru_state wanted = start_state;

    wanted.clock = 1000001;
    wanted.probability = wanted.old_delay = wanted.accumulated = wanted.average = 0;
    wanted.measuring = wanted.start = wanted.counted = 0;
    wanted.allowance = 150000;
    wanted.count = 4;
    wanted.bytes = 20101;
    wanted.verdicts[0] = 12;
    wanted.active = 1;
    restore();
    state.probability = state.active = 0;
    expect("an inactive queue", obikuteru_well_formed(&state), true);
    expect("an arrival at it", arrive(1000001, 85, 100, true), OBIKUTERU_ENQUEUED);
    expect_state("an activation", &wanted);
    state.active = 0;
    state.probability = 1;
    expect("an inactive queue with a probability", obikuteru_well_formed(&state), false);
    state.probability = 0;
    state.profile = OBIKUTERU_PLAIN;
    expect("an inactive plain queue", obikuteru_well_formed(&state), false);
}

/* Each refusal by a call to which no other applies. */
static void run_refusals(void)
{
    struct obikuteru_packet packet;

    restore();
    expect("a short table", obikuteru_arrival(&state, handles, SLOTS - 1, sizes, SLOTS, 1000000, 1, 1, 0, 0),
           OBIKUTERU_REFUSED_TABLES);
    expect("a clock that went back", arrive(999999, 1, 1, false), OBIKUTERU_REFUSED_CLOCK);
    expect("a packet of no bytes", arrive(1000000, 1, 0, false), OBIKUTERU_REFUSED_SIZE);
    sizes[state.first] = 0;
    expect("a head of no bytes", depart(1000000, &packet), OBIKUTERU_REFUSED_HEAD);
    expect_state("four refusals", &start_state);
    state.last = 1000000 - OBIKUTERU_TICK_PERIOD + 1;
    expect("a tick too soon", obikuteru_tick(&state, 1000000), OBIKUTERU_REFUSED_TOO_SOON);
    state.verdicts[4] = (UINT64_C(1) << 48) - 11 - 22 - 33 - 44;
    expect("2^48 arrivals", arrive(1000000, 1, 1, false), OBIKUTERU_REFUSED_COUNTS);
    expect("the record with them", obikuteru_well_formed(&state), true);
    state.count = state.bytes = 0;
    expect("a measurement on an empty queue", obikuteru_well_formed(&state), false);
    state.measuring = state.start = state.counted = 0;
    expect("an empty queue", depart(1000000, &packet), OBIKUTERU_REFUSED_EMPTY);
    expect("wrong settings", obikuteru_fresh(&state, 0, 64000, SLOTS, OBIKUTERU_PLAIN, 0), OBIKUTERU_REFUSED_SETTINGS);
    expect("a wrong profile", obikuteru_fresh(&state, 15000, 64000, SLOTS, 2, 0), OBIKUTERU_REFUSED_SETTINGS);
    expect("the record of wrong settings", obikuteru_well_formed(&state), false);
    expect("a record of zeros", obikuteru_tick(&state, 15000), OBIKUTERU_REFUSED_STATE);
}

void check_ring(void)
{
    run_fresh();
    run_tick();
    run_departures();
    run_arrivals();
    run_activation();
    run_refusals();
}
