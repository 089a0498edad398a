/* Two queues run, and each field must hold what docs/SHARED-TABLES.md gives for it, and each constant must be the answer of
 * a call that deserves it. */
#include <obikuteru.h>

#include <string.h>

#include "parts.h"

enum { SLOTS = 6 };

/* Well-formed records, no two fields of a queue alike. The intercom's packets stand at the places 1,
 * 3 and 0, the passengers' at 2; 4 is freed, and 5 was never taken. */
static const struct obikuteru_shared start_shared = {
    .slots = SLOTS, .reserve = {2, 1}, .used = 5, .freed = 4, .spare = 1,
};

static const struct obikuteru_pair_queue start_queues[2] = {
    {.target = 20000, .buffer = 60000, .clock = 1000000, .last = 984000, .probability = 400000000,
     .old_delay = 12000, .allowance = 30000, .accumulated = 4294967296, .average = 16384,
     .measuring = 1, .start = 970000, .counted = 5001, .count = 3, .bytes = 20001, .head = 1,
     .tail = 0, .verdicts = {11, 22, 33, 44, 55}},
    {.target = 15000, .buffer = 64000, .clock = 500000, .last = 490000, .probability = 7,
     .old_delay = 8, .allowance = 150000, .accumulated = 9, .average = 10, .count = 1,
     .bytes = 400, .head = 2, .tail = 2, .verdicts = {66, 77, 88, 99, 111}},
};

static struct obikuteru_shared shared;
static struct obikuteru_pair_queue queues[2];
static uint32_t handles[SLOTS], sizes[SLOTS];

#define AT(size, link) ((size) + 65536u * (link))

/* Links that nobody follows lead nowhere. */
static void restore(void)
{
    static const uint32_t queued_handles[SLOTS] = {72, 70, 90, 71, 5, 6};
    static const uint32_t queued_sizes[SLOTS] = {AT(9001, 77), AT(5000, 3), AT(400, 78),
                                                 AT(6000, 0), AT(0, 79), AT(3, 80)};

    shared = start_shared;
    memcpy(queues, start_queues, sizeof queues);
    memcpy(handles, queued_handles, sizeof handles);
    memcpy(sizes, queued_sizes, sizeof sizes);
}

static uint32_t arrive(bool second, uint64_t clock, uint32_t handle, uint32_t size, bool ecn)
{
    return obikuteru_pair_arrival(&shared, &queues[0], &queues[1], second, handles, SLOTS, sizes,
                                  SLOTS, clock, handle, size, ecn, 0);
}

static uint32_t depart(bool second, uint64_t clock, struct obikuteru_packet *packet)
{
    return obikuteru_pair_departure(&shared, &queues[0], &queues[1], second, handles, SLOTS, sizes,
                                    SLOTS, clock, packet);
}

static uint32_t tick(bool second, uint64_t clock)
{
    return obikuteru_pair_tick(&shared, &queues[0], &queues[1], second, clock);
}

static void expect_shared(uint64_t used, uint64_t freed, uint64_t spare)
{
    expect("slots", shared.slots, SLOTS);
    expect("reserve[0]", shared.reserve[0], 2);
    expect("reserve[1]", shared.reserve[1], 1);
    expect("used", shared.used, used);
    expect("freed", shared.freed, freed);
    expect("spare", shared.spare, spare);
}

static void run_fresh(void)
{
    struct obikuteru_pair_queue wanted[2] = {
        {.target = 15001, .buffer = 64001, .clock = 99, .last = 99, .allowance = 150000},
        {.target = 15002, .buffer = 64002, .clock = 98, .last = 98, .allowance = 150000}};

    restore();
    expect("fresh", obikuteru_pair_fresh(&shared, &queues[0], &queues[1], SLOTS, 15001, 64001, 2, 99, 15002, 64002, 1, 98),
           OBIKUTERU_ACCEPTED);
    expect_shared(0, 0, 0);
    expect_fields("pair_queue", &queues[0], &wanted[0]);
    expect_fields("pair_queue", &queues[1], &wanted[1]);
}

/* Delay 20,001 x 16,384 / 16,384; x = 1 + 10 x 8,001 = 80,011; k = 2; step 80,011 x 8,388,608 / 31,250
 * = 21,477,789. */
static void run_tick(void)
{
    struct obikuteru_pair_queue wanted = start_queues[0];

    wanted.clock = wanted.last = 1000001;
    wanted.old_delay = 20001;
    wanted.probability = 421477789;
    wanted.allowance = 30000 - OBIKUTERU_TICK_PERIOD;
    restore();
    expect("a tick", tick(OBIKUTERU_INTERCOM, 1000001), OBIKUTERU_ACCEPTED);
    expect_shared(5, 4, 1);
    expect_fields("pair_queue", &queues[0], &wanted);
    expect_fields("pair_queue", &queues[1], &start_queues[1]);
}

static void run_departures(void)
{
    struct obikuteru_pair_queue wanted = start_queues[0];
    struct obikuteru_packet packet;

    wanted.clock = 1000100;
    wanted.counted = 10001;
    wanted.head = 3;
    wanted.count = 2;
    wanted.bytes = 15001;
    restore();
    expect("a departure", depart(OBIKUTERU_INTERCOM, 1000100, &packet), OBIKUTERU_ACCEPTED);
    expect("the handle that departs", packet.handle, 70);
    expect("the size that departs", packet.size, 5000);
    expect_shared(5, 1, 2);
    expect_fields("pair_queue", &queues[0], &wanted);
    expect_fields("pair_queue", &queues[1], &start_queues[1]);
    expect("the word that it leaves", sizes[1], AT(0, 4));

    wanted = start_queues[1]; /* the last packet, whose link nobody follows */
    wanted.count = wanted.bytes = 0;
    expect("the other's departure", depart(OBIKUTERU_PASSENGERS, 500000, &packet), OBIKUTERU_ACCEPTED);
    expect("the handle that departs", packet.handle, 90);
    expect_shared(5, 2, 3);
    expect_fields("pair_queue", &queues[1], &wanted);
    expect("the word that it leaves", sizes[2], AT(0, 1));
}

/* The intercom's packet takes the freed place 4, the passengers' then 5, both behind a tail. */
static void run_arrivals(void)
{
    struct obikuteru_pair_queue wanted[2] = {start_queues[0], start_queues[1]};

    restore();
    expect("an arrival", arrive(OBIKUTERU_INTERCOM, 1000002, 81, 100, false), OBIKUTERU_ENQUEUED);
    expect("the other's arrival", arrive(OBIKUTERU_PASSENGERS, 500003, 82, 200, false), OBIKUTERU_ENQUEUED);
    wanted[0].clock = 1000002;
    wanted[0].count = 4;
    wanted[0].bytes = 20101;
    wanted[0].tail = 4;
    wanted[0].verdicts[0] = 12;
    wanted[1].clock = 500003;
    wanted[1].count = 2;
    wanted[1].bytes = 600;
    wanted[1].tail = 5;
    wanted[1].verdicts[0] = 67;
    expect_shared(6, 4, 0);
    expect_fields("pair_queue", &queues[0], &wanted[0]);
    expect_fields("pair_queue", &queues[1], &wanted[1]);
    expect("the handle at 4", handles[4], 81);
    expect("the handle at 5", handles[5], 82);
    expect("the word at 4", sizes[4], 100);
    expect("the word at 5", sizes[5], 200);
    expect("the word of the tail before", sizes[0], AT(9001, 4));
    expect("the word of the other's tail before", sizes[2], AT(400, 5));
    expect("no slot", arrive(OBIKUTERU_PASSENGERS, 500003, 83, 1, false), OBIKUTERU_DROPPED_SLOTS);
    expect("too many bytes", arrive(OBIKUTERU_INTERCOM, 1000002, 84, 40000, false), OBIKUTERU_DROPPED_BYTES);

    restore();
    queues[0].allowance = 0;
    expect("a mark", arrive(OBIKUTERU_INTERCOM, 1000000, 85, 1, true), OBIKUTERU_MARKED);
    queues[0].accumulated = 4294967296;
    expect("an early drop", arrive(OBIKUTERU_INTERCOM, 1000000, 86, 1, false), OBIKUTERU_DROPPED_EARLY);
    expect("the sum after it", queues[0].accumulated, 0);
}

/* Each refusal by a call to which no other applies. */
static void run_refusals(void)
{
    struct obikuteru_packet packet;

    restore();
    expect("a short table", obikuteru_pair_arrival(&shared, &queues[0], &queues[1], false, handles, SLOTS - 1, sizes, SLOTS,
                                                   1000000, 1, 1, false, 0), OBIKUTERU_REFUSED_TABLES);
    expect("a clock that went back", arrive(OBIKUTERU_INTERCOM, 999999, 1, 1, false), OBIKUTERU_REFUSED_CLOCK);
    expect("a packet of no bytes", arrive(OBIKUTERU_INTERCOM, 1000000, 1, 0, false), OBIKUTERU_REFUSED_SIZE);
    expect("a tick too soon", tick(OBIKUTERU_PASSENGERS, 504999), OBIKUTERU_REFUSED_TOO_SOON);
    sizes[1] = AT(5000, SLOTS);
    expect("a link to no slot", depart(OBIKUTERU_INTERCOM, 1000000, &packet), OBIKUTERU_REFUSED_HEAD);
    expect("the packet of a refused departure", packet.handle + packet.size, 0);
    sizes[1] = AT(0, 3);
    expect("a head of no bytes", depart(OBIKUTERU_INTERCOM, 1000000, &packet), OBIKUTERU_REFUSED_HEAD);
    expect_shared(5, 4, 1);
    expect_fields("pair_queue", &queues[0], &start_queues[0]);
    expect_fields("pair_queue", &queues[1], &start_queues[1]);

    restore();
    expect("two freed", depart(OBIKUTERU_PASSENGERS, 500000, &packet), OBIKUTERU_ACCEPTED);
    sizes[2] = AT(0, SLOTS);
    expect("a freed link to no slot", arrive(OBIKUTERU_PASSENGERS, 500000, 1, 1, false), OBIKUTERU_REFUSED_HEAD);
    expect("an empty queue", depart(OBIKUTERU_PASSENGERS, 500000, &packet), OBIKUTERU_REFUSED_EMPTY);
    queues[1].verdicts[4] = (UINT64_C(1) << 48) - 66 - 77 - 88;
    queues[1].verdicts[3] = 0;
    expect("2^48 arrivals", arrive(OBIKUTERU_PASSENGERS, 500000, 1, 1, false), OBIKUTERU_REFUSED_COUNTS);
    expect("the records with them", obikuteru_pair_well_formed(&shared, &queues[0], &queues[1]), true);
    queues[1].tail = SLOTS;
    expect("the other's record", tick(OBIKUTERU_INTERCOM, 1000000), OBIKUTERU_REFUSED_STATE);
    expect("the records then", obikuteru_pair_well_formed(&shared, &queues[0], &queues[1]), false);
    expect("reserves above the slots", obikuteru_pair_fresh(&shared, &queues[0], &queues[1], SLOTS, 15000, 1, 4, 0, 15000, 1, 3, 0),
           OBIKUTERU_REFUSED_SETTINGS);
    expect("records of zeros", shared.slots + queues[0].target + queues[1].target, 0);
    expect("a call on them", tick(OBIKUTERU_INTERCOM, 15000), OBIKUTERU_REFUSED_STATE);
}

enum { CALLS = 5 };

/* A clock above 2^32, so that both of its halves count. */
#define START (UINT64_C(5) << 32)

/* A burst on the intercom by struct, and its numbers by hand; on the passengers each kind is greater by 4. */
static const struct obikuteru_call calls[CALLS] = {
    {START, 70, 500, 9, OBIKUTERU_CALL_ARRIVAL},
    {START + 1, 71, 60000, 9, OBIKUTERU_CALL_ECN_ARRIVAL},
    {START + 2, 0, 0, 0, OBIKUTERU_CALL_DEPARTURE},
    {START + 15000, 0, 0, 0, OBIKUTERU_CALL_TICK},
    {START + 15001, 72, 1, 0, 256},
};

static const uint32_t numbers[CALLS][6] = {
    {0, 5, 70, 500, 9, 0}, {1, 5, 71, 60000, 9, 1}, {2, 5, 0, 0, 0, 2}, {15000, 5, 0, 0, 0, 3}, {15001, 5, 72, 1, 0, 256},
};

static const uint64_t answered[CALLS] = {0, 0, 65536u * 500u + (UINT64_C(70) << 32), 0, 120};

static uint32_t burst(const struct obikuteru_call *list, size_t calls_len, uint64_t *answers)
{
    return obikuteru_pair_calls(&shared, &queues[0], &queues[1], handles, SLOTS, sizes, SLOTS, (const uint32_t *)list, calls_len,
                                answers, CALLS);
}

/* One burst on a queue; the other's record stays as it was. */
static void run_burst(bool second)
{
    struct obikuteru_call list[CALLS];
    uint64_t answers[CALLS] = {7, 7, 7, 7, 7};

    expect("the numbers of the calls", memcmp(calls, numbers, sizeof calls), 0);
    memcpy(list, calls, sizeof list);
    for (int i = 0; i < CALLS; i++)
        list[i].kind += second ? OBIKUTERU_CALL_PASSENGERS : 0;
    expect("fresh", obikuteru_pair_fresh(&shared, &queues[0], &queues[1], SLOTS, 15000, 64000, 2, START, 15000, 64000, 1, START),
           OBIKUTERU_ACCEPTED);
    expect("a burst that is too short", burst(list, 6 * CALLS - 1, answers), OBIKUTERU_REFUSED_CALL);
    expect("its answers", answers[0], 7);
    expect("what it leaves", shared.used, 0);
    expect("a burst", burst(list, 6 * CALLS, answers), OBIKUTERU_ACCEPTED);
    for (int i = 0; i < CALLS; i++)
        expect("a word of an answer", answers[i], answered[i]);
    expect_shared(2, 0, 1);
    expect("its packets", queues[second].count, 1);
    expect("its bytes", queues[second].bytes, 60000);
    expect("its clock", queues[second].clock, START + 15000);
    expect("its last tick", queues[second].last, START + 15000);
    expect("its arrivals", queues[second].verdicts[0], 2);
    expect("the other's packets", queues[!second].count, 0);
    expect("the other's clock", queues[!second].clock, START);
    expect("the other's arrivals", queues[!second].verdicts[0], 0);
}

void check_pair(void)
{
    run_fresh();
    run_tick();
    run_departures();
    run_arrivals();
    run_refusals();
    run_burst(OBIKUTERU_INTERCOM);
    run_burst(OBIKUTERU_PASSENGERS);
}
