/* 64 flows run, and each field must hold what docs/SHARED-TABLES.md gives for it, and each constant must be the answer of a
 * call that deserves it. */
#include <obikuteru.h>

#include <string.h>

#include "parts.h"

enum { SLOTS = 6, A = 29, B = 0 }; /* the flows of the keys 1 and 0 at salt 0 */

/* No two fields of flow A alike. Its packets stand at the places 1, 3 and 0, those of flow B at 2; 4
 * is freed, and 5 was never taken. A is in the new list, B in the old one, which begins at 63. */
static const struct obikuteru_flow start_a = {
    .probability = 400000000, .old_delay = 12000, .allowance = 30000, .accumulated = 4294967296,
    .average = 16384, .measuring = 1, .start = 970000, .counted = 5001, .count = 3, .bytes = 20001,
    .head = 1, .tail = 0,
};

static const struct obikuteru_flow start_b = {
    .probability = 7, .old_delay = 8, .allowance = 150000, .accumulated = 9, .average = 10,
    .count = 1, .bytes = 400, .head = 2, .tail = 2,
};

static struct obikuteru_fq fq;
static uint32_t handles[SLOTS], sizes[SLOTS];
static const uint8_t key_a[13] = {[12] = 1}, key_b[13], key_c[13] = {[12] = 2};

#define AT(size, link) ((size) + 65536u * (link))

static void restore(void)
{
    static const uint32_t queued_handles[SLOTS] = {72, 70, 90, 71, 5, 6};
    static const uint32_t queued_sizes[SLOTS] = {AT(9001, 77), AT(5000, 3), AT(400, 78),
                                                 AT(6000, 0), AT(0, 79), AT(3, 80)};
    static const uint64_t verdicts[5] = {11, 22, 33, 44, 55};

    memset(&fq, 0, sizeof fq);
    fq.target = 20000;
    fq.buffer = 60000;
    fq.slots = SLOTS;
    fq.clock = 1000000;
    fq.last = 984000;
    fq.count = 4;
    fq.bytes = 20401;
    fq.used = 5;
    fq.freed = 4;
    fq.spare = 1;
    memcpy(fq.verdicts, verdicts, sizeof verdicts);
    fq.first = 63;
    fq.old = 1;
    fq.listed = 2;
    fq.order[63] = B;
    fq.order[0] = A;
    fq.flow[A] = start_a;
    fq.flow[B] = start_b;
    fq.deficits[A] = 65535 + 1000;
    fq.deficits[B] = 65535 + 300;
    memcpy(handles, queued_handles, sizeof handles);
    memcpy(sizes, queued_sizes, sizeof sizes);
}

static uint32_t arrive(const uint8_t *key, uint64_t clock, uint32_t handle, uint32_t size, bool ecn)
{
    return obikuteru_fq_arrival(&fq, handles, SLOTS, sizes, SLOTS, clock, key, handle, size, ecn, 0);
}

static uint32_t depart(uint64_t clock, struct obikuteru_flow_packet *packet)
{
    return obikuteru_fq_departure(&fq, handles, SLOTS, sizes, SLOTS, clock, packet);
}

static void expect_common(uint64_t clock, uint64_t count, uint64_t bytes, uint64_t used, uint64_t freed, uint64_t spare)
{
    expect("target", fq.target, 20000);
    expect("buffer", fq.buffer, 60000);
    expect("slots", fq.slots, SLOTS);
    expect("salt", fq.salt, 0);
    expect("clock", fq.clock, clock);
    expect("count", fq.count, count);
    expect("bytes", fq.bytes, bytes);
    expect("used", fq.used, used);
    expect("freed", fq.freed, freed);
    expect("spare", fq.spare, spare);
}

static void expect_lists(uint64_t first, uint64_t old, uint64_t listed)
{
    expect("first", fq.first, first);
    expect("old", fq.old, old);
    expect("listed", fq.listed, listed);
}

static void run_fresh(void)
{
    const struct obikuteru_flow wanted = {.allowance = 150000};

    restore();
    expect("fresh", obikuteru_fq_fresh(&fq, 15001, 64001, SLOTS, 77, 99), OBIKUTERU_ACCEPTED);
    expect("target", fq.target, 15001);
    expect("buffer", fq.buffer, 64001);
    expect("slots", fq.slots, SLOTS);
    expect("salt", fq.salt, 77);
    expect("clock", fq.clock, 99);
    expect("last", fq.last, 99);
    expect("what is queued, counted and taken", fq.count + fq.bytes + fq.used + fq.freed + fq.spare + fq.verdicts[4], 0);
    expect_lists(0, 0, 0);
    for (int f = 0; f < 64; f++) {
        expect("a place of the order", fq.order[f], 0);
        expect("a deficit", fq.deficits[f], 65535);
        expect_fields("flow", &fq.flow[f], &wanted);
    }
}

/* Delay 20,001 x 16,384 / 16,384; x = 1 + 10 x 8,001 = 80,011; k = 2; step 80,011 x 8,388,608 / 31,250
 * = 21,477,789. Flow B: delay 400 x 10 / 16,384 = 0. */
static void run_tick(void)
{
    struct obikuteru_flow wanted = start_a;

    wanted.old_delay = 20001;
    wanted.probability = 421477789;
    wanted.allowance = 30000 - OBIKUTERU_TICK_PERIOD;
    restore();
    expect("a tick", obikuteru_fq_tick(&fq, 1000001), OBIKUTERU_ACCEPTED);
    expect("last", fq.last, 1000001);
    expect_common(1000001, 4, 20401, 5, 4, 1);
    expect_fields("flow", &fq.flow[A], &wanted);
    expect("the other's delay", fq.flow[B].old_delay, 0);
    expect("the other's probability", fq.flow[B].probability, 0);
    expect_lists(63, 1, 2);
}

/* The new list's flow goes first; then its deficit is negative, it gains a quantum and goes behind B. */
static void run_departures(void)
{
    struct obikuteru_flow wanted = start_a;
    struct obikuteru_flow_packet packet;

    wanted.counted = 10001;
    wanted.head = 3;
    wanted.count = 2;
    wanted.bytes = 15001;
    restore();
    expect("a departure", depart(1000100, &packet), OBIKUTERU_ACCEPTED);
    expect("the flow that is served", packet.flow, A);
    expect("the handle that departs", packet.handle, 70);
    expect("the size that departs", packet.size, 5000);
    expect_common(1000100, 3, 15401, 5, 1, 2);
    expect_fields("flow", &fq.flow[A], &wanted);
    expect_fields("flow", &fq.flow[B], &start_b);
    expect("its deficit", fq.deficits[A], 65535 + 1000 - 5000);
    expect("the other's deficit", fq.deficits[B], 65535 + 300);
    expect_lists(63, 1, 2);
    expect("the word that it leaves", sizes[1], AT(0, 4));

    expect("the other's departure", depart(1000100, &packet), OBIKUTERU_ACCEPTED);
    expect("the flow that is served", packet.flow, B);
    expect("the handle that departs", packet.handle, 90);
    expect("its deficit", fq.deficits[A], 65535 + 1000 - 5000 + 1514);
    expect("the other's deficit", fq.deficits[B], 65535 - 100);
    expect_lists(63, 2, 2);
    expect("the word that it leaves", sizes[2], AT(0, 1));
}

/* A packet of flow A takes the freed place 4; one of a third flow then 5, and enters the new list. */
static void run_arrivals(void)
{
    struct obikuteru_flow wanted = start_a;

    wanted.count = 4;
    wanted.bytes = 20101;
    wanted.tail = 4;
    restore();
    expect("an arrival", arrive(key_a, 1000002, 81, 100, false), OBIKUTERU_ENQUEUED);
    expect_common(1000002, 5, 20501, 5, 4, 0);
    expect_fields("flow", &fq.flow[A], &wanted);
    expect("a count", fq.verdicts[0], 12);
    expect("its deficit", fq.deficits[A], 65535 + 1000);
    expect_lists(63, 1, 2);
    expect("a third flow's arrival", arrive(key_c, 1000002, 82, 200, false), OBIKUTERU_ENQUEUED);
    expect_common(1000002, 6, 20701, 6, 4, 0);
    expect("its flow", obikuteru_fq_flow(key_c, 0), 59);
    expect("its head", fq.flow[59].head, 5);
    expect("its tail", fq.flow[59].tail, 5);
    expect("its deficit", fq.deficits[59], 65535 + 1514);
    expect_lists(63, 1, 3);
    expect("its place in the order", fq.order[1], 59);
    expect("the handle at 4", handles[4], 81);
    expect("the handle at 5", handles[5], 82);
    expect("the word at 4", sizes[4], 100);
    expect("the word at 5", sizes[5], 200);
    expect("the word of the tail before", sizes[0], AT(9001, 4));
    expect("no slot", arrive(key_a, 1000002, 83, 1, false), OBIKUTERU_DROPPED_SLOTS);
    expect("too many bytes", arrive(key_b, 1000002, 84, 40000, false), OBIKUTERU_DROPPED_BYTES);

    restore();
    fq.flow[A].allowance = 0;
    expect("a mark", arrive(key_a, 1000000, 85, 1, true), OBIKUTERU_MARKED);
    fq.flow[A].accumulated = 4294967296;
    expect("an early drop", arrive(key_a, 1000000, 86, 1, false), OBIKUTERU_DROPPED_EARLY);
    expect("the sum after it", fq.flow[A].accumulated, 0);
}

/* Each refusal by a call to which no other applies. */
static void run_refusals(void)
{
    struct obikuteru_flow_packet packet;

    restore();
    expect("a short table", obikuteru_fq_arrival(&fq, handles, SLOTS - 1, sizes, SLOTS, 1000000, key_a, 1, 1, false, 0),
           OBIKUTERU_REFUSED_TABLES);
    expect("a clock that went back", arrive(key_a, 999999, 1, 1, false), OBIKUTERU_REFUSED_CLOCK);
    expect("a packet of no bytes", arrive(key_a, 1000000, 1, 0, false), OBIKUTERU_REFUSED_SIZE);
    fq.last = 985001;
    expect("a tick too soon", obikuteru_fq_tick(&fq, 1000000), OBIKUTERU_REFUSED_TOO_SOON);
    sizes[1] = AT(5000, SLOTS);
    expect("a link to no slot", depart(1000000, &packet), OBIKUTERU_REFUSED_HEAD);
    expect("the packet of a refused departure", packet.flow + packet.handle + packet.size, 0);
    sizes[1] = AT(0, 3);
    expect("a head of no bytes", depart(1000000, &packet), OBIKUTERU_REFUSED_HEAD);
    expect_common(1000000, 4, 20401, 5, 4, 1);
    expect_fields("flow", &fq.flow[A], &start_a);
    fq.verdicts[4] = (UINT64_C(1) << 48) - 11 - 22 - 33 - 44;
    expect("2^48 arrivals", arrive(key_a, 1000000, 1, 1, false), OBIKUTERU_REFUSED_COUNTS);
    expect("the record with them", obikuteru_fq_well_formed(&fq), true);
    fq.bytes++;
    expect("a wrong total", obikuteru_fq_tick(&fq, 1000001), OBIKUTERU_REFUSED_STATE);
    expect("the record then", obikuteru_fq_well_formed(&fq), false);
    expect("fresh and empty", obikuteru_fq_fresh(&fq, 15000, 1, SLOTS, 0, 0), OBIKUTERU_ACCEPTED);
    expect("no packet", depart(0, &packet), OBIKUTERU_REFUSED_EMPTY);
    expect("no slots at all", obikuteru_fq_fresh(&fq, 15000, 1, 0, 5, 0), OBIKUTERU_REFUSED_SETTINGS);
    expect("a record of zeros", fq.target + fq.salt + fq.deficits[7] + fq.flow[7].allowance, 0);
    expect("a call on it", obikuteru_fq_tick(&fq, 15000), OBIKUTERU_REFUSED_STATE);
}

void check_fq(void)
{
    run_fresh();
    run_tick();
    run_departures();
    run_arrivals();
    run_refusals();
}
