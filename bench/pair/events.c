/*
 * Two streams of events for a pair of queues. One clock goes on by a random gap from event to event, and
 * a queue ticks as soon as its period has passed. A link sends only what is queued: the queues are
 * followed in plain C, and few departures find one empty.
 *   pair       the intercom steady, the passengers from light to overload: every verdict occurs.
 *   pair-full  few slots before a fast link, nearly always all in use: a third of the arrivals find no
 *              slot or no room.
 */
#include "kind.h"

#define PERIOD 15000u

/* Of 100 events that are no ticks, how many are the intercom's; of 100 packet events of the intercom
 * and of the passengers, how many are arrivals; the longest gap between two events; the least and
 * largest size; of 100 packets, how many are ECN-capable; how many events the phase lasts. */
struct phase {
    uint32_t intercom;
    uint32_t arrivals[2];
    uint32_t gap;
    uint32_t least;
    uint32_t largest;
    uint32_t ecn;
    uint32_t length;
};

static const struct phase pair[] = {
    {30, {50, 80}, 200, 64, 600, 90, 2500},   /* the passengers flood by small packets */
    {30, {50, 35}, 1000, 64, 1500, 80, 3000}, /* draining */
    {50, {40, 30}, 4000, 64, 1500, 50, 2500}, /* idle */
    {40, {50, 50}, 1000, 64, 1500, 90, 9000}, /* balanced */
    {50, {60, 50}, 400, 64, 900, 90, 4000},   /* the intercom floods too */
    {50, {30, 30}, 4000, 64, 1500, 50, 2500}, /* idle */
    {30, {50, 80}, 200, 900, 1500, 90, 2500}, /* the passengers flood by large packets */
    {30, {45, 35}, 1000, 64, 1500, 80, 3000}, /* draining */
};

static const struct phase full[] = {
    {40, {55, 62}, 300, 64, 600, 50, 4000},   /* full of small packets: no slot is left */
    {40, {55, 62}, 300, 900, 1500, 50, 4000}, /* full of large packets: no room is left */
    {40, {52, 55}, 1400, 64, 1500, 50, 3000}, /* a slower link */
};

static const struct stream streams[] = {
    {"pair", 15000, 100000, MOST_SLOTS, {48, 32}, 80337, pair, COUNT(pair)},
    {"pair-full", 100000, 30000, 64, {16, 8}, 80338, full, COUNT(full)},
};

#include "../shared/make_events.h"

static struct event next_event(struct generator *g)
{
    const struct phase *phase = next_phase(g, 0);
    struct event e = {.clock = pass(g, phase->gap), .kind = DEPARTURE};
    for (int q = 0; q < 2; q++)
        if (PERIOD <= g->clock - g->queues[0].queues[q].last) {
            e.kind = TICK;
            e.second = q == 1;
            return e;
        }
    e.second = phase->intercom <= below(&g->seed, 100);
    if (arrives(&g->seed, phase->arrivals[e.second], g->queues[0].queues[e.second].count)) {
        e.kind = ARRIVAL;
        e.handle = (uint32_t)next_random(&g->seed);
        e.u = (uint32_t)next_random(&g->seed);
        e.size = (uint16_t)(phase->least + below(&g->seed, phase->largest - phase->least + 1));
        e.ecn = below(&g->seed, 100) < phase->ecn;
    }
    return e;
}
