/*
 * Three streams of events, each in phases that come again and again. The clock goes on by a random
 * gap from event to event; a tick comes as soon as its period has passed. A link sends only what
 * is queued: the queue is followed in plain C, and few departures find it empty.
 *   varied  overload, draining, idle, balanced, idle; 1,024 slots. About 51 % are arrivals, 45 %
 *           departures and 4 % ticks, and every verdict occurs.
 *   full    a short queue before a fast link, nearly always full: a third of the arrivals find no
 *           slot or no room, and few of the others are early; 100 slots.
 *   calm    the phases of varied on a calm queue: inactive at first, active from a third of the
 *           buffer on, and inactive again after an idle phase; 1,024 slots.
 */
#include "kind.h"

#define PERIOD 15000u

/* Of 100 packet events, how many are arrivals; the longest gap between two events; the least and
 * largest size; of 100 packets, how many are ECN-capable; how many events the phase lasts. */
struct phase {
    uint32_t arrivals;
    uint32_t gap;
    uint32_t least;
    uint32_t largest;
    uint32_t ecn;
    uint32_t length;
};

/* Overload comes fast and after an idle phase: what arrives is then covered by the burst allowance
 * and fills the queue before anything is dropped early. Balanced phases begin with probability 0. */
static const struct phase varied[] = {
    {80, 100, 64, 600, 90, 4000},    /* overload by small packets: the slots are filled */
    {35, 1000, 64, 1500, 80, 4000},  /* draining */
    {30, 4000, 64, 1500, 50, 2500},  /* idle */
    {50, 1000, 64, 1500, 90, 16000}, /* balanced: early packets on both sides of one tenth */
    {30, 4000, 64, 1500, 50, 1500},  /* idle */
    {80, 100, 900, 1500, 90, 4000},  /* overload by large packets: the buffer is filled */
    {35, 1000, 64, 1500, 80, 4000},  /* draining */
    {30, 4000, 64, 1500, 50, 2500},  /* idle */
    {50, 1000, 64, 1500, 90, 16000}, /* balanced */
    {30, 4000, 64, 1500, 50, 1500},  /* idle */
};

static const struct phase full[] = {
    {60, 300, 64, 600, 50, 6000},   /* full of small packets: no slot is left */
    {60, 300, 900, 1500, 50, 6000}, /* full of large packets: no room is left */
    {55, 1400, 64, 1500, 50, 4000}, /* a slower link: the delay is near the target, few are early */
};

static const struct stream streams[] = {
    {"varied", 15000, 1000000, MOST_SLOTS, PLAIN_PLAIN, 8033, varied, COUNT(varied)},
    {"full", 100000, 64000, 100, PLAIN_PLAIN, 20170217, full, COUNT(full)},
    {"calm", 15000, 300000, MOST_SLOTS, PLAIN_CALM, 8033, varied, COUNT(varied)},
};

#include "../shared/make_events.h"

static struct event next_event(struct generator *g)
{
    const struct phase *phase = next_phase(g, 0);
    struct event e = {.clock = pass(g, phase->gap), .kind = DEPARTURE};
    if (PERIOD <= g->clock - g->queues[0].last) {
        e.kind = TICK;
    } else if (arrives(&g->seed, phase->arrivals, g->queues[0].count)) {
        e.kind = ARRIVAL;
        e.handle = (uint32_t)next_random(&g->seed);
        e.u = (uint32_t)next_random(&g->seed);
        e.size = (uint16_t)(phase->least + below(&g->seed, phase->largest - phase->least + 1));
        e.ecn = below(&g->seed, 100) < phase->ecn;
    }
    return e;
}
