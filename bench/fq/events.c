/*
 * Two streams of events for 64 flows. One clock goes on by a random gap from event to event, and a tick
 * comes as soon as its period has passed. A link sends only what is queued: the flows are followed in
 * plain C, and few departures find nothing.
 *   fq       a few senders or many, one of them a flood at times, from light to overload: every verdict
 *            occurs.
 *   fq-full  few slots before a fast link, nearly always all in use: a third of the arrivals find no
 *            slot or no room.
 */
#include "kind.h"

#define PERIOD 15000u

/* How many senders there are; of 100 packets, how many are the first one's beside its share; of 100
 * packet events, how many are arrivals; the longest gap between two events; the least and largest size;
 * of 100 packets, how many are ECN-capable; how many events the phase lasts. */
struct phase {
    uint32_t senders;
    uint32_t flood;
    uint32_t arrivals;
    uint32_t gap;
    uint32_t least;
    uint32_t largest;
    uint32_t ecn;
    uint32_t length;
};

static const struct phase fq[] = {
    {40, 0, 50, 700, 64, 1500, 80, 4000},   /* many senders, balanced */
    {20, 80, 70, 300, 900, 1500, 90, 3000}, /* one of them floods */
    {20, 0, 35, 700, 64, 1500, 80, 2000},   /* draining */
    {8, 0, 30, 4000, 64, 600, 50, 1500},    /* idle */
    {200, 0, 60, 500, 64, 900, 90, 3000},   /* a crowd, every flow has senders */
    {200, 0, 40, 700, 64, 1500, 80, 2500},  /* it leaves */
    {3, 60, 53, 900, 1200, 1500, 95, 6000}, /* a few senders, a little too much */
    {3, 0, 35, 900, 64, 1500, 80, 2000},    /* draining */
};

static const struct phase full[] = {
    {60, 0, 60, 300, 64, 600, 50, 4000},    /* full of small packets: no slot is left */
    {60, 0, 60, 300, 900, 1500, 50, 4000},  /* full of large packets: no room is left */
    {10, 50, 55, 1400, 64, 1500, 50, 3000}, /* fewer senders, a slower link */
};

static const struct stream streams[] = {
    {"fq", 15000, 200000, MOST_SLOTS, 2166136261u, 80337, fq, COUNT(fq)},
    {"fq-full", 100000, 40000, 64, 2166136261u, 80338, full, COUNT(full)},
};

#include "../shared/make_events.h"

/* The key of a sender: its address and port, to one server. */
static void write_key(uint8_t *key, uint32_t sender)
{
    static const uint8_t common[PLAIN_FQ_KEY] = {10, 0, 0, 0, 10, 0, 0, 1, 0, 0, 1, 187, 6};
    uint32_t port = 40000 + 31 * sender;
    memcpy(key, common, PLAIN_FQ_KEY);
    key[3] = (uint8_t)(2 + sender);
    key[8] = (uint8_t)(port >> 8);
    key[9] = (uint8_t)port;
}

static struct event next_event(struct generator *g)
{
    const struct phase *phase = next_phase(g, 0);
    struct event e = {.clock = pass(g, phase->gap), .kind = DEPARTURE};
    if (PERIOD <= g->clock - g->queues[0].last) {
        e.kind = TICK;
    } else if (arrives(&g->seed, phase->arrivals, (uint32_t)g->queues[0].count)) {
        e.kind = ARRIVAL;
        e.handle = (uint32_t)next_random(&g->seed);
        e.u = (uint32_t)next_random(&g->seed);
        e.size = (uint16_t)(phase->least + below(&g->seed, phase->largest - phase->least + 1));
        e.ecn = below(&g->seed, 100) < phase->ecn;
        write_key(e.key, below(&g->seed, 100) < phase->flood ? 0 : below(&g->seed, phase->senders));
    }
    return e;
}
