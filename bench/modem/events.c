/*
 * Two streams of events for the sixteen flows of a modem. Each event is for a flow drawn at random;
 * each flow goes through the phases again and again, from a phase of its own on. One clock goes on
 * by a random gap from event to event, and a flow ticks as soon as its period has passed. A link
 * sends only what is queued: the flows are followed in plain C, and few departures find a queue
 * empty.
 *   modem       overload, balanced and light phases: every verdict and every activity occurs.
 *   modem-full  short queues before a fast link, nearly always full: a third of the arrivals find
 *               no slot or no room, and few of the others are early.
 */
#include "kind.h"

#define PERIOD 16000u

/* Of 100 packet events, how many are arrivals; the longest gap between two events; the least and
 * largest size; how many bytes of credits a tick has at most; how many events the phase lasts. */
struct phase {
    uint32_t arrivals;
    uint32_t gap;
    uint32_t least;
    uint32_t largest;
    uint32_t credits;
    uint32_t length;
};

static const struct phase modem[] = {
    {40, 120, 64, 1500, 8000, 400},   /* draining */
    {51, 120, 64, 1500, 4000, 2500},  /* balanced */
    {25, 120, 64, 600, 20000, 4000},  /* light: quiet for seconds */
    {70, 120, 900, 1500, 4000, 600},  /* overload by large packets: the buffer is filled */
    {51, 120, 64, 1500, 0, 2500},     /* balanced, without credits */
    {70, 120, 64, 500, 4000, 600},    /* overload by small packets: the slots are filled */
};

static const struct phase full[] = {
    {62, 120, 900, 1500, 20000, 1500}, /* full of large packets: no room is left */
    {55, 120, 64, 1500, 0, 1000},      /* without credits: the delay is near the target */
    {62, 120, 64, 600, 20000, 1500},   /* full of small packets: no slot is left */
};

static const struct stream streams[] = {
    {"modem", 10000, 60000, 128, 2000000, 500000, 8034, modem, COUNT(modem)},
    {"modem-full", 40000, 64000, 100, 5000000, 800000, 20170218, full, COUNT(full)},
};

#include "../shared/make_events.h"

static struct event next_event(struct generator *g)
{
    uint32_t flow = below(&g->seed, PLAIN_FLOWS);
    const struct plain_modem *queue = &g->queues[flow];
    const struct phase *phase = next_phase(g, flow);
    struct event e = {.clock = pass(g, phase->gap), .kind = DEPARTURE, .flow = (uint8_t)flow};
    if (PERIOD <= e.clock - queue->last) {
        e.kind = TICK;
        e.credits = below(&g->seed, phase->credits + 1);
    } else if (arrives(&g->seed, phase->arrivals, queue->count)) {
        e.kind = ARRIVAL;
        e.handle = (uint32_t)next_random(&g->seed);
        e.u = (uint32_t)next_random(&g->seed);
        e.size = (uint16_t)(phase->least + below(&g->seed, phase->largest - phase->least + 1));
    }
    return e;
}
