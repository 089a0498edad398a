/*
 * Makes the events of a kind's streams. Included once by its events.c, which has
 *   struct phase                with `length`, in events
 *   streams                     the streams
 * before, and behind it next_event, by next_phase and pass. A link sends only what is queued: the queues
 * are followed in plain C.
 */
#ifndef MAKE_EVENTS_H
#define MAKE_EVENTS_H

#include <string.h>

#include "names.h"
#include "random.h"

#define CALL(name) NAMED(plain_, name)

struct generator {
    const struct stream *stream;
    uint64_t seed;
    uint64_t clock;
    RECORD queues[QUEUES];
    uint64_t counts[QUEUES][5]; /* not touched where the records have them */
    uint32_t handles[QUEUES][MOST_SLOTS];
    uint32_t sizes[QUEUES][MOST_SLOTS];
    size_t phase[QUEUES];
    uint32_t passed[QUEUES]; /* events of the phase */
};

static struct event next_event(struct generator *g);

/* The phase of the next event of queue q, which goes through all phases again and again, from the
 * phase q on. */
static const struct phase *next_phase(struct generator *g, uint32_t q)
{
    const struct stream *stream = g->stream;
    const struct phase *phase = &stream->phases[g->phase[q] % stream->phase_count];
    if (++g->passed[q] == phase->length) {
        g->passed[q] = 0;
        g->phase[q]++;
    }
    return phase;
}

/* The clock goes on by a random gap of at most `gap`. */
static uint64_t pass(struct generator *g, uint32_t gap)
{
    return g->clock += below(&g->seed, gap + 1);
}

static void follow(struct generator *g, const struct event *e)
{
    PLAIN_PACKET packet;
    size_t slots = g->stream->slots;
    uint32_t q = QUEUE(e);
    if (e->kind == ARRIVAL)
        ARRIVE(&g->queues[q], g->counts, e, g->handles[q], g->sizes[q]);
    else if (e->kind == DEPARTURE)
        DEPART(&g->queues[q], g->counts, e, g->handles[q], g->sizes[q], &packet);
    else
        UPDATE(&g->queues[q], g->counts, e);
}

const struct stream *find_stream(const char *name)
{
    for (size_t i = 0; i < COUNT(streams); i++)
        if (strcmp(streams[i].name, name) == 0)
            return &streams[i];
    return NULL;
}

void make_events(const struct stream *stream, struct event *events, size_t n)
{
    static struct generator g;
    memset(&g, 0, sizeof g);
    g.stream = stream;
    g.seed = stream->seed;
    for (uint32_t q = 0; q < QUEUES; q++) {
        START(&g.queues[q], g.counts, q);
        g.phase[q] = q;
    }
    for (size_t i = 0; i < n; i++) {
        events[i] = next_event(&g);
        follow(&g, &events[i]);
    }
}

#endif
