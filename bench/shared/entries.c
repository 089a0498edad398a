/*
 * The bench of a kind's entries: all sides run the same events of one stream. It is compiled for a kind
 * with that kind's folder in the search path, and takes its kind.h (names.h) and its entries.h.
 *
 *   entries time STREAM        checks that all sides answer alike, then times them; prints ratios to plain C
 *   entries count STREAM SIDE  runs the stream once on one side, for callgrind to count
 *
 * First every answer, every packet and every record after it is compared. Then come the timed rounds,
 * each in many short parts; the sides take turns part by part, so that whatever else the machine does
 * falls on all alike.
 *   mix: each side runs all events on queues of its own, 2,000 events to a part.
 *   arrival, departure, tick: calls of one kind, sampled from the mixed run together with the record
 *     that they met there. A block of such records, a part, is copied to the side's own, and only their
 *     calls are timed.
 * How ratios are made of the times: ratios.h. Nothing is allocated or first touched inside a timed part.
 *
 * entries.h has
 *   met(e)         looks at an event before plain C runs it
 *   print_answers  prints how plain C answered, by print_verdicts
 * and what a situation keeps of the tables (in_ring.h, for a queue in a ring):
 *   struct elements
 *   clashes(e, block)     whether a call cannot be in this block, as its tables are another's
 *   elements_of(e, block) the elements, by plain C's tables before the event
 *   place(i, s, e, x)     puts those of the i-th call of a block into the tables that it is lent
 */
#include <stdio.h>
#include <stdlib.h>
#include <string.h>

#include "kind.h"

#include "sides.h"
#include "timer.h"

static void print_verdicts(const uint64_t *v)
{
    printf("verdicts %s", stream->name);
    for (int i = 0; i < 5; i++)
        printf(" %llu", (unsigned long long)v[i]);
    printf("\n");
}

#include "entries.h"

#define find find_stream
#define PROGRAM "entries"
#define CHUNK 2000u
#define PARTS 512u /* the most parts of a round */
#define SITUATIONS (PARTS * BLOCK)
#define ROUNDS 21u
#define SIDES COUNT(sides)

#include "ratios.h"

struct situations {
    size_t n;
    struct event event[SITUATIONS];
    RECORD before[SITUATIONS];
    struct elements elements[SITUATIONS];
};

static struct event events[EVENTS];
static struct situations situations[KINDS];
static volatile uint64_t sink;

static void differ(const char *name, const char *what, size_t number)
{
    fprintf(stderr, PROGRAM ": %s and plain C differ at %s %zu.\n", name, what, number);
    exit(1);
}

/* Whether a side has left the sizes and counts of a queue as plain C has. */
static bool agrees(size_t s, uint32_t q)
{
    return memcmp(sides[s].words(q), sides[0].words(q), stream->slots * sizeof(uint32_t)) == 0
        && memcmp(sides[s].row(q), sides[0].row(q), 5 * sizeof(uint64_t)) == 0;
}

/* Runs all sides step by step and compares answer, packet, record, sizes and counts with plain C's. */
static void check_mix(void)
{
    for (size_t s = 0; s < SIDES; s++)
        sides[s].fresh();
    for (size_t i = 0; i < EVENTS; i++) {
        const struct event *e = &events[i];
        met(e);
        uint64_t sum = sides[0].mix(e, 1);
        RECORD state = sides[0].record(QUEUE(e));
        for (size_t s = 1; s < SIDES; s++)
            if (sides[s].mix(e, 1) != sum || !same(sides[s].record(QUEUE(e)), state) || !agrees(s, QUEUE(e)))
                differ(sides[s].name, "event", i + 1);
    }
    for (size_t s = 1; s < SIDES; s++)
        for (uint32_t q = 0; q < QUEUES; q++)
            if (!agrees(s, q))
                differ(sides[s].name, "the tables after event", EVENTS);
}

/* Samples each kind evenly over the mixed run. */
static void collect(void)
{
    size_t total[KINDS] = {0}, seen[KINDS] = {0};
    for (size_t i = 0; i < EVENTS; i++)
        total[events[i].kind]++;
    on_plain_fresh();
    for (size_t i = 0; i < EVENTS; i++) {
        const struct event *e = &events[i];
        struct situations *s = &situations[e->kind];
        size_t block = s->n / BLOCK + 1;
        bool due = s->n < SITUATIONS && s->n * total[e->kind] <= seen[e->kind]++ * SITUATIONS;
        if (due && !clashes(e, block)) {
            s->event[s->n] = *e;
            s->before[s->n] = on_plain_queues[QUEUE(e)];
            s->elements[s->n] = elements_of(e, block);
            s->n++;
        }
        on_plain_mix(e, 1);
    }
}

/* Prepares the tables of a block of situations. */
static void lend(const struct situations *s, size_t at)
{
    for (size_t i = 0; i < BLOCK; i++)
        place(i, &s->before[at + i], &s->event[at + i], &s->elements[at + i]);
}

/* All sides must leave every state of every block as plain C does. */
static void check_blocks(enum kind kind)
{
    const struct situations *s = &situations[kind];
    for (size_t at = 0; at + BLOCK <= s->n; at += BLOCK) {
        lend(s, at);
        sides[0].load(&s->before[at]);
        uint64_t sum = sides[0].block[kind](&s->event[at]);
        for (size_t k = 1; k < SIDES; k++) {
            lend(s, at);
            sides[k].load(&s->before[at]);
            if (sides[k].block[kind](&s->event[at]) != sum)
                differ(sides[k].name, "a situation from", at);
            for (size_t i = 0; i < BLOCK; i++)
                if (!same(sides[k].loaded(i), sides[0].loaded(i)))
                    differ(sides[k].name, "situation", at + i);
        }
    }
}

/* Both answer the number of parts. */
static size_t time_mix(size_t round)
{
    for (size_t s = 0; s < SIDES; s++)
        sides[s].fresh();
    for (size_t part = 0; part < EVENTS / CHUNK; part++)
        for (size_t turn = 0; turn < SIDES; turn++) {
            size_t s = (turn + part + round) % SIDES;
            uint64_t begin = timer();
            sink += sides[s].mix(&events[part * CHUNK], CHUNK);
            times[s][part][round] = timer() - begin;
        }
    return EVENTS / CHUNK;
}

static size_t time_blocks(enum kind kind, size_t round)
{
    const struct situations *c = &situations[kind];
    for (size_t part = 0; part < c->n / BLOCK; part++) {
        size_t at = part * BLOCK;
        for (size_t turn = 0; turn < SIDES; turn++) {
            size_t s = (turn + part + round) % SIDES;
            lend(c, at);
            sides[s].load(&c->before[at]);
            uint64_t begin = timer();
            sink += sides[s].block[kind](&c->event[at]);
            times[s][part][round] = timer() - begin;
        }
    }
    return c->n / BLOCK;
}

/* Prints how many events of each kind there are, and how plain C answered. */
static void print_events(void)
{
    size_t total[KINDS] = {0};
    for (size_t i = 0; i < EVENTS; i++)
        total[events[i].kind]++;
    printf("events %s %u %zu %zu %zu %u\n", stream->name, EVENTS, total[ARRIVAL],
           total[DEPARTURE], total[TICK], stream->slots);
    print_answers();
    printf("rounds %s %u\n", stream->name, ROUNDS);
}

static void prepare(void)
{
    make_events(stream, events, EVENTS);
}

static void run_times(void)
{
    static const char *const names[KINDS] = {"arrival", "departure", "tick"};
    size_t parts = 0;
    check_mix();
    print_events();
    collect();
    for (int kind = 0; kind < KINDS; kind++)
        check_blocks((enum kind)kind);
    for (size_t round = 0; round < ROUNDS; round++)
        parts = time_mix(round);
    print_ratios(stream->name, "mix", parts);
    for (int kind = 0; kind < KINDS; kind++) {
        for (size_t round = 0; round < ROUNDS; round++)
            parts = time_blocks((enum kind)kind, round);
        print_ratios(stream->name, names[kind], parts);
    }
}

static void run_side(size_t s)
{
    sides[s].fresh();
    sink += sides[s].mix(events, EVENTS);
}

#include "program.h"
