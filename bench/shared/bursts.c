/*
 * The bench of a kind's bursts of calls: the library, and plain C that tests the records once, with
 * the sum of the counts at each arrival (plain) or with one test that they have room (room). It is
 * compiled for a kind with that kind's folder in the search path, and takes its kind.h (names.h). All
 * sides run the first 60,000 events of a stream in bursts of some length. Each queue's events are
 * gathered in their order into bursts of its own; the last of a queue may be shorter. First all answers
 * and what is left of records, tables and counts are compared. How ratios are made of the times: ratios.h.
 *
 *   bursts time STREAM-LENGTH        checks that all answer alike, then times them; prints ratios
 *   bursts count STREAM-LENGTH SIDE  runs the events once on one side, for callgrind to count
 */
#include <stdio.h>
#include <stdlib.h>
#include <string.h>

#include "kind.h"

#include "names.h"
#include "timer.h"

#define PROGRAM "bursts"
#define RUN_EVENTS 60000u
#define CHUNK 7680u /* calls of a part: bursts of 32 and of 256 fill it */
#define PARTS (RUN_EVENTS / CHUNK + 1)
#define ROUNDS 21u
#define SIDES COUNT(sides)

static const struct stream *stream;

struct burst {
    uint32_t queue;
    size_t from, n;
};

/* What a side has left of a queue. */
struct left {
    RECORD record;
    const uint32_t *handles, *sizes;
    const uint64_t *counts;
};

struct side {
    const char *name;
    void (*fresh)(void);
    void (*burst)(uint32_t, const BURST_CALL *, BURST_ANSWER *, size_t);
    struct left (*left)(uint32_t);
};

#define SIDE(name) on_plain_##name
#define CALL(name) NAMED(plain_, name)
#define ENTRY NAMED(plain_, calls)
#include "burst_side.h"

#define SIDE(name) on_library_##name
#define CALL(name) NAMED(obikuteru_, name)
#define ENTRY NAMED(obikuteru_, calls)
#define STATE LIBRARY_RECORD
#include "burst_side.h"

#define SIDE(name) on_room_##name
#define CALL(name) NAMED(plain_, name)
#define ENTRY NAMED(room_, calls)
#include "burst_side.h"

#define ENTRIES(side) {#side, on_##side##_fresh, on_##side##_burst, on_##side##_left}

static const struct side sides[] = {ENTRIES(plain), ENTRIES(library), ENTRIES(room)};

#include "ratios.h"

static size_t length; /* calls of a burst */
static struct event events[RUN_EVENTS];
static BURST_CALL calls[RUN_EVENTS];
static struct burst bursts[RUN_EVENTS];
static size_t burst_count;
static _Alignas(8) BURST_ANSWER answers[SIDES][RUN_EVENTS];

static void fail(const char *sentence);

/* The stream of a name with a length behind it. */
static const struct stream *find(const char *name)
{
    char beginning[16];
    const char *dash = strrchr(name, '-');
    if (dash == NULL || sizeof beginning <= (size_t)(dash - name))
        return NULL;
    memcpy(beginning, name, (size_t)(dash - name));
    beginning[dash - name] = '\0';
    length = strtoul(dash + 1, NULL, 10);
    return 1 <= length && length <= CHUNK ? find_stream(beginning) : NULL;
}

/* The calls that wait become a burst. */
static void add_burst(uint32_t queue, const BURST_CALL *waiting, size_t n)
{
    const struct burst *last = burst_count == 0 ? NULL : &bursts[burst_count - 1];
    size_t from = last == NULL ? 0 : last->from + last->n;
    memcpy(&calls[from], waiting, n * sizeof *waiting);
    bursts[burst_count++] = (struct burst){queue, from, n};
}

static void prepare(void)
{
    static BURST_CALL waiting[QUEUES][CHUNK];
    size_t waits[QUEUES] = {0};
    make_events(stream, events, RUN_EVENTS);
    for (size_t i = 0; i < RUN_EVENTS; i++) {
        uint32_t q = QUEUE(&events[i]);
        waiting[q][waits[q]++] = call_of(&events[i]);
        if (waits[q] == length) {
            add_burst(q, waiting[q], length);
            waits[q] = 0;
        }
    }
    for (uint32_t q = 0; q < QUEUES; q++)
        if (0 < waits[q])
            add_burst(q, waiting[q], waits[q]);
}

/* The bursts from `b` on that begin before the call `end`; answers the first that does not. */
static const struct burst *run(size_t s, const struct burst *b, size_t end)
{
    for (; b < &bursts[burst_count] && b->from < end; b++)
        sides[s].burst(b->queue, &calls[b->from], &answers[s][b->from], b->n);
    return b;
}

static void run_side(size_t s)
{
    sides[s].fresh();
    run(s, bursts, RUN_EVENTS);
}

static bool agrees(struct left a, struct left b)
{
    size_t table = stream->slots * sizeof(uint32_t);
    return same(a.record, b.record) && memcmp(a.handles, b.handles, table) == 0
        && memcmp(a.sizes, b.sizes, table) == 0
        && memcmp(a.counts, b.counts, 5 * sizeof(uint64_t)) == 0;
}

static void check(void)
{
    for (size_t s = 0; s < SIDES; s++)
        run_side(s);
    for (size_t s = 1; s < SIDES; s++) {
        if (memcmp(answers[s], answers[0], sizeof answers[0]) != 0)
            fail("the sides answer differently.");
        for (uint32_t q = 0; q < QUEUES; q++)
            if (!agrees(sides[s].left(q), sides[0].left(q)))
                fail("the sides leave different records, tables or counts.");
    }
}

static void time_round(size_t round)
{
    const struct burst *at = bursts, *next = NULL;
    for (size_t s = 0; s < SIDES; s++)
        sides[s].fresh();
    for (size_t part = 0; part < PARTS; part++, at = next)
        for (size_t turn = 0; turn < SIDES; turn++) {
            size_t s = (turn + part + round) % SIDES;
            uint64_t begin = timer();
            next = run(s, at, (part + 1) * CHUNK);
            times[s][part][round] = timer() - begin;
        }
}

static void run_times(void)
{
    char what[16];
    check();
    for (size_t round = 0; round < ROUNDS; round++)
        time_round(round);
    snprintf(what, sizeof what, "calls-%zu", length);
    print_ratios(stream->name, what, PARTS);
}

#include "program.h"
