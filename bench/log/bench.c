/*
 * The library's log against the same in plain C, in one process, on a log of 100,000 records.
 *
 *   bench time STREAM        checks that both answer alike, then times them; prints ratios to plain C
 *   bench count STREAM SIDE  adds, replays and compares once on one side, for callgrind to count
 *
 * Method. The log holds the first 100,000 accepted events of a stream (ring/events.c), run by the rules in
 * plain C, with no note. Then come the timed rounds, the sides taking turns part by part:
 *   add: all records to an empty log, 2,000 to a part;
 *   replay: the log, read whole and replayed, one replay to a part;
 *   compare: the log and its copy, both read whole and compared, one comparison to a part.
 * A replay or comparison takes milliseconds, so these two are timed by the processor time of the
 * thread: what else runs meanwhile is not counted. How ratios are made of the times: ratios.h.
 */
#include "../ring/events.h"
#include "../ring/plain.h"
#include "../shared/timer.h"
#include "obikuteru.h"
#include "plain.h"

#include <stdio.h>
#include <stdlib.h>
#include <string.h>
#include <time.h>

#define PROGRAM "bench"
#define find find_stream
#define RECORDS 100000u
#define EVENTS 120000u /* enough of them are accepted */
#define LONGEST (32u + 40u * RECORDS + 16u)
#define PAGE 4096
#define CHUNK 2000u
#define PARTS (RECORDS / CHUNK) /* the most parts of a round */
#define CALLS 4u                /* replays or comparisons of a round */
#define ROUNDS 21u

static const struct stream *stream;
static struct event events[EVENTS];
static _Alignas(PAGE) uint8_t first_log[LONGEST];
static _Alignas(PAGE) uint8_t second_log[LONGEST];
static volatile uint64_t sink;

struct side {
    const char *name;
    uint32_t (*begin)(void);
    uint64_t (*add)(size_t, size_t);
    const uint8_t *(*written)(void);
    uint64_t (*replay)(void);
    uint64_t (*compare)(void);
};

#define SIDE(name) on_plain_##name
#define CALL(name) plain_##name
#define TYPE(name) plain_##name
#include "side.h"

#define SIDE(name) on_library_##name
#define CALL(name) obikuteru_##name
#define TYPE(name) obikuteru_##name
#include "side.h"

#define ENTRIES(side)                                                                             \
    {#side, on_##side##_begin, on_##side##_add, on_##side##_written, on_##side##_replay,          \
     on_##side##_compare}

static const struct side sides[] = {ENTRIES(plain), ENTRIES(library)};

#define SIDES COUNT(sides)

#include "../shared/ratios.h"

static void fail(const char *sentence);

/* Makes the call of an event: whether it is accepted; then the record has its verdict. */
static bool accepted(struct plain_state *state, uint32_t *handles, uint32_t *sizes,
                     const struct event *e, struct plain_record *r)
{
    struct plain_packet packet = {0, 0};
    size_t slots = stream->slots;
    uint32_t answer;
    if (e->kind == ARRIVAL) {
        answer = plain_arrival(state, handles, slots, sizes, slots, e->clock, e->handle, e->size,
                               e->ecn, e->u);
        *r = (struct plain_record){.kind = 'a', .ecn = e->ecn, .handle = e->handle,
                                   .size = e->size, .u = e->u, .verdict = answer};
    } else if (e->kind == DEPARTURE) {
        answer = plain_departure(state, handles, slots, sizes, slots, e->clock, &packet);
        *r = (struct plain_record){.kind = 'd', .verdict = packet.handle};
    } else {
        answer = plain_tick(state, e->clock);
        *r = (struct plain_record){.kind = 't'};
    }
    r->clock = e->clock;
    r->bytes = state->bytes;
    r->probability = state->probability;
    return answer < 100;
}

/* The log of the stream's first accepted events, and its copy. */
static void prepare(void)
{
    static uint32_t handles[MOST_SLOTS], sizes[MOST_SLOTS];
    struct plain_settings settings = {stream->target, stream->buffer, stream->slots, 0, (uint8_t)stream->profile, {0}};
    struct plain_state state;
    struct plain_record record;
    struct plain_log log;
    make_events(stream, events, EVENTS);
    plain_fresh(&state, stream->target, stream->buffer, stream->slots, stream->profile, 0);
    plain_log_begin(&log, &settings, first_log, 0, first_log, LONGEST);
    for (size_t i = 0; i < EVENTS && log.count < RECORDS; i++)
        if (accepted(&state, handles, sizes, &events[i], &record)
            && plain_log_add(&log, &record, first_log, LONGEST) != 0)
            fail("plain C refuses a record.");
    if (log.count != RECORDS)
        fail("too few events are accepted.");
    memcpy(second_log, first_log, LONGEST);
}

/* Each side writes the same log, accepts it, and finds it equal to its copy. */
static void check(void)
{
    for (size_t s = 0; s < SIDES; s++) {
        if (sides[s].begin() != 0 || sides[s].add(0, RECORDS) != 0
            || memcmp(sides[s].written(), first_log, LONGEST) != 0)
            fail("the logs that were written differ.");
        if (sides[s].replay() != RECORDS)
            fail("a replay does not accept the log.");
        if (sides[s].compare() != RECORDS)
            fail("a comparison does not find the logs equal.");
    }
}

/* All answer the number of parts. */
static size_t time_add(size_t round)
{
    for (size_t s = 0; s < SIDES; s++)
        sides[s].begin();
    for (size_t part = 0; part < PARTS; part++)
        for (size_t turn = 0; turn < SIDES; turn++) {
            size_t s = (turn + part + round) % SIDES;
            uint64_t begin = timer();
            sink += sides[s].add(part * CHUNK, CHUNK);
            times[s][part][round] = timer() - begin;
        }
    return PARTS;
}

static uint64_t processor_time(void)
{
    struct timespec t;
    clock_gettime(CLOCK_THREAD_CPUTIME_ID, &t);
    return (uint64_t)t.tv_sec * 1000000000u + (uint64_t)t.tv_nsec;
}

static size_t time_calls(size_t round, bool compares)
{
    for (size_t part = 0; part < CALLS; part++)
        for (size_t turn = 0; turn < SIDES; turn++) {
            size_t s = (turn + part + round) % SIDES;
            uint64_t begin = processor_time();
            sink += compares ? sides[s].compare() : sides[s].replay();
            times[s][part][round] = processor_time() - begin;
        }
    return CALLS;
}

static size_t time_replay(size_t round)
{
    return time_calls(round, false);
}

static size_t time_compare(size_t round)
{
    return time_calls(round, true);
}

static void run_times(void)
{
    static const struct {
        const char *name;
        size_t (*time)(size_t);
    } rows[] = {{"add", time_add}, {"replay", time_replay}, {"compare", time_compare}};
    check();
    for (size_t i = 0; i < COUNT(rows); i++) {
        size_t parts = 0;
        for (size_t round = 0; round < ROUNDS; round++)
            parts = rows[i].time(round);
        print_ratios(stream->name, rows[i].name, parts);
    }
}

static void run_side(size_t s)
{
    sink += sides[s].begin() + sides[s].add(0, RECORDS);
    sink += sides[s].replay() + sides[s].compare();
}

#include "../shared/program.h"
