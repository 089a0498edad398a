/*
 * An intercom and the passengers in one pair of tables. The intercom sends six packets each 20 ms. The
 * passengers flood the gateway for two seconds, with four packets for each that can leave. The same
 * intercom calls are made twice, alone and beside the flood, and each answer is compared. A third run
 * shows what the flood does to an intercom that has no slots in reserve.
 */
#include <obikuteru.h>

#include <inttypes.h>
#include <stdio.h>
#include <stdlib.h>

enum {
    SLOTS = 32,
    RESERVE = 8,           /* slots for the intercom alone */
    MILLISECOND = 1000,
    DURATION = 2000,       /* milliseconds */
    SPEECH_PERIOD = 20,    /* milliseconds from one group of intercom packets to the next */
    SPEECH_PACKETS = 6,
    SPEECH_BYTES = 200,
    SPEECH_SENDING = 3,    /* milliseconds that an intercom packet takes */
    FLOOD_BYTES = 1200,
    FLOOD_SENDING = 4,
    CALLS_MOST = 4 * DURATION
};

struct pair {
    struct obikuteru_shared shared;
    struct obikuteru_pair_queue intercom, passengers;
    uint32_t handles[SLOTS], sizes[SLOTS];
};

/* What an intercom call gave, and where its packet stood. */
struct answer {
    uint32_t answer, handle, size;
    uint64_t place;
};

struct answers {
    size_t count;
    struct answer calls[CALLS_MOST];
};

/* A small generator for each queue, so that each run gives the intercom the same numbers. Firmware
 * takes `u` from getrandom, say. */
static uint32_t next_random(uint64_t *seed)
{
    *seed = *seed * 6364136223846793005u + 1442695040888963407u;
    return (uint32_t)(*seed >> 32);
}

/* Any refusal here is a fault of this program: it keeps its clocks in order and its tables whole. */
static uint32_t accepted(uint32_t answer, const char *call)
{
    if (obikuteru_refused(answer)) {
        fprintf(stderr, "two_queues: %s was refused by %" PRIu32 ".\n", call, answer - 100);
        exit(1);
    }
    return answer;
}

static uint32_t arrive(struct pair *p, bool second, uint64_t clock, uint32_t handle, uint32_t size, uint32_t u)
{
    return accepted(obikuteru_pair_arrival(&p->shared, &p->intercom, &p->passengers, second, p->handles, SLOTS, p->sizes,
                                           SLOTS, clock, handle, size, false, u), "an arrival");
}

static uint32_t depart(struct pair *p, bool second, uint64_t clock, struct obikuteru_packet *packet)
{
    return accepted(obikuteru_pair_departure(&p->shared, &p->intercom, &p->passengers, second, p->handles, SLOTS, p->sizes,
                                             SLOTS, clock, packet), "a departure");
}

static void tick_if_due(struct pair *p, bool second, uint64_t clock)
{
    const struct obikuteru_pair_queue *queue = second ? &p->passengers : &p->intercom;

    if (clock >= queue->last + OBIKUTERU_TICK_PERIOD)
        accepted(obikuteru_pair_tick(&p->shared, &p->intercom, &p->passengers, second, clock), "a tick");
}

static void keep(struct answers *all, uint32_t answer, uint32_t handle, uint32_t size, uint64_t place)
{
    all->calls[all->count++] = (struct answer){answer, handle, size, place};
}

/* What the passengers do in this millisecond. */
static void flood(struct pair *p, uint64_t ms, uint64_t *seed)
{
    struct obikuteru_packet packet;
    uint64_t clock = ms * MILLISECOND;

    if (ms % FLOOD_SENDING == 0 && p->passengers.count > 0)
        depart(p, OBIKUTERU_PASSENGERS, clock, &packet);
    arrive(p, OBIKUTERU_PASSENGERS, clock, (uint32_t)ms, FLOOD_BYTES, next_random(seed));
    tick_if_due(p, OBIKUTERU_PASSENGERS, clock);
}

/* What the intercom does: the same in every run, as long as it is answered alike. */
static void speak(struct pair *p, uint64_t ms, uint64_t *seed, struct answers *all)
{
    struct obikuteru_packet packet;
    uint64_t clock = ms * MILLISECOND;

    for (uint32_t i = 0; ms % SPEECH_PERIOD == 0 && i < SPEECH_PACKETS; i++) {
        uint32_t handle = (uint32_t)(1000000 + 10 * ms + i);
        uint32_t answer = arrive(p, OBIKUTERU_INTERCOM, clock, handle, SPEECH_BYTES, next_random(seed));
        keep(all, answer, handle, SPEECH_BYTES, p->intercom.tail);
    }
    if (ms % SPEECH_SENDING == 0 && p->intercom.count > 0) {
        uint64_t place = p->intercom.head;
        uint32_t answer = depart(p, OBIKUTERU_INTERCOM, clock, &packet);
        keep(all, answer, packet.handle, packet.size, place);
    }
    tick_if_due(p, OBIKUTERU_INTERCOM, clock);
}

static void report(const char *name, const struct obikuteru_pair_queue *queue)
{
    const uint64_t *v = queue->verdicts;

    printf("  %-10s  %4" PRIu64 " enqueued, %4" PRIu64 " dropped for slots, %4" PRIu64 " dropped early\n", name,
           v[OBIKUTERU_ENQUEUED], v[OBIKUTERU_DROPPED_SLOTS], v[OBIKUTERU_DROPPED_EARLY]);
}

/* One run; the intercom's answers go to `all`. */
static void run(const char *title, uint64_t reserve, bool with_flood, struct answers *all)
{
    struct pair p;
    uint64_t speech_seed = 1, flood_seed = 2;

    accepted(obikuteru_pair_fresh(&p.shared, &p.intercom, &p.passengers, SLOTS, 15000, 64000, reserve, 0, 15000, 64000, 0, 0),
             "fresh");
    all->count = 0;
    for (uint64_t ms = 1; ms <= DURATION; ms++) {
        if (with_flood)
            flood(&p, ms, &flood_seed);
        speak(&p, ms, &speech_seed, all);
    }
    printf("%s\n", title);
    report("intercom", &p.intercom);
    report("passengers", &p.passengers);
}

/* How many answers of the second run are those of the first, and how many of these are for packets that
 * stood elsewhere in the tables. */
static void compare(const struct answers *first, const struct answers *second)
{
    size_t same = 0, moved = 0;

    for (size_t i = 0; i < first->count && i < second->count; i++) {
        const struct answer *a = &first->calls[i], *b = &second->calls[i];
        bool alike = a->answer == b->answer && a->handle == b->handle && a->size == b->size;
        same += alike;
        moved += alike && a->place != b->place;
    }
    printf("  of the intercom's %zu answers %zu are those it has alone, %zu of them for packets in other slots\n",
           first->count, same, moved);
}

int main(void)
{
    static struct answers alone, beside, without;

    run("The intercom alone:", RESERVE, false, &alone);
    run("Beside the flood, eight slots reserved for the intercom:", RESERVE, true, &beside);
    compare(&alone, &beside);
    run("Beside the flood, no slot reserved:", 0, true, &without);
    return 0;
}
