/*
 * A cable modem's sixteen flows in one small program. Fifteen carry a little traffic. Flow 3 gets a
 * burst at twice its sustained rate: once a third of its buffer is full, drops are possible; one
 * packet is dropped early, a hint to its sender, and the flow is then protected while the rest of
 * the burst comes. The program prints what becomes of flow 3, and the counts at the end.
 */
#include <obikuteru.h>

#include <inttypes.h>
#include <stdio.h>
#include <stdlib.h>

enum {
    FLOWS = OBIKUTERU_MODEM_FLOWS,
    SLOTS = 128,
    BUFFER = 120000,
    PEAK = 2500000,     /* bytes per second: 20 Mbit/s */
    SUSTAINED = 625000, /* 5 Mbit/s */
    BUCKET = 20000,     /* most credits that a flow saves up */
    BURST_FLOW = 3,
    MILLISECOND = 1000
};

struct flow {
    struct obikuteru_modem_state state;
    uint32_t handles[SLOTS], sizes[SLOTS];
    uint32_t credits;   /* bytes that may leave at the peak rate */
    uint64_t protected; /* packets enqueued while the allowance ran */
};

static struct flow flows[FLOWS];
static uint64_t counts[FLOWS][5];

/* A small generator, so that each run prints the same. Firmware takes `u` from getrandom, say. */
static uint32_t next_random(void)
{
    static uint64_t seed = 1;

    seed = seed * 6364136223846793005u + 1442695040888963407u;
    return (uint32_t)(seed >> 32);
}

/* Any refusal here is a fault of this program: it keeps its clocks in order and its tables whole. */
static void stop_if_refused(uint32_t answer, const char *call)
{
    if (obikuteru_refused(answer)) {
        fprintf(stderr, "modem: %s was refused by %" PRIu32 ".\n", call, answer - 100);
        exit(1);
    }
}

/* Tells of flow 3 where its activity changed, or a packet was dropped. */
static void tell(uint64_t clock, uint64_t activity_before, bool dropped)
{
    static const char *const names[3] = {"inactive", "quiescent", "active"};
    const struct obikuteru_modem_state *s = &flows[BURST_FLOW].state;

    if (dropped || s->activity != activity_before)
        printf("%4" PRIu64 " ms  %-9s  %5" PRIu64 " bytes  delay %3" PRIu64 " ms  probability %5.2f %%  allowance %3" PRIu64 " ms%s\n",
               clock / MILLISECOND, names[s->activity], s->bytes, s->old_delay / MILLISECOND,
               100.0 * (double)s->probability / 4294967296.0, s->allowance / MILLISECOND,
               dropped ? "  a packet is dropped early" : "");
}

static void arrive(uint64_t clock, uint32_t f, uint32_t handle, uint32_t size)
{
    struct flow *flow = &flows[f];
    uint64_t activity = flow->state.activity;
    bool is_protected = flow->state.allowance > 0;
    uint32_t answer = obikuteru_modem_arrival(&flow->state, counts, f, flow->handles, SLOTS, flow->sizes, SLOTS, clock,
                                              handle, size, next_random());

    stop_if_refused(answer, "an arrival");
    if (answer == OBIKUTERU_ENQUEUED)
        flow->protected += is_protected;
    if (f == BURST_FLOW)
        tell(clock, activity, answer == OBIKUTERU_DROPPED_EARLY);
}

/* Sends what one millisecond at the peak rate and the credits allow. */
static void send(uint64_t clock, uint32_t f)
{
    struct flow *flow = &flows[f];
    struct obikuteru_packet head;
    uint32_t room = PEAK / MILLISECOND;

    flow->credits += SUSTAINED / MILLISECOND;
    if (flow->credits > BUCKET)
        flow->credits = BUCKET;
    while (flow->state.count > 0) {
        uint32_t size = flow->sizes[flow->state.first];
        if (size > room || size > flow->credits)
            break;
        stop_if_refused(obikuteru_modem_departure(&flow->state, counts, f, flow->handles, SLOTS, flow->sizes, SLOTS, clock,
                                                  &head), "a departure");
        room -= size;
        flow->credits -= size;
    }
}

static void tick_if_due(uint64_t clock, uint32_t f)
{
    struct flow *flow = &flows[f];
    uint64_t activity = flow->state.activity;

    if (clock < flow->state.last + OBIKUTERU_MODEM_TICK_PERIOD)
        return;
    stop_if_refused(obikuteru_modem_tick(&flow->state, counts, f, clock, flow->credits), "a tick");
    if (f == BURST_FLOW)
        tell(clock, activity, false);
}

static uint64_t dropped_for_room(uint32_t f)
{
    return counts[f][OBIKUTERU_DROPPED_BYTES] + counts[f][OBIKUTERU_DROPPED_SLOTS];
}

static void report(void)
{
    uint64_t enqueued = 0, dropped = 0;

    printf("flow %d: %" PRIu64 " enqueued, %" PRIu64 " of them protected; %" PRIu64 " dropped early, %" PRIu64 " for bytes or slots\n",
           BURST_FLOW, counts[BURST_FLOW][OBIKUTERU_ENQUEUED], flows[BURST_FLOW].protected,
           counts[BURST_FLOW][OBIKUTERU_DROPPED_EARLY], dropped_for_room(BURST_FLOW));
    for (uint32_t f = 0; f < FLOWS; f++)
        if (f != BURST_FLOW) {
            enqueued += counts[f][OBIKUTERU_ENQUEUED];
            dropped += counts[f][OBIKUTERU_DROPPED_EARLY] + dropped_for_room(f);
        }
    printf("the fifteen others: %" PRIu64 " enqueued, %" PRIu64 " dropped\n", enqueued, dropped);
}

int main(void)
{
    for (uint32_t f = 0; f < FLOWS; f++)
        stop_if_refused(obikuteru_modem_fresh(&flows[f].state, counts, f, OBIKUTERU_MODEM_TARGET, BUFFER, SLOTS, PEAK,
                                              SUSTAINED, 0), "fresh");
    for (uint64_t ms = 1; ms <= 2000; ms++) {
        uint64_t clock = ms * MILLISECOND;
        for (uint32_t f = 0; f < FLOWS; f++) {
            tick_if_due(clock, f);
            if ((ms + f) % 20 == 0)
                arrive(clock, f, (uint32_t)ms, 120);
            if (f == BURST_FLOW && ms >= 100 && ms < 300)
                arrive(clock, f, (uint32_t)ms, 1250);
            send(clock, f);
        }
    }
    report();
    return 0;
}
