/*
 * One noisy laptop. Behind a link of 8 Mbit/s a laptop floods the gateway with more than twice what can
 * leave, beside a telephone call, two people who browse, and a sensor. The same packets arrive twice: at
 * one queue for all of them, and at 64 flows in which each sender has a queue of its own and its turn.
 */
#include <obikuteru.h>

#include <inttypes.h>
#include <stdio.h>
#include <stdlib.h>

enum {
    TARGET = 15000,
    BUFFER = 600000,
    SLOTS = 1024,
    STEP = 100,          /* microseconds of one step */
    DURATION = 5000000,
    MOST_PACKETS = 16384,
    SENDERS = 5
};

/* A sender's packets: their size, and the time from one to the next. */
struct sender {
    const char *name;
    uint8_t key[13]; /* source and destination address, source and destination port, protocol */
    uint32_t size;
    uint64_t period;
};

static const struct sender senders[SENDERS] = {
    {"laptop, flooding", {10, 0, 0, 7, 198, 51, 100, 9, 0xC3, 0x51, 0x01, 0xBB, 6}, 1200, 500},
    {"telephone call", {10, 0, 0, 2, 203, 0, 113, 5, 0x13, 0xC4, 0x13, 0xC4, 17}, 200, 20000},
    {"browser", {10, 0, 0, 3, 198, 51, 100, 20, 0xD0, 0x10, 0x01, 0xBB, 6}, 1000, 20000},
    {"another browser", {10, 0, 0, 4, 198, 51, 100, 33, 0xE1, 0x07, 0x01, 0xBB, 6}, 1000, 25000},
    {"sensor", {10, 0, 0, 5, 192, 0, 2, 77, 0x9C, 0x42, 0x07, 0x5B, 17}, 80, 100000},
};

/* Either one queue or 64 flows, and the tables. */
struct gateway {
    bool by_flow;
    struct obikuteru_state queue;
    struct obikuteru_fq fq;
    uint32_t handles[SLOTS], sizes[SLOTS];
};

/* What became of a sender's packets. */
struct outcome {
    uint64_t arrived, sent, dropped, delay, longest;
};

/* A packet's handle is its number here. */
struct packet {
    uint64_t clock;
    size_t sender;
};

static struct packet packets[MOST_PACKETS];

/* A small generator, so that each run is the same. Firmware takes `u` from getrandom, say. */
static uint32_t next_random(uint64_t *seed)
{
    *seed = *seed * 6364136223846793005u + 1442695040888963407u;
    return (uint32_t)(*seed >> 32);
}

/* Any refusal here is a fault of this program: it keeps its clocks in order and its tables whole. */
static uint32_t accepted(uint32_t answer, const char *call)
{
    if (obikuteru_refused(answer)) {
        fprintf(stderr, "noisy_laptop: %s was refused by %" PRIu32 ".\n", call, answer - 100);
        exit(1);
    }
    return answer;
}

static void begin(struct gateway *g, uint32_t salt)
{
    if (g->by_flow)
        accepted(obikuteru_fq_fresh(&g->fq, TARGET, BUFFER, SLOTS, salt, 0), "fresh");
    else
        accepted(obikuteru_fresh(&g->queue, TARGET, BUFFER, SLOTS, OBIKUTERU_PLAIN, 0), "fresh");
}

static uint32_t arrive(struct gateway *g, uint64_t clock, const struct sender *sender, uint32_t handle, uint32_t u)
{
    if (g->by_flow)
        return accepted(obikuteru_fq_arrival(&g->fq, g->handles, SLOTS, g->sizes, SLOTS, clock, sender->key, handle,
                                             sender->size, false, u), "an arrival");
    return accepted(obikuteru_arrival(&g->queue, g->handles, SLOTS, g->sizes, SLOTS, clock, handle, sender->size, false, u),
                    "an arrival");
}

/* The packet that the link sends next. */
static struct obikuteru_packet depart(struct gateway *g, uint64_t clock)
{
    struct obikuteru_packet packet;
    struct obikuteru_flow_packet of_flow;

    if (!g->by_flow) {
        accepted(obikuteru_departure(&g->queue, g->handles, SLOTS, g->sizes, SLOTS, clock, &packet), "a departure");
        return packet;
    }
    accepted(obikuteru_fq_departure(&g->fq, g->handles, SLOTS, g->sizes, SLOTS, clock, &of_flow), "a departure");
    return (struct obikuteru_packet){of_flow.handle, of_flow.size};
}

static bool holds_packets(const struct gateway *g)
{
    return (g->by_flow ? g->fq.count : g->queue.count) > 0;
}

static void tick_if_due(struct gateway *g, uint64_t clock)
{
    if (clock < (g->by_flow ? g->fq.last : g->queue.last) + OBIKUTERU_TICK_PERIOD)
        return;
    accepted(g->by_flow ? obikuteru_fq_tick(&g->fq, clock) : obikuteru_tick(&g->queue, clock), "a tick");
}

/* The packets that arrive at this step. */
static void receive(struct gateway *g, uint64_t clock, uint64_t *seed, struct outcome *outcomes)
{
    static uint32_t number; /* handles go round: far fewer packets are queued at a time */

    for (size_t s = 0; s < SENDERS; s++) {
        if (clock % senders[s].period != 0)
            continue;
        number = (number + 1) % MOST_PACKETS;
        packets[number] = (struct packet){clock, s};
        outcomes[s].arrived++;
        outcomes[s].dropped += arrive(g, clock, &senders[s], number, next_random(seed)) > OBIKUTERU_MARKED;
    }
}

/* The link takes a packet if it is free, a byte each microsecond. Answers when it is free again. */
static uint64_t send(struct gateway *g, uint64_t clock, struct outcome *outcomes)
{
    struct obikuteru_packet packet = depart(g, clock);
    struct outcome *outcome = &outcomes[packets[packet.handle].sender];
    uint64_t delay = clock - packets[packet.handle].clock;

    outcome->sent++;
    outcome->delay += delay;
    if (outcome->longest < delay)
        outcome->longest = delay;
    return clock + packet.size;
}

static void report(const struct outcome *outcomes)
{
    printf("  %-17s %7s %6s %8s   %s\n", "", "arrived", "sent", "dropped", "milliseconds in the gateway, mean and longest");
    for (size_t s = 0; s < SENDERS; s++) {
        const struct outcome *o = &outcomes[s];
        printf("  %-17s %7" PRIu64 " %6" PRIu64 " %8" PRIu64 "   %6.1f %6.1f\n", senders[s].name, o->arrived, o->sent,
               o->dropped, o->sent == 0 ? 0.0 : (double)o->delay / (double)o->sent / 1000.0, (double)o->longest / 1000.0);
    }
}

/* All packets of the run, at one queue or at 64 flows, until the last has left. */
static void run(const char *title, bool by_flow)
{
    static struct gateway g;
    struct outcome outcomes[SENDERS] = {{0}};
    uint64_t seed = 8033, free_at = 0;

    g.by_flow = by_flow;
    begin(&g, next_random(&seed));
    for (uint64_t clock = STEP; clock <= DURATION || holds_packets(&g); clock += STEP) {
        if (clock <= DURATION)
            receive(&g, clock, &seed, outcomes);
        if (free_at <= clock && holds_packets(&g))
            free_at = send(&g, clock, outcomes);
        tick_if_due(&g, clock);
    }
    printf("%s\n", title);
    report(outcomes);
}

int main(void)
{
    run("One queue for all senders:", false);
    run("64 flows, served in turn:", true);
    return 0;
}
