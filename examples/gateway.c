/*
 * A gateway's queue in one small program: packets arrive faster than the uplink drains them, a
 * timer ticks, and the program acts on each answer and prints what happened.
 */
#include <obikuteru.h>

#include <inttypes.h>
#include <stdio.h>
#include <stdlib.h>

enum { SLOTS = 64, PACKETS = 1200 };

/* A stand-in for the gateway's packets. A handle is a place in `pool`. */
struct packet {
    bool in_use;
    uint32_t size;
    bool ecn_capable;
    bool ecn_mark;
};

static struct packet pool[SLOTS + 1]; /* those queued, and one that arrives */
static struct obikuteru_state queue;
static uint32_t handles[SLOTS], sizes[SLOTS];
static uint64_t sent, sent_marked;

/* A small generator, so that each run prints the same. Firmware takes `u` from getrandom, say. */
static uint32_t next_random(void)
{
    static uint64_t seed = 1;

    seed = seed * 6364136223846793005u + 1442695040888963407u;
    return (uint32_t)(seed >> 32);
}

/* Any refusal here is a fault of this program: it keeps its clocks in order and its tables whole. */
static void stop_if_refused(uint32_t answer, const char *call)
{
    if (obikuteru_refused(answer)) {
        fprintf(stderr, "gateway: %s was refused by %" PRIu32 ".\n", call, answer - 100);
        exit(1);
    }
}

static uint32_t receive(uint32_t size, bool ecn_capable)
{
    uint32_t handle = 0;

    while (pool[handle].in_use)
        handle++;
    pool[handle] = (struct packet){true, size, ecn_capable, false};
    return handle;
}

static void release(uint32_t handle)
{
    pool[handle].in_use = false;
}

static void arrive(uint64_t clock, uint32_t handle)
{
    struct packet *packet = &pool[handle];
    uint32_t answer = obikuteru_arrival(&queue, handles, SLOTS, sizes, SLOTS, clock, handle,
                                        packet->size, packet->ecn_capable, next_random());

    switch (answer) {
    case OBIKUTERU_ENQUEUED:
        break; /* the packet stays where it is until its handle departs */
    case OBIKUTERU_MARKED:
        packet->ecn_mark = true;
        break;
    case OBIKUTERU_DROPPED_BYTES:
    case OBIKUTERU_DROPPED_SLOTS:
    case OBIKUTERU_DROPPED_EARLY:
        release(handle);
        break;
    default:
        stop_if_refused(answer, "an arrival");
    }
}

static void send_head(uint64_t clock)
{
    struct obikuteru_packet head;

    stop_if_refused(obikuteru_departure(&queue, handles, SLOTS, sizes, SLOTS, clock, &head), "a departure");
    sent++;
    sent_marked += pool[head.handle].ecn_mark;
    release(head.handle);
}

static void report(void)
{
    static const char *const names[5] = {"enqueued", "marked", "dropped, bytes", "dropped, slots", "dropped, early"};

    for (int v = 0; v < 5; v++)
        printf("%-15s %5" PRIu64 "\n", names[v], queue.verdicts[v]);
    printf("%-15s %5" PRIu64 ", %" PRIu64 " of them marked\n", "sent", sent, sent_marked);
    printf("%-15s %5" PRIu64 " packets, %" PRIu64 " bytes\n", "still queued", queue.count, queue.bytes);
    printf("%-15s %5.2f %%\n", "probability", 100.0 * (double)queue.probability / 4294967296.0);
}

int main(void)
{
    uint64_t clock = 0, timer;

    /* Target 15 ms, 64,000 bytes, 64 slots. */
    stop_if_refused(obikuteru_fresh(&queue, 15000, 64000, SLOTS, OBIKUTERU_PLAIN, clock), "fresh");
    timer = queue.last + OBIKUTERU_TICK_PERIOD;

    for (uint32_t n = 0; n < PACKETS; n++) {
        clock += 900 + next_random() % 200; /* about a packet each millisecond */
        if (clock >= timer) {
            stop_if_refused(obikuteru_tick(&queue, clock), "a tick");
            timer = queue.last + OBIKUTERU_TICK_PERIOD;
        }
        arrive(clock, receive(500 + next_random() % 1000, n % 4 == 0));
        if (n % 8 != 0 && queue.count > 0) /* the uplink takes seven packets of eight */
            send_head(clock);
    }
    report();
    return 0;
}
