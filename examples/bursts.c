/*
 * A driver that drains its packets in bursts: each millisecond it takes what its receive ring holds,
 * adds the departures that the radio has time for and the tick that is due, and hands all of them to
 * the queue in one call. It acts on each answer, and prints what happened.
 */
#include <obikuteru.h>

#include <inttypes.h>
#include <stdio.h>
#include <stdlib.h>

enum { SLOTS = 256, MOST = 32, MILLISECONDS = 900, CROWD_UNTIL = 600 };

/* Calls and answers as the driver fills and reads them, and as the library takes them. */
static union {
    struct obikuteru_call call[MOST];
    uint32_t numbers[6 * MOST];
} calls;
static union {
    struct obikuteru_answer answer[MOST];
    uint64_t words[MOST];
} answers;

static struct obikuteru_state queue;
static uint32_t handles[SLOTS], sizes[SLOTS];
static uint64_t taken, marked, dropped, sent, sent_bytes, idle;

/* A small generator, so that each run prints the same. Firmware takes `u` from getrandom, say. */
static uint32_t next_random(void)
{
    static uint64_t seed = 1;

    seed = seed * 6364136223846793005u + 1442695040888963407u;
    return (uint32_t)(seed >> 32);
}

/* The calls of one millisecond, which begins at `clock`; gives how many. */
static size_t gather(uint64_t clock, uint32_t arrivals, uint32_t departures)
{
    static uint32_t packets; /* a handle is a packet's number */
    size_t n = 0;

    for (uint32_t i = 0; i < arrivals; i++, packets++)
        calls.call[n++] = (struct obikuteru_call){
            clock, packets, packets % 4 == 0 ? 200 : 1200, next_random(),
            packets % 3 == 0 ? OBIKUTERU_CALL_ECN_ARRIVAL : OBIKUTERU_CALL_ARRIVAL};
    for (uint32_t i = 0; i < departures; i++)
        calls.call[n++] = (struct obikuteru_call){clock, 0, 0, 0, OBIKUTERU_CALL_DEPARTURE};
    if (queue.last + OBIKUTERU_TICK_PERIOD <= clock)
        calls.call[n++] = (struct obikuteru_call){clock, 0, 0, 0, OBIKUTERU_CALL_TICK};
    return n;
}

/* Here a driver keeps, marks, frees or sends the packet that the call or the answer names. */
static void act(const struct obikuteru_call *call, const struct obikuteru_answer *answer)
{
    if (answer->code == OBIKUTERU_REFUSED_EMPTY) {
        idle++;
    } else if (obikuteru_refused(answer->code)) {
        fprintf(stderr, "bursts: a call of kind %" PRIu32 " was refused by %u.\n", call->kind,
                answer->code - 100u);
        exit(1);
    } else if (call->kind == OBIKUTERU_CALL_DEPARTURE) {
        sent++;
        sent_bytes += answer->size;
    } else if (call->kind != OBIKUTERU_CALL_TICK) {
        taken += answer->code <= OBIKUTERU_MARKED;
        marked += answer->code == OBIKUTERU_MARKED;
        dropped += OBIKUTERU_MARKED < answer->code;
    }
}

int main(void)
{
    if (obikuteru_refused(obikuteru_fresh(&queue, 15000, 150000, SLOTS, OBIKUTERU_PLAIN, 0)))
        return 1;
    for (uint32_t ms = 1; ms <= MILLISECONDS; ms++) {
        uint32_t arrivals = ms <= CROWD_UNTIL ? 2 + ms % 3 : 0;
        size_t n = gather(1000 * (uint64_t)ms, arrivals, 2);

        if (obikuteru_refused(obikuteru_calls(&queue, handles, SLOTS, sizes, SLOTS, calls.numbers,
                                              6 * n, answers.words, n)))
            return 1;
        for (size_t i = 0; i < n; i++)
            act(&calls.call[i], &answers.answer[i]);
        if (ms % 100 == 0)
            printf("%3" PRIu32 " ms: %4" PRIu64 " taken, %3" PRIu64 " marked, %3" PRIu64
                   " dropped, %4" PRIu64 " sent; %6" PRIu64 " bytes queued, probability %.4f\n",
                   ms, taken, marked, dropped, sent, queue.bytes,
                   (double)queue.probability / 4294967296.0);
    }
    printf("%" PRIu64 " bytes sent; %" PRIu64 " departures found nothing queued\n", sent_bytes, idle);
    return 0;
}
