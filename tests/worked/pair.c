/*
 * The worked cases of two queues in docs/SHARED-TABLES.md, run on the library. Each step prints a
 * line: the call, the answer, and in the cases that show them count:head-tail of each queue, used
 * freed spare, and the sizes table. pair.txt is what it must print.
 */
#define RECORDS                        \
    struct obikuteru_shared shared;    \
    struct obikuteru_pair_queue queue[2];
#include "steps.h"

static void add_records(char *text, const struct lent *now)
{
    const struct obikuteru_shared *shared = &now->shared;
    for (int i = 0; i < 2; i++)
        add(text, "%" PRIu64 ":%" PRIu64 "-%" PRIu64 "  ", now->queue[i].count, now->queue[i].head,
            now->queue[i].tail);
    add(text, "%" PRIu64 " %" PRIu64 " %" PRIu64 " ", shared->used, shared->freed, shared->spare);
    for (size_t i = 0; i < now->length; i++) {
        add(text, " ");
        add_word(text, now->sizes[i]);
    }
}

/* slots, both reserves, both start clocks. The tables begin as zeros. */
static void fresh(struct lent *now, const uint64_t *n, struct said *said)
{
    memset(now, 0, sizeof *now);
    uint32_t answer = obikuteru_pair_fresh(&now->shared, &now->queue[0], &now->queue[1], n[0],
                                           TARGET, BUFFER, n[1], n[3], TARGET, BUFFER, n[2], n[4]);
    now->length = n[0] <= SLOTS_MOST ? n[0] : 0;
    add(said->call, "fresh %" PRIu64 ",", n[0]);
    add_numbers(said->call, "", n + 1, 2);
    if (n[3] != 0 || n[4] != 0)
        add_numbers(said->call, ",", n + 3, 2);
    add_answer(said->answer, answer, "made", false);
}

/* queue, clock, handle, size */
static void arrival(struct lent *now, const uint64_t *n, struct said *said)
{
    struct lent before = *now;
    uint32_t answer = obikuteru_pair_arrival(
        &now->shared, &now->queue[0], &now->queue[1], n[0] == 1, now->handles, now->length,
        now->sizes, now->length, n[1], (uint32_t)n[2], (uint32_t)n[3], false, 0);
    add(said->call, "a%" PRIu64, n[0]);
    add_numbers(said->call, "", n + 1, 3);
    add_verdict(said->answer, answer, now->queue[n[0]].tail, changed(&before, now));
    add_records(said->behind, now);
}

/* queue, clock */
static void departure(struct lent *now, const uint64_t *n, struct said *said)
{
    struct lent before = *now;
    struct obikuteru_packet packet;
    uint32_t answer = obikuteru_pair_departure(
        &now->shared, &now->queue[0], &now->queue[1], n[0] == 1, now->handles, now->length,
        now->sizes, now->length, n[1], &packet);
    bool packet_left = packet.handle != 0 || packet.size != 0;
    add(said->call, "d%" PRIu64 " %" PRIu64, n[0], n[1]);
    add_answer(said->answer, answer, "departed", packet_left || changed(&before, now));
    if (!obikuteru_refused(answer))
        add(said->answer, " %" PRIu32 " %" PRIu32 " from %" PRIu64, packet.handle, packet.size,
            before.queue[n[0]].head);
    add_records(said->behind, now);
}

/* queue, clock */
static void tick(struct lent *now, const uint64_t *n, struct said *said)
{
    struct lent before = *now;
    uint32_t answer =
        obikuteru_pair_tick(&now->shared, &now->queue[0], &now->queue[1], n[0] == 1, n[1]);
    add(said->call, "t%" PRIu64 " %" PRIu64, n[0], n[1]);
    add_answer(said->answer, answer, "ticked", changed(&before, now));
}

/* queue, old delay */
static void old_delay(struct lent *now, const uint64_t *n, struct said *said)
{
    now->queue[n[0]].old_delay = n[1];
    add(said->call, "queue %" PRIu64 "'s old delay := %" PRIu64, n[0], n[1]);
}

/* The shared record's slots; the tables stay as long as they are. */
static void slots(struct lent *now, const uint64_t *n, struct said *said)
{
    now->shared.slots = n[0];
    add(said->call, "slots := %" PRIu64, n[0]);
}

static const struct step two_chains[] = {
    {fresh, {4, 1, 1}},
    {arrival, {0, 0, 7, 100}},
    {arrival, {1, 0, 8, 200}},
    {arrival, {0, 1, 9, 300}},
    {departure, {0, 2}},
    {arrival, {1, 2, 10, 400}},
    {departure, {1, 3}},
    {departure, {1, 3}},
    {arrival, {0, 3, 11, 500}},
};

static const struct step common_slot[] = {
    {fresh, {3, 1, 1}},
    {arrival, {1, 0, 20, 100}},
    {arrival, {1, 1, 21, 100}},
    {arrival, {1, 2, 22, 100}},
    {arrival, {0, 9, 7, 100}},
    {arrival, {0, 9, 8, 100}},
    {departure, {1, 9}},
    {arrival, {0, 9, 8, 100}},
};

static const struct step own_clocks[] = {
    {fresh, {4, 2, 2, 5, 1000000}},
    {tick, {1, 1015000}},
    {arrival, {0, 4, 7, 100}},
    {arrival, {0, 5, 7, 100}},
    {tick, {0, 15004}},
    {tick, {0, 15005}},
    {departure, {1, 1000000}},
};

static const struct step settings[] = {
    {fresh, {4, 3, 2}},
    {fresh, {4, 4, 0}},
    {fresh, {4, 0, 0}},
    {fresh, {65536, 65536, 0}},
    {fresh, {65537, 1, 1}},
    {fresh, {0, 0, 0}},
};

static const struct step arrivals_link[] = {
    {fresh, {4, 2, 2}},
    {arrival, {0, 0, 7, 100}},
    {arrival, {0, 0, 8, 100}},
    {departure, {0, 0}},
    {departure, {0, 0}},
    {word, {1, 0, 4}},
    {arrival, {0, 1, 9, 64001}},
    {arrival, {0, 1, 9, 64000}},
    {word, {1, 0, 0}},
    {arrival, {0, 1, 9, 64000}},
    {word, {0, 0, 4}},
    {arrival, {1, 1, 10, 500}},
};

static const struct step departures_word[] = {
    {fresh, {4, 2, 2}},
    {arrival, {0, 0, 7, 100}},
    {arrival, {0, 0, 8, 50}},
    {word, {0, 100, 4}},
    {departure, {0, 1}},
    {word, {0, 0, 1}},
    {departure, {0, 1}},
    {word, {0, 150, 1}},
    {departure, {0, 1}},
    {word, {0, 149, 1}},
    {departure, {0, 1}},
    {word, {1, 1, 65535}},
    {departure, {0, 1}},
};

static const struct step other_records[] = {
    {fresh, {4, 2, 2}},
    {old_delay, {1, 10000001}},
    {arrival, {0, 0, 7, 0}},
    {departure, {0, 0}},
    {tick, {0, 15000}},
    {old_delay, {1, 0}},
    {departure, {0, 0}},
    {arrival, {0, 0, 7, 0}},
    {tick, {0, 15000}},
    {fresh, {4, 2, 2}},
    {slots, {5}},
    {arrival, {0, 0, 7, 0}},
    {departure, {0, 0}},
    {tick, {0, 15000}},
};

static const struct step other_traffic[] = {
    {fresh, {4, 2, 2}},
    {arrival, {0, 0, 7, 100}},
    {arrival, {0, 1, 8, 200}},
    {departure, {0, 2}},
    {arrival, {0, 3, 9, 300}},
    {departure, {0, 4}},
    {fresh, {4, 2, 2}},
    {arrival, {0, 0, 7, 100}},
    {arrival, {1, 0, 30, 900}},
    {arrival, {0, 1, 8, 200}},
    {departure, {1, 5}},
    {departure, {0, 2}},
    {arrival, {0, 3, 9, 300}},
    {departure, {0, 4}},
};

static const struct worked_case cases[] = {
    CASE("7.1. Slots 4, reserves 1 and 1. Two chains; a slot that one queue freed serves the other; "
         "the last arrival follows a freed slot's link.", true, two_chains),
    CASE("7.2. Slots 3, reserves 1 and 1, so one common slot. Queue 1 takes it; what is reserved for "
         "queue 0 stays free for it.", true, common_slot),
    CASE("7.3. Slots 4, reserves 2 and 2, start clocks 5 and 1,000,000: each queue has its own clock.",
         false, own_clocks),
    CASE("7.4. Fresh: slots, reserves.", false, settings),
    CASE("7.5. Slots 4, reserves 2 and 2. An arrival's link is tested only where it is followed: "
         "admitted, two freed or more.", false, arrivals_link),
    CASE("7.6. The same settings. A departure's link is tested where another packet follows; its size "
         "always.", false, departures_word),
    CASE("7.7. The same settings, fresh: queue 1's old delay is made 10,000,001, then put back, then "
         "the slots are made 5 (tables of 4).", false, other_records),
    CASE("7.8. The same settings. The same calls for queue 0, other traffic for queue 1: other places, "
         "the same answers.", false, other_traffic),
};

int main(void)
{
    struct lent lent;
    for (size_t i = 0; i < sizeof cases / sizeof *cases; i++)
        run_case(&lent, &cases[i]);
    return 0;
}
