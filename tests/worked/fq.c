/*
 * The worked cases of 64 flows in docs/SHARED-TABLES.md, run on the library. Each step prints a
 * line: the call, the answer, and in the cases that show them a departure's moves, both lists, head
 * first, each flow with its deficit, and used freed spare. fq.txt is what it must print.
 */
#define RECORDS struct obikuteru_fq fq;
#include "steps.h"

enum {
    FLOWS = 64,
    KEY = 13,
    V = 256, /* the number of the key V; below it n is that of Kn */
    QUANTUM = 1514,
    ZERO = 65535, /* the word of a deficit of 0 */
    LOOKS = 2880
};

/* Both lists, apart from how the record keeps them, and the deficits as signed numbers. */
enum { NEW, OLD };

struct lists {
    unsigned count[2], flow[2][FLOWS];
    long deficit[FLOWS];
};

static void append(struct lists *lists, int list, unsigned flow)
{
    lists->flow[list][lists->count[list]++] = flow;
}

static void take_head(struct lists *lists, int list)
{
    unsigned *flow = lists->flow[list];
    memmove(flow, flow + 1, --lists->count[list] * sizeof *flow);
}

static struct lists lists_of(const struct obikuteru_fq *fq)
{
    struct lists lists = {{0, 0}, {{0}}, {0}};
    for (uint64_t i = 0; i < fq->listed; i++)
        append(&lists, i < fq->old ? OLD : NEW, (unsigned)fq->order[(fq->first + i) % FLOWS]);
    for (int i = 0; i < FLOWS; i++)
        lists.deficit[i] = (long)fq->deficits[i] - ZERO;
    return lists;
}

static void add_list(char *text, const struct lists *lists, int list)
{
    for (unsigned i = 0; i < lists->count[list]; i++) {
        unsigned flow = lists->flow[list][i];
        add(text, " %u(%ld)", flow, lists->deficit[flow]);
    }
    if (lists->count[list] == 0)
        add(text, " -");
}

static void add_lists(char *text, const struct lists *lists)
{
    add(text, "new");
    add_list(text, lists, NEW);
    add(text, "  old");
    add_list(text, lists, OLD);
}

/* Rule 26 of the page, for a record where some flow holds a packet: makes the moves, counts them,
 * and gives the chosen flow. */
static unsigned choose(struct lists *lists, const struct obikuteru_fq *fq, unsigned *moves)
{
    for (*moves = 0;; ++*moves) {
        int list = 0 < lists->count[NEW] ? NEW : OLD;
        unsigned flow = lists->flow[list][0];
        bool negative = lists->deficit[flow] < 0;
        if ((!negative && 0 < fq->flow[flow].count) || *moves == LOOKS)
            return flow;
        take_head(lists, list);
        if (negative)
            lists->deficit[flow] += QUANTUM;
        if (negative || list == NEW)
            append(lists, OLD, flow);
    }
}

/* The moves of an accepted departure. The library's lists must be those that rule 26 gives. */
static unsigned moves_between(const struct obikuteru_fq *before, const struct obikuteru_fq *now,
                              uint32_t size, struct said *said)
{
    struct lists chosen = lists_of(before), left = lists_of(now);
    char by_rule[TEXT_MOST] = "", by_library[TEXT_MOST] = "";
    unsigned moves;
    unsigned flow = choose(&chosen, before, &moves);
    chosen.deficit[flow] -= size;
    add_lists(by_rule, &chosen);
    add_lists(by_library, &left);
    if (strcmp(by_rule, by_library) != 0)
        add(said->answer, ", but by rule 26 %s", by_rule);
    return moves;
}

static void add_record(char *text, const struct obikuteru_fq *fq)
{
    struct lists lists = lists_of(fq);
    add_lists(text, &lists);
    add(text, "  %" PRIu64 " %" PRIu64 " %" PRIu64, fq->used, fq->freed, fq->spare);
}

static void set_key(uint8_t key[KEY], uint64_t number)
{
    static const uint8_t v[KEY] = {10, 0, 0, 1, 10, 0, 0, 2, 5000 / 256, 5000 % 256, 0, 80, 17};
    memset(key, 0, KEY);
    if (number == V)
        memcpy(key, v, KEY);
    else
        key[KEY - 1] = (uint8_t)number;
}

static void add_key(char *text, uint64_t number)
{
    if (number == V)
        add(text, "V");
    else
        add(text, "K%" PRIu64, number);
}

/* Rule 22 of the page: the header gives the flow alone. */
static uint32_t hash(const uint8_t key[KEY])
{
    uint32_t h = 0;
    for (int i = 0; i < KEY; i++) {
        h += key[i];
        h += h << 10;
        h ^= h >> 6;
    }
    h += h << 3;
    h ^= h >> 11;
    return h + (h << 15);
}

/* number of the key */
static void flows_of_key(struct lent *now, const uint64_t *n, struct said *said)
{
    uint8_t key[KEY];
    (void)now;
    set_key(key, n[0]);
    add_key(said->call, n[0]);
    add(said->answer, "%" PRIu32 ", %" PRIu32 " %" PRIu32 " %" PRIu32, hash(key),
        obikuteru_fq_flow(key, 0), obikuteru_fq_flow(key, 5), obikuteru_fq_flow(key, UINT32_MAX));
}

/* buffer, slots. The tables begin as zeros. */
static void fresh(struct lent *now, const uint64_t *n, struct said *said)
{
    memset(now, 0, sizeof *now);
    uint32_t answer = obikuteru_fq_fresh(&now->fq, TARGET, n[0], n[1], 0, 0);
    now->length = n[1];
    add(said->call, "fresh %" PRIu64 ", %" PRIu64, n[0], n[1]);
    add_answer(said->answer, answer, "made", false);
}

/* clock, number of the key, handle, size */
static void arrival(struct lent *now, const uint64_t *n, struct said *said)
{
    struct lent before = *now;
    uint8_t key[KEY];
    set_key(key, n[1]);
    uint32_t answer =
        obikuteru_fq_arrival(&now->fq, now->handles, now->length, now->sizes, now->length, n[0],
                             key, (uint32_t)n[2], (uint32_t)n[3], false, 0);
    uint32_t flow = obikuteru_fq_flow(key, (uint32_t)now->fq.salt);
    add(said->call, "a %" PRIu64 " ", n[0]);
    add_key(said->call, n[1]);
    add_numbers(said->call, "", n + 2, 2);
    add_verdict(said->answer, answer, now->fq.flow[flow].tail, changed(&before, now));
    add_record(said->behind, &now->fq);
}

/* Makes a departure and adds what is said of a refused one. */
static uint32_t depart(struct lent *now, uint64_t clock, struct obikuteru_flow_packet *packet,
                       struct said *said)
{
    struct lent before = *now;
    uint32_t answer = obikuteru_fq_departure(&now->fq, now->handles, now->length, now->sizes,
                                             now->length, clock, packet);
    bool packet_left = packet->flow != 0 || packet->handle != 0 || packet->size != 0;
    add_answer(said->answer, answer, "flow ", packet_left || changed(&before, now));
    return answer;
}

/* clock */
static void departure(struct lent *now, const uint64_t *n, struct said *said)
{
    struct obikuteru_fq before = now->fq;
    struct obikuteru_flow_packet packet;
    add(said->call, "d %" PRIu64, n[0]);
    if (!obikuteru_refused(depart(now, n[0], &packet, said))) {
        add(said->answer, "%" PRIu32 ", %" PRIu32 " %" PRIu32, packet.flow, packet.handle,
            packet.size);
        add(said->behind, "%u moves  ", moves_between(&before, &now->fq, packet.size, said));
    }
    add_record(said->behind, &now->fq);
}

/* Each flow's PIE state becomes one that admits by rule 5 alone. */
static void drop_early(struct lent *now, const uint64_t *n, struct said *said)
{
    (void)n;
    for (int i = 0; i < FLOWS; i++) {
        now->fq.flow[i].probability = UINT64_C(1) << 32;
        now->fq.flow[i].accumulated = UINT64_C(1) << 32;
        now->fq.flow[i].old_delay = 20000;
        now->fq.flow[i].allowance = 0;
    }
    add(said->call, "each flow: probability and accumulated 2^32, old delay 20,000, allowance 0");
}

enum change {
    DEFICIT_LEAST,
    DEFICIT_BELOW,
    DEFICIT_ABOVE,
    LISTED_TWICE,
    OLD_EMPTY,
    NEW_EMPTY,
    BYTES_MORE,
    SPARE_LESS,
    TAIL_BEYOND
};

static const char *const change_names[] = {
    "flow 5's deficit -65,535",    "flow 5's deficit -65,536", "flow 5's deficit 1,515",
    "flow 0 also in the new list", "old list's count 0",       "new list's count 0",
    "total bytes one more",        "spare one less",           "flow 5's tail 8",
};

/* The lists stand in one ring, the old one first: it is emptied by a beginning behind it. */
static void change_record(struct obikuteru_fq *fq, enum change change)
{
    switch (change) {
    case DEFICIT_LEAST: fq->deficits[5] = 0; break;
    case DEFICIT_BELOW: fq->deficits[5] = UINT32_MAX; break;
    case DEFICIT_ABOVE: fq->deficits[5] = ZERO + 1515; break;
    case LISTED_TWICE: fq->order[(fq->first + fq->listed++) % FLOWS] = 0; break;
    case OLD_EMPTY:
        fq->first = (fq->first + fq->old) % FLOWS;
        fq->listed -= fq->old;
        fq->old = 0;
        break;
    case NEW_EMPTY: fq->listed = fq->old; break;
    case BYTES_MORE: fq->bytes++; break;
    case SPARE_LESS: fq->spare--; break;
    case TAIL_BEYOND: fq->flow[5].tail = 8; break;
    }
}

/* change, clock: a tick of the record with this change, which is made in a copy. */
static void tick_changed(struct lent *now, const uint64_t *n, struct said *said)
{
    struct lent other = *now;
    change_record(&other.fq, (enum change)n[0]);
    struct lent before = other;
    uint32_t answer = obikuteru_fq_tick(&other.fq, n[1]);
    add(said->call, "%s", change_names[n[0]]);
    add_answer(said->answer, answer, "ticked", changed(&before, &other));
}

/* All flows in the new list, each with the least deficit; flow 63 alone holds a packet. */
static void list_all(struct lent *now, uint32_t handle, uint32_t size)
{
    struct obikuteru_fq *fq = &now->fq;
    for (int i = 0; i < FLOWS; i++) {
        fq->order[i] = (uint64_t)i;
        fq->deficits[i] = 0;
    }
    fq->listed = FLOWS;
    fq->flow[FLOWS - 1].count = fq->count = fq->used = 1;
    fq->flow[FLOWS - 1].bytes = fq->bytes = size;
    now->handles[0] = handle;
    now->sizes[0] = size;
}

/* A bound of a choice's moves, which falls by one at each: the quanta that listed flows lack, and for
 * each without a packet one more, or two where it is new and lacks none. */
static long measure(const struct obikuteru_fq *fq)
{
    struct lists lists = lists_of(fq);
    long sum = 0;
    for (int list = NEW; list <= OLD; list++)
        for (unsigned i = 0; i < lists.count[list]; i++) {
            unsigned flow = lists.flow[list][i];
            long deficit = lists.deficit[flow];
            long quanta = deficit < 0 ? (-deficit + QUANTUM - 1) / QUANTUM : 0;
            sum += quanta;
            if (fq->flow[flow].count == 0)
                sum += list == NEW && quanta == 0 ? 2 : 1;
        }
    return sum;
}

/* clock, handle, size: the departure that needs the most moves. The deficit is the one that its flow
 * is chosen with. */
static void longest_choice(struct lent *now, const uint64_t *n, struct said *said)
{
    struct obikuteru_flow_packet packet;
    list_all(now, (uint32_t)n[1], (uint32_t)n[2]);
    struct obikuteru_fq before = now->fq;
    add(said->call, "chosen");
    if (obikuteru_refused(depart(now, n[0], &packet, said)))
        return;
    unsigned moves = moves_between(&before, &now->fq, packet.size, said);
    struct lists lists = lists_of(&now->fq);
    add(said->answer, "%" PRIu32 " after %u moves (measure before: %ld); old list [", packet.flow,
        moves, measure(&before));
    for (unsigned i = 0; i < lists.count[OLD]; i++)
        add(said->answer, i == 0 ? "%u" : " %u", lists.flow[OLD][i]);
    add(said->answer, "], deficit %ld", lists.deficit[packet.flow] + (long)packet.size);
}

static const struct step keys[] = {
    {flows_of_key, {0}},
    {flows_of_key, {1}},
    {flows_of_key, {2}},
    {flows_of_key, {V}},
};

static const struct step new_before_old[] = {
    {fresh, {64000, 8}},
    {arrival, {0, 0, 7, 1000}},
    {arrival, {0, 0, 8, 1000}},
    {arrival, {0, 0, 9, 1000}},
    {departure, {1}},
    {departure, {1}},
    {arrival, {1, 1, 20, 200}},
    {departure, {2}},
    {departure, {2}},
};

static const struct step emptied[] = {
    {departure, {3}},
    {arrival, {3, 1, 21, 100}},
    {departure, {3}},
    {arrival, {3, 0, 10, 60}},
    {departure, {3}},
};

static const struct step many_quanta[] = {
    {fresh, {200000, 8}},
    {arrival, {0, 0, 7, 65535}},
    {arrival, {0, 0, 8, 1}},
    {departure, {0}},
    {departure, {0}},
};

static const struct step totals_and_own_bytes[] = {
    {fresh, {3001, 2}},
    {arrival, {0, 0, 7, 2000}},
    {arrival, {0, 1, 8, 1002}},
    {arrival, {0, 1, 8, 1000}},
    {arrival, {0, 2, 9, 1}},
    {arrival, {0, 2, 9, 2}},
    {departure, {0}},
    {arrival, {0, 2, 9, 1}},
    {fresh, {64000, 2}},
    {arrival, {0, 0, 7, 3001}},
    {drop_early, {0}},
    {arrival, {0, 0, 8, 1}},
    {arrival, {0, 1, 9, 1}},
};

static const struct step choice_undone[] = {
    {fresh, {64000, 8}},
    {arrival, {0, 0, 7, 2000}},
    {arrival, {0, 0, 8, 100}},
    {arrival, {0, 1, 9, 300}},
    {departure, {0}},
    {word, {2, 0, 0}},
    {departure, {0}},
    {word, {2, 300, 0}},
    {departure, {0}},
};

static const struct step one_change[] = {
    {tick_changed, {DEFICIT_LEAST, 15000}},
    {tick_changed, {DEFICIT_BELOW, 15000}},
    {tick_changed, {DEFICIT_ABOVE, 15000}},
    {tick_changed, {LISTED_TWICE, 15000}},
    {tick_changed, {OLD_EMPTY, 15000}},
    {tick_changed, {NEW_EMPTY, 15000}},
    {tick_changed, {BYTES_MORE, 15000}},
    {tick_changed, {SPARE_LESS, 15000}},
    {tick_changed, {TAIL_BEYOND, 15000}},
};

static const struct step most_moves[] = {
    {fresh, {64000, 8}},
    {longest_choice, {0, 7, 100}},
};

static const struct worked_case cases[] = {
    CASE("8.1. Key: hash, and flow with salt 0, 5, 4294967295. V is 10.0.0.1, 10.0.0.2, 5000, 80, 17, "
         "each high byte first.", false, keys),
    CASE("8.2. Buffer 64,000, slots 8. K0 is flow 0 and K1 flow 29. A new flow goes before an old one; "
         "a flow with a deficit waits.", true, new_before_old),
    CASE("8.3. Next: no packet is left, and a refusal leaves the emptied flows listed; a listed flow "
         "keeps its deficit, an unlisted one starts anew.", true, emptied),
    CASE("8.4. Buffer 200,000, slots 8. A packet of 65,535 bytes on one quantum: 43 quanta before the "
         "next.", true, many_quanta),
    CASE("8.5. Buffer 3,001, slots 2. Rule 1 reads all bytes, rule 2 all slots. Then: rule 5 reads the "
         "flow's own bytes.", false, totals_and_own_bytes),
    CASE("8.6. Buffer 64,000, slots 8. Refusal 9 leaves the choosing undone: flow 29's head is damaged, "
         "then mended.", true, choice_undone),
    CASE("8.7. The last record of 8.6 with one change each, then t 15000.", false, one_change),
    CASE("8.8. The longest choice: flows 0 to 63 in the new list, each deficit -65,535, only flow 63 "
         "holds a packet.", false, most_moves),
};

int main(void)
{
    struct lent lent;
    for (size_t i = 0; i < sizeof cases / sizeof *cases; i++)
        run_case(&lent, &cases[i]);
    return 0;
}
