/* fq: answers a script of 64 flows over one pair of tables on standard input. docs/commands/fq.txt has its lines. */
#include "shared/answers.h"
#include "shared/script.h"

#include <obikuteru.h>

static const struct form forms[] = {
    /* target, buffer, slots, salt */
    {'c', FIRST, 4, {A_WORD, A_WORD, SLOTS_MOST, A_WORD}},
    /* clock, key, handle, size, ecn, u */
    {'a', LATER, 6, {A_CLOCK, A_KEY, A_WORD, A_WORD, A_BIT, A_WORD}},
    /* clock */
    {'d', LATER, 1, {A_CLOCK}},
    {'t', LATER, 1, {A_CLOCK}},
    {'\0', 0, 0, {0}},
};

static struct obikuteru_fq fq;
static uint32_t handles[SLOTS_MOST], sizes[SLOTS_MOST];

/* The greatest probability and all flows' bytes. */
static void put_all_flows(void)
{
    uint64_t greatest = 0;

    for (int i = 0; i < 64; i++)
        if (greatest < fq.flow[i].probability)
            greatest = fq.flow[i].probability;
    put_numbers(greatest, fq.bytes);
}

static void put_flow(uint32_t flow)
{
    put_numbers(fq.flow[flow].probability, fq.flow[flow].bytes);
}

static void arrive(const uint64_t *n, const uint8_t *key)
{
    uint32_t flow = obikuteru_fq_flow(key, (uint32_t)fq.salt);
    uint32_t verdict = obikuteru_fq_arrival(&fq, handles, fq.slots, sizes, fq.slots, n[0], key, (uint32_t)n[2],
                                            (uint32_t)n[3], n[4] == 1, (uint32_t)n[5]);

    put_verdict(verdict);
    if (obikuteru_refused(verdict)) {
        put_all_flows();
        return;
    }
    put_field(flow);
    put_flow(flow);
}

static void depart(const uint64_t *n)
{
    struct obikuteru_flow_packet packet;
    uint32_t accepted = obikuteru_fq_departure(&fq, handles, fq.slots, sizes, fq.slots, n[0], &packet);

    put_accepted(accepted, "departed");
    if (obikuteru_refused(accepted)) {
        put_all_flows();
        return;
    }
    put_field(packet.flow);
    put_field(packet.handle);
    put_flow(packet.flow);
}

static void answer(const struct line *line)
{
    const uint64_t *n = line->number;

    if (line->letter == 'a') {
        arrive(n, line->key);
    } else if (line->letter == 'd') {
        depart(n);
    } else {
        if (line->letter == 'c')
            put_accepted(obikuteru_fq_fresh(&fq, n[0], n[1], n[2], (uint32_t)n[3], 0), "ok");
        else
            put_accepted(obikuteru_fq_tick(&fq, n[0]), "ticked");
        put_all_flows();
    }
}

int main(void)
{
    return run_script(forms, answer);
}
