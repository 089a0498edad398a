/* pair: answers a script of two queues over one pair of tables on standard input. docs/commands/pair.txt has its lines. */
#include "shared/answers.h"
#include "shared/script.h"

#include <obikuteru.h>

static const struct form forms[] = {
    /* slots; target, buffer and reserve of the intercom, and of the passengers */
    {'c', FIRST, 7, {SLOTS_MOST, A_WORD, A_WORD, A_WORD, A_WORD, A_WORD, A_WORD}},
    /* queue, clock, handle, size, ecn, u */
    {'a', LATER, 6, {A_BIT, A_CLOCK, A_WORD, A_WORD, A_BIT, A_WORD}},
    /* queue, clock */
    {'d', LATER, 2, {A_BIT, A_CLOCK}},
    {'t', LATER, 2, {A_BIT, A_CLOCK}},
    {'\0', 0, 0, {0}},
};

static struct obikuteru_shared shared;
static struct obikuteru_pair_queue intercom, passengers;
static uint32_t handles[SLOTS_MOST], sizes[SLOTS_MOST];

/* Both queues are fresh: the numbers are the intercom's. */
static void start(const uint64_t *n)
{
    put_accepted(obikuteru_pair_fresh(&shared, &intercom, &passengers, n[0], n[1], n[2], n[3], 0, n[4], n[5], n[6], 0), "ok");
    put_numbers(intercom.probability, intercom.bytes);
}

/* A call on one queue. */
static void call(char letter, const uint64_t *n)
{
    bool second = n[0] == 1;
    const struct obikuteru_pair_queue *own = second ? &passengers : &intercom;
    struct obikuteru_packet packet;

    if (letter == 'a')
        put_verdict(obikuteru_pair_arrival(&shared, &intercom, &passengers, second, handles, shared.slots, sizes,
                                           shared.slots, n[1], (uint32_t)n[2], (uint32_t)n[3], n[4] == 1, (uint32_t)n[5]));
    else if (letter == 'd')
        put_departed(obikuteru_pair_departure(&shared, &intercom, &passengers, second, handles, shared.slots, sizes,
                                              shared.slots, n[1], &packet), &packet);
    else
        put_accepted(obikuteru_pair_tick(&shared, &intercom, &passengers, second, n[1]), "ticked");
    put_numbers(own->probability, own->bytes);
}

static void answer(const struct line *line)
{
    if (line->letter == 'c')
        start(line->number);
    else
        call(line->letter, line->number);
}

int main(void)
{
    return run_script(forms, answer);
}
