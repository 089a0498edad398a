/* modem: answers a script of a cable modem's sixteen flows on standard input. docs/commands/modem.txt has its lines. */
#include "shared/answers.h"
#include "shared/script.h"

#include <obikuteru.h>

static const struct form forms[] = {
    /* flow, target, buffer, slots, peak, sustained */
    {'c', FIRST | LATER, 6, {A_WORD, A_WORD, A_WORD, SLOTS_MOST, A_WORD, A_WORD}},
    /* flow, clock, handle, size, u */
    {'a', LATER, 5, {A_WORD, A_CLOCK, A_WORD, A_WORD, A_WORD}},
    /* flow, clock */
    {'d', LATER, 2, {A_WORD, A_CLOCK}},
    /* flow, clock, credits */
    {'t', LATER, 3, {A_WORD, A_CLOCK, A_WORD}},
    {'\0', 0, 0, {0}},
};

/* The flows, and one more that stands for every flow above 15: its calls are refused, so its record stays zero. */
static struct {
    struct obikuteru_modem_state state;
    uint32_t handles[SLOTS_MOST], sizes[SLOTS_MOST];
} flows[OBIKUTERU_MODEM_FLOWS + 1];

static uint64_t counts[OBIKUTERU_MODEM_FLOWS][5];

static void answer(const struct line *line)
{
    const uint64_t *n = line->number;
    uint32_t flow = (uint32_t)n[0];
    uint32_t place = flow < OBIKUTERU_MODEM_FLOWS ? flow : OBIKUTERU_MODEM_FLOWS;
    struct obikuteru_modem_state *state = &flows[place].state;
    uint32_t *handles = flows[place].handles, *sizes = flows[place].sizes;
    struct obikuteru_packet packet;

    switch (line->letter) {
    case 'c':
        put_accepted(obikuteru_modem_fresh(state, counts, flow, n[1], n[2], n[3], n[4], n[5], 0), "ok");
        break;
    case 'a':
        put_verdict(obikuteru_modem_arrival(state, counts, flow, handles, state->slots, sizes, state->slots, n[1],
                                            (uint32_t)n[2], (uint32_t)n[3], (uint32_t)n[4]));
        break;
    case 'd':
        put_departed(obikuteru_modem_departure(state, counts, flow, handles, state->slots, sizes, state->slots, n[1], &packet),
                     &packet);
        break;
    default:
        put_accepted(obikuteru_modem_tick(state, counts, flow, n[1], (uint32_t)n[2]), "ticked");
    }
    put_numbers(state->probability, state->bytes);
}

int main(void)
{
    return run_script(forms, answer);
}
