/* The script program of document 01 in plain C: lines from standard input, answers to output. */
#include "plain.h"
#include "script_io.h"

#define MOST_SLOTS 4096u

static uint32_t handles[MOST_SLOTS];
static uint32_t sizes[MOST_SLOTS];
static struct plain_state state;

static bool configure(void)
{
    uint64_t target, buffer, slots;
    if (!field(&target, UINT32_MAX) || !field(&buffer, UINT32_MAX) || !field(&slots, MOST_SLOTS)
        || !line_ends())
        return false;
    put_answer(plain_fresh(&state, (uint32_t)target, (uint32_t)buffer, (uint32_t)slots, PLAIN_PLAIN, 0), "ok");
    return true;
}

static bool arrival(void)
{
    uint64_t clock, handle, size, ecn, u;
    if (!field(&clock, UINT64_MAX) || !field(&handle, UINT32_MAX) || !field(&size, UINT32_MAX)
        || !field(&ecn, 1) || !field(&u, UINT32_MAX) || !line_ends())
        return false;
    put_verdict(plain_arrival(&state, handles, state.slots, sizes, state.slots, clock,
                              (uint32_t)handle, (uint32_t)size, ecn == 1, (uint32_t)u));
    return true;
}

static bool departure(void)
{
    struct plain_packet packet;
    uint64_t clock;
    if (!field(&clock, UINT64_MAX) || !line_ends())
        return false;
    uint32_t answer =
        plain_departure(&state, handles, state.slots, sizes, state.slots, clock, &packet);
    put_answer(answer, "departed");
    if (answer < 100)
        put_number(packet.handle);
    return true;
}

static bool tick(void)
{
    uint64_t clock;
    if (!field(&clock, UINT64_MAX) || !line_ends())
        return false;
    put_answer(plain_tick(&state, clock), "ticked");
    return true;
}

/* One line after its letter. Only the first is a `c`. */
static bool run_line(int letter, bool is_first)
{
    byte = next_byte();
    if (is_first)
        return letter == 'c' && configure();
    switch (letter) {
    case 'a':
        return arrival();
    case 'd':
        return departure();
    case 't':
        return tick();
    default:
        return false;
    }
}

int main(void)
{
    uint64_t line = 0;
    for (int letter; (letter = next_byte()) != END;) {
        line++;
        if (!run_line(letter, line == 1)) {
            put_bad_line(line);
            break;
        }
        put_queue(state.probability, state.bytes);
    }
    flush();
    return 0;
}
