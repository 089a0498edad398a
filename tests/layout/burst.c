/* A burst of each kind of call is answered as crates/ring_burst/specs/Calls.antt and crates/ring_steps/specs/Lent.antt say. */
#include <obikuteru.h>

#include "parts.h"

enum { SLOTS = 4, CALLS = 8 };

static struct obikuteru_state state;
static uint32_t handles[SLOTS], sizes[SLOTS];

/* A clock above 2^32, so that both of its halves count. */
#define START (UINT64_C(5) << 32)

static const struct obikuteru_call calls[CALLS] = {
    {START, 70, 500, 0, OBIKUTERU_CALL_ARRIVAL},
    {START + 1, 71, 60000, 0, OBIKUTERU_CALL_ECN_ARRIVAL},
    {START + 2, 72, 60000, 0, OBIKUTERU_CALL_ARRIVAL},
    {START + 1, 0, 0, 0, OBIKUTERU_CALL_DEPARTURE},
    {START + 3, 0, 0, 0, OBIKUTERU_CALL_DEPARTURE},
    {START + 4, 73, 1, 0, 4},
    {START + 15000, 0, 0, 0, OBIKUTERU_CALL_TICK},
    {START + 15001, 0, 0, 0, OBIKUTERU_CALL_DEPARTURE},
};

static const struct obikuteru_answer wanted[CALLS] = {
    {OBIKUTERU_ENQUEUED, 0, 0},       {OBIKUTERU_ENQUEUED, 0, 0},    {OBIKUTERU_DROPPED_BYTES, 0, 0},
    {OBIKUTERU_REFUSED_CLOCK, 0, 0},  {OBIKUTERU_ACCEPTED, 500, 70}, {OBIKUTERU_REFUSED_CALL, 0, 0},
    {OBIKUTERU_ACCEPTED, 0, 0},       {OBIKUTERU_ACCEPTED, 60000, 71},
};

static uint32_t burst(struct obikuteru_answer *answers, size_t calls_len)
{
    return obikuteru_calls(&state, handles, SLOTS, sizes, SLOTS, (const uint32_t *)calls, calls_len, (uint64_t *)answers, CALLS);
}

static void run_burst(uint64_t profile)
{
    union {
        struct obikuteru_answer answer[CALLS];
        uint64_t word[CALLS]; /* for its alignment */
    } a = {{{0, 0, 0}}};

    expect("fresh", obikuteru_fresh(&state, 15000, 64000, SLOTS, profile, START), OBIKUTERU_ACCEPTED);
    expect("a burst that is too short", burst(a.answer, 6 * CALLS - 1), OBIKUTERU_REFUSED_CALL);
    expect("it leaves the count", state.count, 0);
    expect("a burst", burst(a.answer, 6 * CALLS), OBIKUTERU_ACCEPTED);
    for (int i = 0; i < CALLS; i++) {
        expect("a code", a.answer[i].code, wanted[i].code);
        expect("a size", a.answer[i].size, wanted[i].size);
        expect("a handle", a.answer[i].handle, wanted[i].handle);
    }
    expect("the word of a departure", a.word[4], 65536u * 500u + (UINT64_C(70) << 32));
    expect("what is queued", state.count, 0);
    expect("its clock", state.clock, START + 15001);
    expect("its last tick", state.last, START + 15000);
}

void check_burst(void)
{
    run_burst(OBIKUTERU_PLAIN);
    run_burst(OBIKUTERU_CALM);
}
