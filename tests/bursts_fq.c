/*
 * The structs of bursts on 64 flows, and the header's own function over them: one burst, and bursts
 * whose lengths do not fit. tests/fq compares bursts with single calls. It prints each mistake and
 * ends with 1 if there is any.
 */
#include <obikuteru.h>

#include <stddef.h>
#include <string.h>

#include "layout.h"

enum { SLOTS = 48 };

struct set {
    struct obikuteru_fq fq;
    uint32_t handles[SLOTS], sizes[SLOTS];
};

/* Two packets and a departure by the header's function, and by the single entries on a copy. */
static void one_burst(void)
{
    struct obikuteru_fq_call calls[3] = {{5, 7, 100, 9, 0, {1}, {0}},
                                         {6, 8, 200, 9, 1, {2}, {0}},
                                         {7, 0, 0, 0, 2, {0}, {0}}};
    struct obikuteru_fq_answer answers[3];
    struct obikuteru_flow_packet p = {0, 0, 0};
    static struct set s, copy;
    uint64_t words[3];

    expect("fresh", obikuteru_fq_fresh(&s.fq, 15000, 40000, SLOTS, 0, 0), OBIKUTERU_ACCEPTED);
    copy = s;
    expect("a burst's answer",
           obikuteru_fq_calls(&s.fq, s.handles, SLOTS, s.sizes, SLOTS, calls,
                              (struct obikuteru_fq_answer *)words, 3),
           OBIKUTERU_ACCEPTED);
    memcpy(answers, words, sizeof answers);
    for (size_t i = 0; i < 2; i++)
        expect("an arrival's answer", answers[i].code,
               obikuteru_fq_arrival(&copy.fq, copy.handles, SLOTS, copy.sizes, SLOTS,
                                    calls[i].clock, calls[i].key, calls[i].handle, calls[i].size,
                                    calls[i].kind == 1, calls[i].u));
    expect("a departure's answer", answers[2].code,
           obikuteru_fq_departure(&copy.fq, copy.handles, SLOTS, copy.sizes, SLOTS, 7, &p));
    expect("the flow that left", answers[2].flow, p.flow);
    expect("the handle that left", answers[2].handle, p.handle);
    expect("the size that left", answers[2].size, p.size);
    expect("a difference of what is left", memcmp(&s, &copy, sizeof s) != 0, 0);
}

static void structs(void)
{
    struct obikuteru_fq_call c = {0, 0, 0, 0, 0, {0}, {0}};
    uint64_t answer = 7;
    static struct set s, copy;

    expect("the length of a call", sizeof(struct obikuteru_fq_call), 40);
    expect("the place of handle", offsetof(struct obikuteru_fq_call, handle), 8);
    expect("the place of size", offsetof(struct obikuteru_fq_call, size), 12);
    expect("the place of u", offsetof(struct obikuteru_fq_call, u), 16);
    expect("the place of kind", offsetof(struct obikuteru_fq_call, kind), 20);
    expect("the place of key", offsetof(struct obikuteru_fq_call, key), 24);
    expect("the length of an answer", sizeof(struct obikuteru_fq_answer), 8);
    expect("the place of flow", offsetof(struct obikuteru_fq_answer, flow), 1);
    expect("the place of an answer's size", offsetof(struct obikuteru_fq_answer, size), 2);
    expect("the place of an answer's handle", offsetof(struct obikuteru_fq_answer, handle), 4);
    expect("fresh", obikuteru_fq_fresh(&s.fq, 15000, 40000, SLOTS, 0, 0), OBIKUTERU_ACCEPTED);
    c.size = 100;
    copy = s;
    for (size_t n = 0; n < 10; n++) {
        expect("a burst of wrong length",
               obikuteru_fq_calls_of(&s.fq.target, s.fq.order, &s.fq.flow[0].probability,
                                     s.fq.deficits, s.handles, SLOTS, s.sizes, SLOTS,
                                     (const uint32_t *)&c, n, &answer, 1),
               OBIKUTERU_REFUSED_CALL);
        expect("an answer of a burst of wrong length", answer, 7);
        expect("a record after a burst of wrong length", memcmp(&s, &copy, sizeof s) != 0, 0);
    }
}

int main(void)
{
    one_burst();
    structs();
    return result();
}
