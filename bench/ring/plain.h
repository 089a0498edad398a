/*
 * The rules of document 01, as changed by the requests that have landed, in plain C: what the
 * library is measured against.
 * State by pointer, tables by pointer and length, every refusal checked in the stated order.
 */
#ifndef RING_PLAIN_H
#define RING_PLAIN_H

#include "../shared/answers.h"

/* Times in microseconds, sizes in bytes, probabilities in units of 1/2^32. */
struct plain_state {
    uint32_t target;
    uint32_t buffer;
    uint32_t slots;
    uint32_t old_delay;
    uint64_t clock;
    uint64_t last; /* clock of the last tick */
    uint64_t probability;
    uint64_t accumulated; /* probabilities since the last early verdict */
    uint64_t start; /* clock at which the measurement started; 0 if none runs */
    uint32_t allowance;
    uint32_t average; /* time for 16,384 bytes to leave; 0: none yet */
    uint32_t counted; /* bytes that left during the measurement; 0 if none runs */
    bool measuring;
    bool active;
    uint32_t first; /* place of the head */
    uint32_t count;
    uint32_t bytes;
    uint32_t profile; /* PLAIN_PLAIN or PLAIN_CALM */
    uint64_t verdicts[5];
};

enum plain_profile {
    PLAIN_PLAIN = 0,
    PLAIN_CALM = 1
};

uint32_t plain_fresh(struct plain_state *s, uint32_t target, uint32_t buffer, uint32_t slots,
                     uint32_t profile, uint64_t clock);

uint32_t plain_arrival(struct plain_state *s, uint32_t *handles, size_t handles_len,
                       uint32_t *sizes, size_t sizes_len, uint64_t clock, uint32_t handle,
                       uint32_t size, bool ecn, uint32_t u);

uint32_t plain_departure(struct plain_state *s, const uint32_t *handles, size_t handles_len,
                         const uint32_t *sizes, size_t sizes_len, uint64_t clock,
                         struct plain_packet *packet);

uint32_t plain_tick(struct plain_state *s, uint64_t clock);

void plain_calls(struct plain_state *s, uint32_t *handles, size_t handles_len, uint32_t *sizes,
                 size_t sizes_len, const struct plain_call *calls, struct plain_answered *answers,
                 size_t n);

extern __typeof__(plain_calls) room_calls;

#endif
