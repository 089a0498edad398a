/*
 * The rules of docs/SHARED-TABLES.md for two queues, in plain C: what the library's pair is measured
 * against. Records by pointer, tables by pointer and length, every refusal checked in the stated
 * order, of both queues' records at each call.
 */
#ifndef PAIR_PLAIN_H
#define PAIR_PLAIN_H

#include "../shared/answers.h"

struct plain_shared {
    uint32_t slots;
    uint32_t reserve[2];
    uint32_t used;  /* places from here on were never taken */
    uint32_t freed; /* the first freed slot */
    uint32_t spare; /* freed slots */
};

/* As the ring's, but for slots and first place. */
struct plain_pair_queue {
    uint32_t target;
    uint32_t buffer;
    uint32_t old_delay;
    uint32_t allowance;
    uint64_t clock;
    uint64_t last;
    uint64_t probability;
    uint64_t accumulated;
    uint64_t start;
    uint32_t average;
    uint32_t counted;
    bool measuring;
    uint32_t count;
    uint32_t bytes;
    uint32_t head;
    uint32_t tail;
    uint64_t verdicts[5];
};

uint32_t plain_pair_fresh(struct plain_shared *shared, struct plain_pair_queue *intercom,
                          struct plain_pair_queue *passengers, uint32_t slots, uint32_t target0,
                          uint32_t buffer0, uint32_t reserve0, uint64_t clock0, uint32_t target1,
                          uint32_t buffer1, uint32_t reserve1, uint64_t clock1);

uint32_t plain_pair_arrival(struct plain_shared *shared, struct plain_pair_queue *intercom,
                            struct plain_pair_queue *passengers, bool second, uint32_t *handles,
                            size_t handles_len, uint32_t *sizes, size_t sizes_len, uint64_t clock,
                            uint32_t handle, uint32_t size, bool ecn, uint32_t u);

uint32_t plain_pair_departure(struct plain_shared *shared, struct plain_pair_queue *intercom,
                              struct plain_pair_queue *passengers, bool second,
                              const uint32_t *handles, size_t handles_len, uint32_t *sizes,
                              size_t sizes_len, uint64_t clock, struct plain_packet *packet);

uint32_t plain_pair_tick(struct plain_shared *shared, struct plain_pair_queue *intercom,
                         struct plain_pair_queue *passengers, bool second, uint64_t clock);

bool plain_pair_well_formed(const struct plain_shared *shared,
                            const struct plain_pair_queue *intercom,
                            const struct plain_pair_queue *passengers);

#define PLAIN_PASSENGERS 4u /* added to the kind of a call on the second queue */

void plain_pair_calls(struct plain_shared *shared, struct plain_pair_queue *intercom,
                      struct plain_pair_queue *passengers, uint32_t *handles, size_t handles_len,
                      uint32_t *sizes, size_t sizes_len, const struct plain_call *calls,
                      struct plain_answered *answers, size_t n);

extern __typeof__(plain_pair_calls) room_pair_calls;

#endif
