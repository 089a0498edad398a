/*
 * The cable modem's rules (docs/DOCSIS-PIE.md) in plain C: what the library is measured against.
 * State and counts by pointer, tables by pointer and length, every refusal checked in the stated
 * order.
 */
#ifndef MODEM_PLAIN_H
#define MODEM_PLAIN_H

#include "../shared/answers.h"

#define PLAIN_FLOWS 16u

enum plain_activity { PLAIN_INACTIVE, PLAIN_QUIESCENT, PLAIN_ACTIVE };

/* One flow. Rates in bytes per second. */
struct plain_modem {
    uint32_t target;
    uint32_t buffer;
    uint32_t slots;
    uint32_t peak;
    uint32_t sustained;
    uint32_t old_delay;
    uint64_t clock;
    uint64_t last; /* clock of the last tick */
    uint64_t probability;
    uint64_t accumulated; /* scaled probabilities since the last drop */
    uint32_t allowance;
    uint32_t reset; /* time that all was quiet */
    uint32_t activity;
    uint32_t first; /* place of the head */
    uint32_t count;
    uint32_t bytes;
};

uint32_t plain_modem_fresh(struct plain_modem *s, uint64_t (*counts)[5], uint32_t flow,
                           uint32_t target, uint32_t buffer, uint32_t slots, uint32_t peak,
                           uint32_t sustained, uint64_t clock);

uint32_t plain_modem_arrival(struct plain_modem *s, uint64_t (*counts)[5], uint32_t flow,
                             uint32_t *handles, size_t handles_len, uint32_t *sizes,
                             size_t sizes_len, uint64_t clock, uint32_t handle, uint32_t size,
                             uint32_t u);

uint32_t plain_modem_departure(struct plain_modem *s, uint64_t (*counts)[5], uint32_t flow,
                               const uint32_t *handles, size_t handles_len,
                               const uint32_t *sizes, size_t sizes_len, uint64_t clock,
                               struct plain_packet *packet);

uint32_t plain_modem_tick(struct plain_modem *s, uint64_t (*counts)[5], uint32_t flow,
                          uint64_t clock, uint32_t credits);

bool plain_modem_well_formed(const struct plain_modem *s, uint64_t (*counts)[5], uint32_t flow);

/* A tick's credits stand in its call's `size`. */
void plain_modem_calls(struct plain_modem *s, uint64_t (*counts)[5], uint32_t flow, uint32_t *handles,
                       size_t handles_len, uint32_t *sizes, size_t sizes_len,
                       const struct plain_call *calls, struct plain_answered *answers, size_t n);

extern __typeof__(plain_modem_calls) room_modem_calls;

#endif
