/*
 * The rules of docs/SHARED-TABLES.md for 64 flows, in plain C: what the library's flows are measured
 * against. The record has the form of the library's, a row of twelve words for each flow; tables by
 * pointer and length, every refusal checked in the stated order, of the whole record at each call.
 */
#ifndef FQ_PLAIN_H
#define FQ_PLAIN_H

#include "../shared/answers.h"

#define PLAIN_FQ_FLOWS 64u
#define PLAIN_FQ_KEY 13u

/* Every field is a word of 64 bits, as in the library's record. */
struct plain_flow {
    uint64_t probability;
    uint64_t old_delay;
    uint64_t allowance;
    uint64_t accumulated;
    uint64_t average;
    uint64_t measuring; /* not 0: a measurement runs */
    uint64_t start;
    uint64_t counted;
    uint64_t count;
    uint64_t bytes;
    uint64_t head;
    uint64_t tail;
};

struct plain_fq {
    uint64_t target;
    uint64_t buffer;
    uint64_t slots;
    uint64_t salt;
    uint64_t clock;
    uint64_t last;
    uint64_t count; /* of all flows, and so are the bytes */
    uint64_t bytes;
    uint64_t used;
    uint64_t freed;
    uint64_t spare;
    uint64_t verdicts[5];
    uint64_t first;  /* place in `order` of the old list's head */
    uint64_t old;    /* flows in the old list */
    uint64_t listed; /* flows in both: the new list stands behind the old one */
    uint64_t order[PLAIN_FQ_FLOWS];
    struct plain_flow flow[PLAIN_FQ_FLOWS];
    uint32_t deficits[PLAIN_FQ_FLOWS]; /* each and 65,535 */
};

struct plain_flow_packet {
    uint32_t flow;
    uint32_t handle;
    uint32_t size;
};

uint32_t plain_fq_flow(const uint8_t *key, uint32_t salt);

uint32_t plain_fq_fresh(struct plain_fq *fq, uint64_t target, uint64_t buffer, uint64_t slots,
                        uint32_t salt, uint64_t clock);

uint32_t plain_fq_arrival(struct plain_fq *fq, uint32_t *handles, size_t handles_len,
                          uint32_t *sizes, size_t sizes_len, uint64_t clock, const uint8_t *key,
                          uint32_t handle, uint32_t size, bool ecn, uint32_t u);

uint32_t plain_fq_departure(struct plain_fq *fq, const uint32_t *handles, size_t handles_len,
                            uint32_t *sizes, size_t sizes_len, uint64_t clock,
                            struct plain_flow_packet *packet);

uint32_t plain_fq_tick(struct plain_fq *fq, uint64_t clock);

bool plain_fq_well_formed(const struct plain_fq *fq);

/* In the form of the library's; the kinds are enum plain_kind's. */
struct plain_fq_call {
    uint64_t clock;
    uint32_t handle, size, u, kind;
    uint8_t key[PLAIN_FQ_KEY], unused[3];
};

struct plain_fq_answered {
    uint8_t code, flow;
    uint16_t size;
    uint32_t handle;
};

void plain_fq_calls(struct plain_fq *fq, uint32_t *handles, size_t handles_len, uint32_t *sizes,
                    size_t sizes_len, const struct plain_fq_call *calls,
                    struct plain_fq_answered *answers, size_t n);

extern __typeof__(plain_fq_calls) room_fq_calls;

#endif
