/* What the kinds that shed load by RFC 8033 share in plain C: its numbers, and how a tick changes the
 * probability. Numbers in comments are the rules' own. */
#ifndef PIE_H
#define PIE_H

#include "rules.h"

#define FORCED UINT64_C(36507222016) /* 8.5: the sum of probabilities that is early by itself */
#define PERIOD 15000u
#define ALLOWANCE 150000u
#define THRESHOLD 16384u /* bytes of one rate measurement */
#define SMALL 3000u      /* bytes of a small queue */

/* Rule 3 of a tick: k by the probability before it. */
static inline uint32_t divisor(uint64_t p)
{
    return p <= 4294 ? 2048
         : p <= 42949 ? 512
         : p <= 429496 ? 128
         : p <= 4294967 ? 32
         : p <= 42949672 ? 8
         : p <= 429496729 ? 2
         : 1;
}

/* Rules 2 to 6 of a tick; `capped`: a step adds at most 0.02 at a probability of one tenth or more. */
static inline uint64_t next_probability(uint64_t before, uint32_t delay, uint32_t old, uint32_t target,
                                        bool capped)
{
    int64_t x = ((int64_t)delay - target) + 10 * ((int64_t)delay - old); /* 2 */
    int64_t step = x * 8388608 / (15625 * (int64_t)divisor(before));     /* 4 */
    if (capped && TENTH <= before && CAP < step)
        step = CAP;
    int64_t p = (int64_t)before + step;
    if (delay == 0 && old == 0 && 0 < p)
        p -= p / 64; /* 5 */
    return p < 0 ? 0 : (int64_t)WHOLE < p ? WHOLE : (uint64_t)p; /* 6 */
}

#endif
