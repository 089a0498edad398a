/* What the rules of all kinds share in plain C. */
#ifndef RULES_H
#define RULES_H

#include <stdbool.h>
#include <stdint.h>

#define LIMIT (UINT64_C(1) << 48) /* latest clock, and most arrivals counted */
#define WHOLE (UINT64_C(1) << 32) /* probability one */
#define TENTH 429496730u          /* the first probability not below one tenth */
#define CAP 85899345              /* 0.02 */
#define LONGEST 10000000u         /* longest delay, and longest rate sample */
#define LARGEST 65535u            /* largest packet */

/* The place `at` of a ring, for `at` below 2 * slots; by a remainder where REMAINDER is defined. */
static inline uint32_t place(uint32_t at, uint32_t slots)
{
#ifdef REMAINDER
    return at % slots;
#else
    return at < slots ? at : at - slots;
#endif
}

static inline uint64_t arrivals_counted(const uint64_t *counts)
{
    return counts[0] + counts[1] + counts[2] + counts[3] + counts[4];
}

/* Refusal 9, of the head of a queue with this count, above 0, and these bytes. */
static inline bool head_refused(uint32_t size, uint32_t count, uint32_t bytes)
{
    return size == 0 || LARGEST < size || bytes < size || bytes - size < count - 1
        || LARGEST * (count - 1) < bytes - size;
}

#endif
