/* Random numbers by splitmix64: the same seed gives the same numbers. */
#ifndef RANDOM_H
#define RANDOM_H

#include <stdint.h>

static uint64_t next_random(uint64_t *seed)
{
    uint64_t z = *seed += UINT64_C(0x9e3779b97f4a7c15);
    z = (z ^ (z >> 30)) * UINT64_C(0xbf58476d1ce4e5b9);
    z = (z ^ (z >> 27)) * UINT64_C(0x94d049bb133111eb);
    return z ^ (z >> 31);
}

/* A number from 0 to n - 1. */
static uint32_t below(uint64_t *seed, uint32_t n)
{
    return (uint32_t)((next_random(seed) >> 32) * n >> 32);
}

/* Whether a packet arrives, of a phase in which so many of 100 packet events are arrivals. Of 100
 * departures that would find the queue empty, 70 become arrivals. */
static int arrives(uint64_t *seed, uint32_t arrivals, uint32_t queued)
{
    if (below(seed, 100) < arrivals)
        return 1;
    return queued == 0 && below(seed, 100) < 70;
}

#endif
