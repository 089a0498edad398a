/* A clock for short stretches: only differences of it are used, and only as ratios. */
#ifndef TIMER_H
#define TIMER_H

#include <stdint.h>

#if defined(__x86_64__)
#include <x86intrin.h>
/* The fences keep what is timed between the two readings. */
static inline uint64_t timer(void)
{
    _mm_lfence();
    uint64_t t = __rdtsc();
    _mm_lfence();
    return t;
}
#else
#include <time.h>
static inline uint64_t timer(void)
{
    struct timespec t;
    clock_gettime(CLOCK_MONOTONIC, &t);
    return (uint64_t)t.tv_sec * 1000000000u + (uint64_t)t.tv_nsec;
}
#endif

#endif
