/*
 * A list of calls in plain C: what the library's bursts are measured against. Record and tables are
 * tested once, and each call then has its own tests, at each arrival the sum of the called queue's
 * counts among them. The functions `room_` are the same by one test less: that the counts have room
 * for all the calls is tested once too. burst.c of each kind is compiled a second time for them, with
 * ROOM_ONCE defined.
 */
#ifndef BURST_H
#define BURST_H

#include "answers.h"

static inline struct plain_answered coded(uint32_t code)
{
    return (struct plain_answered){(uint16_t)code, 0, 0};
}

static inline struct plain_answered departed(uint32_t code, struct plain_packet packet)
{
    return (struct plain_answered){(uint16_t)code, (uint16_t)packet.size, packet.handle};
}

/* A function for what is hardly ever so: gcc does not put it into the loop. */
#define RARE static __attribute__((noinline, cold))

#ifdef ROOM_ONCE
#define BURST(name) room_##name
#define ROOM true
#else
#define BURST(name) plain_##name
#define ROOM false
#endif

/* Whether each of n arrivals can be counted; not asked where each call asks. */
#define NO_ROOM(counted, n) (ROOM && LIMIT - (counted) < (n))

#endif
