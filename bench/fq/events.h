/* The streams of events that the flows' measurements run over. */
#ifndef EVENTS_H
#define EVENTS_H

#include "../shared/streams.h"
#include "plain.h"

/* The most slots of a stream's tables. */
#define MOST_SLOTS 256u

struct event {
    uint64_t clock;
    uint32_t handle;
    uint32_t u;
    uint16_t size;
    uint8_t kind;
    uint8_t ecn;
    uint8_t key[PLAIN_FQ_KEY];
};

/* The settings of the flows, and what their events are made by. */
struct stream {
    const char *name;
    uint32_t target;
    uint32_t buffer;
    uint32_t slots;
    uint32_t salt;
    uint64_t seed;
    const struct phase *phases;
    size_t phase_count;
};

#endif
