/* The streams of events that the ring and the log are measured over. */
#ifndef EVENTS_H
#define EVENTS_H

#include "../shared/streams.h"

/* The most slots of a stream's queue. */
#define MOST_SLOTS 1024u

struct event {
    uint64_t clock;
    uint32_t handle;
    uint32_t u;
    uint16_t size;
    uint8_t kind;
    uint8_t ecn;
};

/* The settings of the queue that the events are for, and what they are made by. */
struct stream {
    const char *name;
    uint32_t target;
    uint32_t buffer;
    uint32_t slots;
    uint32_t profile;
    uint64_t seed;
    const struct phase *phases;
    size_t phase_count;
};

#endif
