/* The streams of events that the pair's measurements run over. */
#ifndef EVENTS_H
#define EVENTS_H

#include "../shared/streams.h"

/* The most slots of a stream's pair. */
#define MOST_SLOTS 256u

struct event {
    uint64_t clock;
    uint32_t handle;
    uint32_t u;
    uint16_t size;
    uint8_t kind;
    uint8_t ecn;
    bool second;
};

/* The settings of a pair, both queues' target and buffer alike, and what its events are made by. */
struct stream {
    const char *name;
    uint32_t target;
    uint32_t buffer;
    uint32_t slots;
    uint32_t reserve[2];
    uint64_t seed;
    const struct phase *phases;
    size_t phase_count;
};

#endif
