/* The streams of events that the modem's measurements run over. */
#ifndef EVENTS_H
#define EVENTS_H

#include "../shared/streams.h"

/* The most slots of a stream's flow. */
#define MOST_SLOTS 1024u

struct event {
    uint64_t clock;
    uint32_t handle;
    uint32_t u;
    uint32_t credits;
    uint16_t size;
    uint8_t kind;
    uint8_t flow;
};

/* The settings of all sixteen flows, and what their events are made by. */
struct stream {
    const char *name;
    uint32_t target;
    uint32_t buffer;
    uint32_t slots;
    uint32_t peak;
    uint32_t sustained;
    uint64_t seed;
    const struct phase *phases;
    size_t phase_count;
};

#endif
