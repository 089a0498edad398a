/* What the calls of every kind in plain C take and answer, alone and in bursts. */
#ifndef ANSWERS_H
#define ANSWERS_H

#include <stdbool.h>
#include <stddef.h>
#include <stdint.h>

struct plain_packet {
    uint32_t handle;
    uint32_t size;
};

enum plain_answer {
    PLAIN_ACCEPTED = 0,
    PLAIN_ENQUEUED = 0,
    PLAIN_MARKED = 1,
    PLAIN_DROPPED_BYTES = 2,
    PLAIN_DROPPED_SLOTS = 3,
    PLAIN_DROPPED_EARLY = 4,
    PLAIN_REFUSED_SETTINGS = 101,
    PLAIN_REFUSED_STATE = 102,
    PLAIN_REFUSED_TABLES = 103,
    PLAIN_REFUSED_CLOCK = 104,
    PLAIN_REFUSED_TOO_SOON = 105,
    PLAIN_REFUSED_EMPTY = 106,
    PLAIN_REFUSED_SIZE = 107,
    PLAIN_REFUSED_COUNTS = 108,
    PLAIN_REFUSED_HEAD = 109,
    PLAIN_REFUSED_FLOW = 110,
    PLAIN_REFUSED_CALL = 120
};

/* Of a call in a burst. */
enum plain_kind {
    PLAIN_ARRIVAL = 0,
    PLAIN_ECN_ARRIVAL = 1,
    PLAIN_DEPARTURE = 2,
    PLAIN_TICK = 3
};

struct plain_call {
    uint64_t clock;
    uint32_t handle, size, u, kind;
};

struct plain_answered {
    uint16_t code, size;
    uint32_t handle;
};

#endif
