/* A way of queueing at the bottleneck. */
#ifndef QUEUEING_H
#define QUEUEING_H

#include "packets.h"

#include <obikuteru.h>

enum { BUFFER = 256000, SLOTS = 1024, TARGET = 15000 };

/* What became of the packets, beside what the library counts. */
struct outcome {
    uint64_t arrived, admitted, marked, dropped_early, dropped_full, refused;
    uint64_t voice_dropped;
};

extern struct outcome outcome;

struct queueing {
    const char *name;
    /* The bottleneck sends at this rate, in bytes a second. */
    void (*begin)(uint64_t rate);
    /* Whether the packet is admitted. */
    bool (*arrival)(uint64_t clock, int number, uint32_t u);
    /* The packet that leaves, or NO_PACKET. */
    int (*departure)(uint64_t clock);
    /* The clock at which a tick is due. */
    uint64_t (*due)(void);
    void (*tick)(uint64_t clock);
};

extern const struct queueing fifo, ring, calm, modem, pair, fq;

/* Counts an arrival's answer; whether the packet is admitted. A marked one is marked. */
bool note_arrival(uint32_t answer, int number);

#endif
