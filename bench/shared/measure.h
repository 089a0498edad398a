/* The departure rate: a measurement runs from a departure that leaves enough queued until enough bytes have left. Included once by a
 * kind's rules, with MEASURED its record that has the words of a measurement. */
#ifndef MEASURE_H
#define MEASURE_H

#include "pie.h"

static void stop_measurement(MEASURED *q)
{
    q->measuring = false;
    q->start = 0;
    q->counted = 0;
}

/* The measurement has reached its threshold: take the sample into the average. */
static void end_measurement(MEASURED *q, uint64_t clock)
{
    uint64_t took = clock - q->start;
    uint32_t sample = took < 1 ? 1 : LONGEST < took ? LONGEST : (uint32_t)took;
    q->average = q->average == 0 ? sample : (sample + 3 * q->average) / 4;
    stop_measurement(q);
}

/* The departure rate after a packet of this size has left. */
static inline void measure(MEASURED *q, uint32_t size, uint64_t clock)
{
    if (q->measuring) {
        q->counted += size;
        if (THRESHOLD <= q->counted)
            end_measurement(q, clock);
        else if (q->count == 0)
            stop_measurement(q); /* no sample across an empty queue */
    }
    if (!q->measuring && THRESHOLD <= q->bytes) {
        q->measuring = true;
        q->start = clock;
    }
}

#endif
