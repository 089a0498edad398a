/* What the bench of the modem's entries looks at. */
#ifndef ENTRIES_H
#define ENTRIES_H

static uint64_t activities[3]; /* calls that met a flow inactive, quiescent, active */

static void met(const struct event *e)
{
    activities[on_plain_queues[e->flow].activity]++;
}

/* How the arrivals of all flows were answered, and what activity the calls met. */
static void print_answers(void)
{
    uint64_t v[5] = {0};
    for (uint32_t f = 0; f < PLAIN_FLOWS; f++)
        for (int i = 0; i < 5; i++)
            v[i] += on_plain_counts[f][i];
    print_verdicts(v);
    printf("activity %s %llu %llu %llu\n", stream->name, (unsigned long long)activities[0],
           (unsigned long long)activities[1], (unsigned long long)activities[2]);
}

#include "../shared/in_ring.h"

#endif
