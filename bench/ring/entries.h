/* What the bench of the ring's entries looks at. */
#ifndef ENTRIES_H
#define ENTRIES_H

static size_t inactive; /* events of the mixed run that met the queue so */

static void met(const struct event *e)
{
    (void)e;
    inactive += !on_plain_queues[0].active;
}

/* How the arrivals were answered. */
static void print_answers(void)
{
    print_verdicts(on_plain_queues[0].verdicts);
    if (stream->profile == PLAIN_CALM)
        printf("inactive %s %zu\n", stream->name, inactive);
}

#include "../shared/in_ring.h"

#endif
