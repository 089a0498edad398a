/* What the bench of the 64 flows' entries looks at. */
#ifndef ENTRIES_H
#define ENTRIES_H

static uint64_t listed, holding; /* flows listed and flows with a packet, over the events */

static void met(const struct event *e)
{
    (void)e;
    listed += on_plain_queues[0].listed;
    for (size_t i = 0; i < PLAIN_FQ_FLOWS; i++)
        holding += on_plain_queues[0].flow[i].count > 0;
}

/* How the arrivals were answered, and how many flows were listed and held packets, in hundredths. */
static void print_answers(void)
{
    print_verdicts(on_plain_queues[0].verdicts);
    printf("flows %s %llu %llu\n", stream->name, (unsigned long long)(100 * listed / EVENTS),
           (unsigned long long)(100 * holding / EVENTS));
}

/* Each call of a block has tables of its own, as they were before the event. */
struct elements {
    uint32_t handles[MOST_SLOTS];
    uint32_t sizes[MOST_SLOTS];
};

static struct elements elements_of(const struct event *e, size_t block)
{
    struct elements x;
    (void)e;
    (void)block;
    memcpy(x.handles, on_plain_handles[0], sizeof x.handles);
    memcpy(x.sizes, on_plain_sizes[0], sizeof x.sizes);
    return x;
}

static void place(size_t i, const struct plain_fq *before, const struct event *e,
                  const struct elements *x)
{
    (void)before;
    (void)e;
    memcpy(block_handles[i], x->handles, sizeof x->handles);
    memcpy(block_sizes[i], x->sizes, sizeof x->sizes);
}

#include "../shared/linked.h"

#endif
