/* What a situation keeps of the tables of a queue in a ring: its head. All calls of a block are lent the
 * same tables, so the heads of one block stand at different places. */
#ifndef IN_RING_H
#define IN_RING_H

struct elements {
    uint32_t handle;
    uint32_t size;
};

static size_t taken[MOST_SLOTS]; /* by which block of departures, from 1 */

static bool clashes(const struct event *e, size_t block)
{
    return e->kind == DEPARTURE && taken[on_plain_queues[QUEUE(e)].first] == block;
}

static struct elements elements_of(const struct event *e, size_t block)
{
    uint32_t q = QUEUE(e), first = on_plain_queues[q].first;
    if (e->kind == DEPARTURE)
        taken[first] = block;
    return (struct elements){on_plain_handles[q][first], on_plain_sizes[q][first]};
}

static void place(size_t i, const RECORD *before, const struct event *e, const struct elements *x)
{
    (void)i;
    (void)e;
    block_handles[before->first] = x->handle;
    block_sizes[before->first] = x->size;
}

#endif
