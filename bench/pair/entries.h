/* What the bench of the pair's entries looks at. */
#ifndef ENTRIES_H
#define ENTRIES_H

static size_t intercom; /* events of the first queue */

static void met(const struct event *e)
{
    intercom += !e->second;
}

/* How the arrivals of both queues were answered. */
static void print_answers(void)
{
    const struct plain_pair_queue *q = on_plain_queues[0].queues;
    uint64_t v[5];
    for (int i = 0; i < 5; i++)
        v[i] = q[0].verdicts[i] + q[1].verdicts[i];
    print_verdicts(v);
    printf("intercom %s %zu\n", stream->name, intercom);
}

/* The elements that a call may touch: of the called queue's head and tail, and of `freed`. */
struct elements {
    uint32_t handle;
    uint32_t head;
    uint32_t tail;
    uint32_t freed;
};

static struct elements elements_of(const struct event *e, size_t block)
{
    const struct plain_pair *p = &on_plain_queues[0];
    const struct plain_pair_queue *q = &p->queues[e->second];
    const uint32_t *sizes = on_plain_sizes[0];
    (void)block;
    return (struct elements){on_plain_handles[0][q->head], sizes[q->head], sizes[q->tail],
                             sizes[p->shared.freed]};
}

static void place(size_t i, const struct plain_pair *before, const struct event *e,
                  const struct elements *x)
{
    const struct plain_pair_queue *q = &before->queues[e->second];
    block_handles[i][q->head] = x->handle;
    block_sizes[i][q->head] = x->head;
    block_sizes[i][q->tail] = x->tail;
    block_sizes[i][before->shared.freed] = x->freed;
}

#include "../shared/linked.h"

#endif
