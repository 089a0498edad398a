/* In linked tables each call of a block has tables of its own. */
#ifndef LINKED_H
#define LINKED_H

static bool clashes(const struct event *e, size_t block)
{
    (void)e;
    (void)block;
    return false;
}

#endif
