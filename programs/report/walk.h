/* A log's calls made again by the library's queue, and what is seen on the way. */
#ifndef WALK_H
#define WALK_H

#include "columns.h"

#include <obikuteru.h>

enum { MOST_SLOTS = 65536 };

struct walk {
    struct obikuteru_state state; /* after the last call */
    uint64_t records;             /* calls made */
    uint64_t ticks, departures;
    uint64_t bytes_in, bytes_out; /* of admitted and of departed packets */
    uint64_t early;               /* early drops and marks */
    bool allowance_ran;           /* an early verdict came after a tick that filled the allowance, or fresh */
    uint64_t soonest_early;       /* and the least time from one to the other */
    uint64_t late_ticks;          /* more than 1 ms past the last one's clock + 15,000 */
    uint64_t empty_ticks;         /* in succession, at the end of the walk */
    uint64_t longest_fade;        /* most ticks on an empty queue in succession until the probability was 0 */
    struct columns columns;
};

/*
 * Makes the calls of a log that the reader accepts, from its settings, up to and with the record of number `last`, or to the end.
 */
void walk_log(struct walk *walk, const uint8_t *log, size_t length, uint64_t last);

#endif
