/* Packets under way, each until a clock; those put on later leave later. */
#ifndef LINE_H
#define LINE_H

#include "packets.h"

struct line {
    int number[PACKETS];
    uint32_t first, count;
};

/* Puts a packet on the line until this clock; false where the line is full. */
bool put_on_line(struct line *line, int number, uint64_t clock);

/* The clock at which the first packet leaves; the greatest number where there is none. */
uint64_t due_on_line(const struct line *line);

/* The first packet, if it is due at this clock, else NO_PACKET. */
int take_from_line(struct line *line, uint64_t clock);

#endif
