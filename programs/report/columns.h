/* What is drawn: the time of a log in columns, each with the ends of what was seen in it. */
#ifndef COLUMNS_H
#define COLUMNS_H

#include <stdbool.h>
#include <stdint.h>
#include <stdio.h>

enum { COLUMNS = 900 };

/* What is drawn as a line over time. */
enum series { BYTES, DELAY, PROBABILITY, ALLOWANCE, SERIES };

struct column {
    bool seen;
    uint64_t least[SERIES], most[SERIES];
    uint64_t verdicts[5]; /* arrivals so answered */
    bool ticked;
    uint64_t latest; /* of its ticks: the most microseconds past the last one's clock + 15,000 */
};

struct columns {
    uint64_t from, until; /* clocks */
    struct column column[COLUMNS];
};

struct column *column_at(struct columns *columns, uint64_t clock);

/* A value of each series seen at a clock. */
void see(struct columns *columns, uint64_t clock, const uint64_t values[SERIES]);

/* One line for each column that was seen: the seconds at which it begins, then the numbers; tabs between. */
void write_columns(const struct columns *columns, FILE *to);

#endif
