#include "columns.h"

#include <inttypes.h>

struct column *column_at(struct columns *columns, uint64_t clock)
{
    uint64_t span = columns->until - columns->from + 1;

    return &columns->column[(clock - columns->from) * COLUMNS / span];
}

void see(struct columns *columns, uint64_t clock, const uint64_t values[SERIES])
{
    struct column *column = column_at(columns, clock);

    for (int i = 0; i < SERIES; i++) {
        if (!column->seen || values[i] < column->least[i])
            column->least[i] = values[i];
        if (!column->seen || values[i] > column->most[i])
            column->most[i] = values[i];
    }
    column->seen = true;
}

/* Milliseconds, or a dot where there is nothing to draw. */
static void write_lateness(const struct column *column, FILE *to)
{
    if (column->ticked)
        fprintf(to, "\t%.3f\n", (double)column->latest / 1e3);
    else
        fputs("\t.\n", to);
}

static void write_column(const struct column *column, double seconds, FILE *to)
{
    static const double unit[SERIES] = {1.0, 1e3, 42949672.96, 1e3};

    fprintf(to, "%.6f", seconds);
    for (int i = 0; i < SERIES; i++)
        fprintf(to, "\t%.4f\t%.4f", (double)column->least[i] / unit[i], (double)column->most[i] / unit[i]);
    for (int i = 0; i < 5; i++)
        fprintf(to, "\t%" PRIu64, column->verdicts[i]);
    write_lateness(column, to);
}

void write_columns(const struct columns *columns, FILE *to)
{
    double span = (double)(columns->until - columns->from + 1) / 1e6;

    fputs("# seconds, least and most: bytes, delay ms, probability %, allowance ms; five verdicts; latest tick ms\n", to);
    for (int i = 0; i < COLUMNS; i++)
        if (columns->column[i].seen)
            write_column(&columns->column[i], span * i / COLUMNS, to);
}
