/*
 * Ratios of times to those of plain C. Included once by a program that has `sides`, each with a
 * name, plain C first, their number SIDES, the most PARTS of a round, and its ROUNDS.
 *
 * A part in which a side was interrupted (it took over twice that side's median for this part) is
 * left out of its round, for all sides. A ratio is taken in each round; their median, least and
 * greatest are printed.
 */
#include <stdbool.h>
#include <stdint.h>
#include <stdio.h>
#include <stdlib.h>
#include <string.h>

static uint64_t times[SIDES][PARTS][ROUNDS];
static uint64_t medians[SIDES][PARTS];

static int by_time(const void *a, const void *b)
{
    uint64_t x = *(const uint64_t *)a, y = *(const uint64_t *)b;
    return (x > y) - (x < y);
}

static int by_ratio(const void *a, const void *b)
{
    double x = *(const double *)a, y = *(const double *)b;
    return (x > y) - (x < y);
}

static void find_medians(size_t parts)
{
    uint64_t sorted[ROUNDS];
    for (size_t s = 0; s < SIDES; s++)
        for (size_t part = 0; part < parts; part++) {
            memcpy(sorted, times[s][part], sizeof sorted);
            qsort(sorted, ROUNDS, sizeof *sorted, by_time);
            medians[s][part] = sorted[ROUNDS / 2];
        }
}

static bool quiet(size_t part, size_t round)
{
    for (size_t s = 0; s < SIDES; s++)
        if (2 * medians[s][part] < times[s][part][round])
            return false;
    return true;
}

/* The ratio to plain C in one round; 0 if it has no quiet part. */
static double ratio(size_t side, size_t round, size_t parts)
{
    uint64_t time = 0, plain = 0;
    for (size_t part = 0; part < parts; part++)
        if (quiet(part, round)) {
            time += times[side][part][round];
            plain += times[0][part][round];
        }
    return plain == 0 ? 0 : (double)time / (double)plain;
}

/* Prints the ratios to plain C: stream, what, side, median, least, greatest. */
static void print_ratios(const char *stream_name, const char *what, size_t parts)
{
    find_medians(parts);
    for (size_t s = 1; s < SIDES; s++) {
        double ratios[ROUNDS];
        size_t n = 0;
        for (size_t round = 0; round < ROUNDS; round++) {
            ratios[n] = ratio(s, round, parts);
            n += ratios[n] != 0;
        }
        if (n < 15) {
            fprintf(stderr, "bench: fewer than 15 rounds were quiet enough; try again on a quieter machine.\n");
            exit(1);
        }
        qsort(ratios, n, sizeof *ratios, by_ratio);
        printf("time %s %s %s %.3f %.3f %.3f\n", stream_name, what, sides[s].name, ratios[n / 2],
               ratios[0], ratios[n - 1]);
    }
}
