/*
 * What the two programs of worked cases share: a case is a title and a list of steps, a step a
 * function and its numbers. A step says its call, the answer, and what stands behind the answer on
 * the page; each makes a line. A program defines RECORDS, the declarations of its records, before it
 * includes this.
 */
#ifndef STEPS_H
#define STEPS_H

#include <obikuteru.h>

#include <inttypes.h>
#include <stdarg.h>
#include <stdio.h>
#include <stdlib.h>
#include <string.h>

enum {
    TARGET = 15000,
    BUFFER = 64000,
    SLOTS_MOST = 8, /* of the tables; fresh alone may ask for more */
    LINK = 65536,   /* a word of sizes is a size and so many times a link */
    TEXT_MOST = 1024,
    NUMBERS = 5
};

struct lent {
    RECORDS
    uint64_t length; /* of both tables */
    uint32_t handles[SLOTS_MOST], sizes[SLOTS_MOST];
};

struct said {
    char call[TEXT_MOST], answer[TEXT_MOST], behind[TEXT_MOST];
};

struct step {
    void (*make)(struct lent *lent, const uint64_t *n, struct said *said);
    uint64_t n[NUMBERS];
};

struct worked_case {
    const char *title;
    bool shown; /* whether the page shows the records behind the answers */
    const struct step *steps;
    size_t count;
};

#define CASE(title, shown, steps) {title, shown, steps, sizeof steps / sizeof *steps}

static inline bool changed(const struct lent *before, const struct lent *now)
{
    return memcmp(before, now, sizeof *now) != 0;
}

/* Adds to a text, which must have room. */
static inline void add(char *text, const char *format, ...)
{
    size_t length = strlen(text);
    va_list values;
    va_start(values, format);
    int added = vsnprintf(text + length, TEXT_MOST - length, format, values);
    va_end(values);
    if (added < 0 || TEXT_MOST - length <= (size_t)added) {
        fprintf(stderr, "A line is too long.\n");
        exit(1);
    }
}

/* Numbers behind `first`, a space between each two. */
static inline void add_numbers(char *text, const char *first, const uint64_t *n, size_t count)
{
    add(text, "%s", first);
    for (size_t i = 0; i < count; i++)
        add(text, " %" PRIu64, n[i]);
}

/* The answer of a call that is refused, or else is `accepted`. A refused call changes nothing. */
static inline void add_answer(char *text, uint32_t answer, const char *accepted, bool changed)
{
    if (!obikuteru_refused(answer))
        add(text, "%s", accepted);
    else
        add(text, "refused %" PRIu32 "%s", answer - 100, changed ? ", with a change" : "");
}

/* The answer of an arrival; `place` is where an admitted packet stands. */
static inline void add_verdict(char *text, uint32_t answer, uint64_t place, bool changed)
{
    static const char *const names[] = {"enqueued", "marked", "dropped-bytes", "dropped-slots",
                                        "dropped-early"};
    add_answer(text, answer, answer <= OBIKUTERU_DROPPED_EARLY ? names[answer] : "unknown", changed);
    if (answer <= OBIKUTERU_MARKED)
        add(text, " at %" PRIu64, place);
}

/* A word of sizes, as size>link. */
static inline void add_word(char *text, uint32_t word)
{
    add(text, "%" PRIu32 ">%" PRIu32, word % LINK, word / LINK);
}

/* A step that writes to an element of sizes: place, size, link. */
static inline void word(struct lent *now, const uint64_t *n, struct said *said)
{
    now->sizes[n[0]] = (uint32_t)(n[1] + LINK * n[2]);
    add(said->call, "sizes[%" PRIu64 "] := ", n[0]);
    add_word(said->call, now->sizes[n[0]]);
}

static inline void print_line(const struct said *said, bool shown)
{
    if (said->answer[0] == 0)
        printf("%s\n", said->call);
    else if (shown && said->behind[0] != 0)
        printf("%-14s %-22s %s\n", said->call, said->answer, said->behind);
    else
        printf("%s: %s\n", said->call, said->answer);
}

static inline void run_case(struct lent *lent, const struct worked_case *worked)
{
    printf("%s\n", worked->title);
    for (size_t i = 0; i < worked->count; i++) {
        struct said said = {"", "", ""};
        worked->steps[i].make(lent, worked->steps[i].n, &said);
        print_line(&said, worked->shown);
    }
}

#endif
