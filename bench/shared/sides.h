/*
 * The implementations of a kind on the bench: plain C first, since the others are measured against it.
 * Plain C by clang has its records and calls. WITH_BEFORE: an earlier archive of the ring, its calls
 * renamed, and plain C by remainders.
 */
#ifndef SIDES_H
#define SIDES_H

#include "names.h"

/* The stream whose events run. */
static const struct stream *stream;

/* The tables that the calls of a block are lent. In a ring all are lent the same: an arrival only
 * writes to them, and a departure only reads its head. */
#ifdef OWN_TABLES
#define LENT(table, i) ((table)[i])
static uint32_t block_handles[BLOCK][MOST_SLOTS];
static uint32_t block_sizes[BLOCK][MOST_SLOTS];
#else
#define LENT(table, i) (table)
static uint32_t block_handles[MOST_SLOTS];
static uint32_t block_sizes[MOST_SLOTS];
#endif

struct side {
    const char *name;
    void (*fresh)(void);
    uint64_t (*mix)(const struct event *, size_t);
    RECORD (*record)(size_t);
    void (*load)(const RECORD *);
    RECORD (*loaded)(size_t);
    uint64_t (*block[KINDS])(const struct event *);
    const uint32_t *(*words)(size_t); /* the sizes */
    const uint64_t *(*row)(size_t);   /* the counts, where these are not in the record */
};

#define ENTRIES(side)                                                                             \
    {#side, on_##side##_fresh, on_##side##_mix, on_##side##_record, on_##side##_load,             \
     on_##side##_loaded, {on_##side##_arrivals, on_##side##_departures, on_##side##_ticks},       \
     on_##side##_words, on_##side##_row}

/* The calls of one side have the types of another's. */
#define LIKE(side, other)                                                                         \
    extern __typeof__(NAMED(other, fresh)) NAMED(side, fresh);                                    \
    extern __typeof__(NAMED(other, arrival)) NAMED(side, arrival);                                \
    extern __typeof__(NAMED(other, departure)) NAMED(side, departure);                            \
    extern __typeof__(NAMED(other, tick)) NAMED(side, tick);

#define SIDE(name) on_plain_##name
#define CALL(name) NAMED(plain_, name)
#include "side.h"

#define SIDE(name) on_library_##name
#define CALL(name) NAMED(obikuteru_, name)
#define STATE LIBRARY_RECORD
#include "side.h"

#ifdef WITH_CLANG
LIKE(clang_, plain_)
#define SIDE(name) on_clang_##name
#define CALL(name) NAMED(clang_, name)
#include "side.h"
#endif

#ifdef WITH_BEFORE
LIKE(before_, obikuteru_)
#define SIDE(name) on_before_##name
#define CALL(name) NAMED(before_, name)
#define STATE LIBRARY_RECORD
#include "side.h"

LIKE(remainder_, plain_)
#define SIDE(name) on_remainder_##name
#define CALL(name) NAMED(remainder_, name)
#include "side.h"
#endif

static const struct side sides[] = {
    ENTRIES(plain),
    ENTRIES(library),
#ifdef WITH_CLANG
    ENTRIES(clang),
#endif
#ifdef WITH_BEFORE
    ENTRIES(before),
    ENTRIES(remainder),
#endif
};

#endif
