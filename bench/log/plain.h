/*
 * The log of docs/LOG.md in plain C: what the library's writer and readers are measured against.
 * Records and settings are copied to and from the bytes as they stand in memory, so the machine
 * must be little-endian. Refusals are those of the page, 100 added.
 */
#ifndef LOG_PLAIN_H
#define LOG_PLAIN_H

#include <stddef.h>
#include <stdint.h>

struct plain_settings {
    uint64_t target;
    uint32_t buffer;
    uint32_t slots;
    uint64_t clock;
    uint8_t profile;
    uint8_t unused[7];
};

struct plain_record {
    uint8_t kind;
    uint8_t ecn;
    uint16_t unused;
    uint32_t handle;
    uint64_t clock;
    uint32_t size;
    uint32_t u;
    uint32_t verdict;
    uint32_t bytes;
    uint64_t probability;
};

/* The writer's state. */
struct plain_log {
    uint32_t offset;
    uint32_t count;
};

/* A part of lent bytes; from is 0 where it is empty. */
struct plain_part {
    uint64_t from;
    uint64_t length;
};

enum plain_log_answer {
    PLAIN_END = 1,
    PLAIN_REFUSED_LOG = 111,
    PLAIN_REFUSED_HEADER = 112,
    PLAIN_REFUSED_RECORD = 113,
    PLAIN_REFUSED_ROOM = 114
};

#define PLAIN_SETTINGS 32u
#define PLAIN_RECORD 40u
#define PLAIN_TRAILER 16u

uint32_t plain_log_begin(struct plain_log *log, const struct plain_settings *settings,
                         const uint8_t *note, size_t note_len, uint8_t *bytes, size_t bytes_len);

uint32_t plain_log_add(struct plain_log *log, const struct plain_record *record, uint8_t *bytes,
                       size_t bytes_len);

uint32_t plain_log_read(const uint8_t *log, size_t log_len, uint64_t *place,
                        struct plain_record *record);

uint32_t plain_log_settings(const uint8_t *log, size_t log_len, struct plain_settings *settings);

uint32_t plain_log_note(const uint8_t *log, size_t log_len, struct plain_part *note);

/* Reads the log whole: 0 or the refusal; where the records stand and how many, by the trailer. */
uint32_t plain_log_check(const uint8_t *log, size_t log_len, struct plain_log *found);

/* What a replay found. */
struct plain_replayed {
    uint64_t record;
    uint64_t refusal;
    uint64_t verdict;
    uint64_t probability;
    uint64_t bytes;
};

enum plain_replay_answer {
    PLAIN_DISAGREES_VERDICT = 1,
    PLAIN_DISAGREES_PROBABILITY = 2,
    PLAIN_DISAGREES_BYTES = 3
};

/* 0 where the log is accepted, else the field that disagrees, or a refusal. */
uint32_t plain_replay(const uint8_t *log, size_t log_len, uint32_t *handles, size_t handles_len,
                      uint32_t *sizes, size_t sizes_len, struct plain_replayed *found);

/* What a comparison found. */
struct plain_compared {
    uint64_t whose;
    uint64_t record;
    struct plain_part part;
};

enum plain_compare_answer {
    PLAIN_EQUAL = 0,
    PLAIN_SETTINGS_DIFFER = 1,
    PLAIN_NOTES_DIFFER = 2,
    PLAIN_RECORDS_DIFFER = 3,
    PLAIN_FIRST_ENDS = 4,
    PLAIN_SECOND_ENDS = 5
};

uint32_t plain_compare(const uint8_t *first, size_t first_len, const uint8_t *second,
                       size_t second_len, struct plain_compared *found);

#endif
