/* Writer and reader of the log in plain C. Numbers in comments are the refusals' own. */
#include "plain.h"

#include <stdbool.h>
#include <string.h>

#define LATEST (UINT64_C(1) << 48) /* latest clock */
#define WHOLE (UINT64_C(1) << 32)  /* probability one */
#define LARGEST 65535u             /* largest packet */
#define MOST_BYTES 16777216u
#define MOST_NOTE 4096u
#define MOST_RECORDS 100000u

struct trailer {
    uint32_t offset;
    uint32_t count;
    uint32_t size;
    char letters[4];
};

/* The last eight bytes as one number: 0 or 1 where the profile is in range and no unused byte is set. */
static uint64_t profile_and_unused(const struct plain_settings *s)
{
    uint64_t n;
    memcpy(&n, (const uint8_t *)s + offsetof(struct plain_settings, profile), sizeof n);
    return n;
}

static bool settings_fault(const struct plain_settings *s)
{
    return s->target < 1000 || 100000 < s->target
        || s->buffer < 1 || MOST_BYTES < s->buffer
        || s->slots < 1 || 65536 < s->slots
        || LATEST < s->clock || 1 < profile_and_unused(s);
}

/* No jump by the kind but for a fault: which kind comes next cannot be foreseen. */
static bool record_fault(const struct plain_record *r)
{
    if (r->unused != 0 || LATEST < r->clock || MOST_BYTES < r->bytes || WHOLE < r->probability)
        return true;
    bool arrival = r->kind == 'a', departure = r->kind == 'd', tick = r->kind == 't';
    return !(arrival | departure | tick) | (arrival < r->ecn)
        | (arrival & ((r->size == 0) | (LARGEST < r->size) | (4 < r->verdict)))
        | (!arrival & ((r->handle | r->size | r->u) != 0))
        | (tick & (r->verdict != 0));
}

/* The length of a log with so many records. */
static uint64_t length(uint64_t offset, uint64_t count)
{
    return offset + PLAIN_RECORD * count + PLAIN_TRAILER;
}

static bool numbers_in_range(uint32_t offset, uint32_t count)
{
    return PLAIN_SETTINGS <= offset && offset <= PLAIN_SETTINGS + MOST_NOTE && count <= MOST_RECORDS;
}

static void put_trailer(const struct plain_log *log, uint8_t *bytes)
{
    struct trailer t = {log->offset, log->count, PLAIN_RECORD, {'Q', 'L', 'O', 'G'}};
    memcpy(bytes + log->offset + PLAIN_RECORD * (size_t)log->count, &t, sizeof t);
}

uint32_t plain_log_begin(struct plain_log *log, const struct plain_settings *settings,
                         const uint8_t *note, size_t note_len, uint8_t *bytes, size_t bytes_len)
{
    log->offset = 0;
    log->count = 0;
    if (settings_fault(settings))
        return PLAIN_REFUSED_HEADER; /* 12 */
    if (MOST_NOTE < note_len || bytes_len < length(PLAIN_SETTINGS + note_len, 0))
        return PLAIN_REFUSED_ROOM; /* 14 */
    log->offset = PLAIN_SETTINGS + (uint32_t)note_len;
    memcpy(bytes, settings, PLAIN_SETTINGS);
    memcpy(bytes + PLAIN_SETTINGS, note, note_len);
    put_trailer(log, bytes);
    return 0;
}

uint32_t plain_log_add(struct plain_log *log, const struct plain_record *record, uint8_t *bytes,
                       size_t bytes_len)
{
    if (!numbers_in_range(log->offset, log->count) || bytes_len < length(log->offset, log->count))
        return PLAIN_REFUSED_LOG; /* 11 */
    if (record_fault(record))
        return PLAIN_REFUSED_RECORD; /* 13 */
    if (log->count == MOST_RECORDS || bytes_len < length(log->offset, log->count + UINT64_C(1)))
        return PLAIN_REFUSED_ROOM; /* 14 */
    memcpy(bytes + log->offset + PLAIN_RECORD * (size_t)log->count, record, PLAIN_RECORD);
    log->count++;
    put_trailer(log, bytes);
    return 0;
}

/* Refusal 11, else 12, else 0 and the trailer's two numbers. */
static uint32_t open_log(const uint8_t *log, size_t log_len, struct plain_log *found)
{
    struct trailer t;
    struct plain_settings s;
    if (log_len < PLAIN_SETTINGS + PLAIN_TRAILER)
        return PLAIN_REFUSED_LOG; /* 11 */
    memcpy(&t, log + log_len - PLAIN_TRAILER, sizeof t);
    if (!numbers_in_range(t.offset, t.count) || t.size != PLAIN_RECORD
        || memcmp(t.letters, "QLOG", 4) != 0 || log_len != length(t.offset, t.count))
        return PLAIN_REFUSED_LOG; /* 11 */
    memcpy(&s, log, sizeof s);
    if (settings_fault(&s))
        return PLAIN_REFUSED_HEADER; /* 12 */
    found->offset = t.offset;
    found->count = t.count;
    return 0;
}

uint32_t plain_log_read(const uint8_t *log, size_t log_len, uint64_t *place,
                        struct plain_record *record)
{
    struct plain_log found;
    struct plain_record r;
    uint32_t answer = open_log(log, log_len, &found);
    memset(record, 0, sizeof *record);
    if (answer != 0)
        return answer;
    if (found.count <= *place)
        return PLAIN_END;
    memcpy(&r, log + found.offset + PLAIN_RECORD * *place, sizeof r);
    if (record_fault(&r))
        return PLAIN_REFUSED_RECORD; /* 13 */
    *record = r;
    *place += 1;
    return 0;
}

uint32_t plain_log_settings(const uint8_t *log, size_t log_len, struct plain_settings *settings)
{
    struct plain_log found;
    uint32_t answer = open_log(log, log_len, &found);
    if (answer == 0)
        memcpy(settings, log, sizeof *settings);
    else
        memset(settings, 0, sizeof *settings);
    return answer;
}

uint32_t plain_log_note(const uint8_t *log, size_t log_len, struct plain_part *note)
{
    struct plain_log found;
    uint32_t answer = open_log(log, log_len, &found);
    note->length = answer == 0 ? found.offset - PLAIN_SETTINGS : 0;
    note->from = note->length == 0 ? 0 : PLAIN_SETTINGS;
    return answer;
}

uint32_t plain_log_check(const uint8_t *log, size_t log_len, struct plain_log *found)
{
    uint32_t answer = open_log(log, log_len, found);
    if (answer != 0)
        return answer;
    for (uint32_t i = 0; i < found->count; i++) {
        struct plain_record r;
        memcpy(&r, log + found->offset + PLAIN_RECORD * (size_t)i, sizeof r);
        if (record_fault(&r))
            return PLAIN_REFUSED_RECORD; /* 13 */
    }
    return 0;
}
