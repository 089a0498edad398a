/* The log is written and read through the header's records: each field of the worked log must stand where docs/LOG.md has
 * it. */
#include <obikuteru.h>

#include <string.h>

#include "parts.h"

static void run_length(void)
{
    const struct obikuteru_log longest = {4128, 100000};
    expect("the length of the longest log", obikuteru_log_length(&longest), 4004144);
}

/* A number of the log, little-endian. */
static uint64_t number(const uint8_t *bytes, size_t at, size_t width)
{
    uint64_t n = 0;
    while (width-- > 0)
        n = n << 8 | bytes[at + width];
    return n;
}

static uint8_t bytes[32 + 7 + 2 * 40 + 16];
static const struct obikuteru_record arrival = {
    .kind = 'a', .ecn = 1, .handle = 0x01020304, .clock = UINT64_C(0x050607080910),
    .size = 0x1112, .u = 0x13141516, .verdict = 3, .bytes = 0x171819, .probability = 0x20212223};
static const struct obikuteru_record departure = {
    .kind = 'd', .clock = UINT64_C(0x050607080911), .verdict = 0x24252627};

/* Each field of what was written, no two of them alike. */
static void run_writer(struct obikuteru_log *log)
{
    const struct obikuteru_settings settings = {
        .target = 15000, .buffer = 64000, .slots = 4, .clock = 99, .profile = OBIKUTERU_CALM};
    struct obikuteru_record fault = departure;

    fault.size = 1;
    expect("begin", obikuteru_log_begin(log, &settings, (const uint8_t *)"coach 7", 7, bytes, sizeof bytes),
           OBIKUTERU_ACCEPTED);
    expect("add", obikuteru_log_add(log, &arrival, bytes, sizeof bytes), OBIKUTERU_ACCEPTED);
    expect("a fault", obikuteru_log_add(log, &fault, bytes, sizeof bytes), OBIKUTERU_REFUSED_RECORD);
    expect("add", obikuteru_log_add(log, &departure, bytes, sizeof bytes), OBIKUTERU_ACCEPTED);
    expect("no room", obikuteru_log_add(log, &departure, bytes, sizeof bytes), OBIKUTERU_REFUSED_ROOM);
    expect("no such state", obikuteru_log_add(log, &departure, bytes, 134), OBIKUTERU_REFUSED_LOG);
    expect("the length", obikuteru_log_length(log), sizeof bytes);
    expect("target", number(bytes, 0, 8), 15000);
    expect("buffer", number(bytes, 8, 4), 64000);
    expect("slots", number(bytes, 12, 4), 4);
    expect("start clock", number(bytes, 16, 8), 99);
    expect("profile and unused", number(bytes, 24, 8), 1);
    expect("the note", (uint64_t)memcmp(bytes + 32, "coach 7", 7), 0);
    expect("kind, ecn, unused and handle", number(bytes, 39, 8), UINT64_C(0x0102030400000161));
    expect("clock", number(bytes, 47, 8), UINT64_C(0x050607080910));
    expect("size and u", number(bytes, 55, 8), UINT64_C(0x1314151600001112));
    expect("verdict and bytes", number(bytes, 63, 8), UINT64_C(0x0017181900000003));
    expect("probability", number(bytes, 71, 8), 0x20212223);
    expect("the second kind", number(bytes, 79, 8), 'd');
    expect("the handle that left", number(bytes, 103, 4), 0x24252627);
    expect("offset and count", number(bytes, 119, 8), UINT64_C(0x0000000200000027));
    expect("size and letters", number(bytes, 127, 8), UINT64_C(0x474f4c5100000028));
}

static void run_reader(void)
{
    struct obikuteru_record record;
    struct obikuteru_settings settings;
    struct obikuteru_part note;
    uint64_t place = 0;

    expect("a record", obikuteru_log_read(bytes, sizeof bytes, &place, &record), OBIKUTERU_ACCEPTED);
    expect("the record itself", (uint64_t)memcmp(&record, &arrival, sizeof record), 0);
    expect("a record", obikuteru_log_read(bytes, sizeof bytes, &place, &record), OBIKUTERU_ACCEPTED);
    expect("the record itself", (uint64_t)memcmp(&record, &departure, sizeof record), 0);
    expect("the end", obikuteru_log_read(bytes, sizeof bytes, &place, &record), OBIKUTERU_END);
    expect("the place", place, 2);
    expect("a short log", obikuteru_log_read(bytes, sizeof bytes - 1, &place, &record), OBIKUTERU_REFUSED_LOG);
    expect("settings", obikuteru_log_settings(bytes, sizeof bytes, &settings), OBIKUTERU_ACCEPTED);
    expect("target", settings.target, 15000);
    expect("buffer", settings.buffer, 64000);
    expect("slots", settings.slots, 4);
    expect("start clock", settings.clock, 99);
    expect("profile", settings.profile, OBIKUTERU_CALM);
    expect("note", obikuteru_log_note(bytes, sizeof bytes, &note), OBIKUTERU_ACCEPTED);
    expect("its place", note.from, 32);
    expect("its length", note.length, 7);
    bytes[24] = 2;
    expect("no such profile", obikuteru_log_settings(bytes, sizeof bytes, &settings), OBIKUTERU_REFUSED_HEADER);
    bytes[24] = 0;
    expect("a plain log", obikuteru_log_settings(bytes, sizeof bytes, &settings), OBIKUTERU_ACCEPTED);
    bytes[31] = 1;
    expect("an unused byte", obikuteru_log_settings(bytes, sizeof bytes, &settings), OBIKUTERU_REFUSED_HEADER);
}

void check_log(void)
{
    struct obikuteru_log log;

    run_length();
    run_writer(&log);
    run_reader();
}
