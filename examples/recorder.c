/*
 * A queue that keeps a log of its calls. The log stands in the program's own memory and is whole
 * after every call; at the end it is written to a file, and read and replayed from there, as
 * anyone can who is sent the file.
 *   recorder FILE
 */
#include <obikuteru.h>

#include <inttypes.h>
#include <stdio.h>
#include <stdlib.h>
#include <string.h>

enum { SLOTS = 64, PACKETS = 600, ROOM = 65536 };

static struct obikuteru_state queue;
static uint32_t handles[SLOTS], sizes[SLOTS];
static struct obikuteru_log kept; /* with `bytes`, the log so far */
static uint8_t bytes[ROOM];

/* A small generator, so that each run prints the same. Firmware takes `u` from getrandom, say. */
static uint32_t next_random(void)
{
    static uint64_t seed = 1;

    seed = seed * 6364136223846793005u + 1442695040888963407u;
    return (uint32_t)(seed >> 32);
}

/* Any refusal here is a fault of this program, or a log without room for its calls. */
static void stop_if_refused(uint32_t answer, const char *call)
{
    if (obikuteru_refused(answer)) {
        fprintf(stderr, "recorder: %s was refused by %" PRIu32 ".\n", call, answer - 100);
        exit(1);
    }
}

static void stop_unless(bool done, const char *what)
{
    if (!done) {
        fprintf(stderr, "recorder: the file cannot be %s.\n", what);
        exit(1);
    }
}

/* Keeps an accepted call: what it was given and answered, and what the queue holds after it. */
static void keep(struct obikuteru_record record)
{
    record.probability = queue.probability;
    record.bytes = (uint32_t)queue.bytes;
    stop_if_refused(obikuteru_log_add(&kept, &record, bytes, ROOM), "a record");
}

static void arrive(uint64_t clock, uint32_t handle, uint32_t size, bool ecn)
{
    uint32_t u = next_random();
    uint32_t answer = obikuteru_arrival(&queue, handles, SLOTS, sizes, SLOTS, clock, handle, size, ecn, u);

    stop_if_refused(answer, "an arrival");
    keep((struct obikuteru_record){.kind = 'a', .ecn = ecn, .handle = handle, .clock = clock,
                                   .size = size, .u = u, .verdict = answer});
}

static void send_head(uint64_t clock)
{
    struct obikuteru_packet head;

    stop_if_refused(obikuteru_departure(&queue, handles, SLOTS, sizes, SLOTS, clock, &head), "a departure");
    keep((struct obikuteru_record){.kind = 'd', .clock = clock, .verdict = head.handle});
}

static void tick(uint64_t clock)
{
    stop_if_refused(obikuteru_tick(&queue, clock), "a tick");
    keep((struct obikuteru_record){.kind = 't', .clock = clock});
}

/* Queue and log begin together: the settings and the clock are the same. */
static void begin(void)
{
    struct obikuteru_settings settings = {.target = 15000, .buffer = 64000, .slots = SLOTS};
    const char *note = "recorder, an example";

    stop_if_refused(obikuteru_fresh(&queue, settings.target, settings.buffer, settings.slots, settings.profile,
                                    settings.clock), "fresh");
    stop_if_refused(obikuteru_log_begin(&kept, &settings, (const uint8_t *)note, strlen(note), bytes, ROOM), "begin");
}

/* About a packet each millisecond; the uplink takes three of four. */
static void run(void)
{
    uint64_t clock = 0;

    for (uint32_t n = 0; n < PACKETS; n++) {
        clock += 900 + next_random() % 200;
        if (clock >= queue.last + OBIKUTERU_TICK_PERIOD)
            tick(clock);
        arrive(clock, n, 500 + next_random() % 1000, n % 4 == 0);
        if (n % 4 != 0 && queue.count > 0)
            send_head(clock);
    }
}

static void write_file(const char *name)
{
    FILE *file = fopen(name, "wb");
    size_t length = obikuteru_log_length(&kept);

    stop_unless(file != NULL && fwrite(bytes, 1, length, file) == length, "written");
    stop_unless(fclose(file) == 0, "written");
    printf("written    %" PRIu32 " calls in %zu bytes\n", kept.count, length);
}

static size_t read_file(const char *name, uint8_t *copy)
{
    FILE *file = fopen(name, "rb");
    size_t length;

    stop_unless(file != NULL, "read");
    length = fread(copy, 1, ROOM, file);
    stop_unless(!ferror(file), "read");
    fclose(file);
    return length;
}

/* Reads every record, and counts the arrivals by their verdicts. */
static void count_verdicts(const uint8_t *log, size_t length)
{
    static const char *const names[5] = {"enqueued", "marked", "dropped, bytes", "dropped, slots", "dropped, early"};
    uint64_t place = 0, counts[5] = {0};
    struct obikuteru_record record;
    uint32_t answer = obikuteru_log_read(log, length, &place, &record);

    while (answer == OBIKUTERU_ACCEPTED) {
        if (record.kind == 'a')
            counts[record.verdict]++;
        answer = obikuteru_log_read(log, length, &place, &record);
    }
    stop_if_refused(answer, "the file");
    printf("read       %" PRIu64 " records\n", place);
    for (int v = 0; v < 5; v++)
        printf("  %-15s %4" PRIu64 "\n", names[v], counts[v]);
}

/* Replays the log, over tables of its slots; what they hold beforehand does not matter. */
static void replay(const uint8_t *log, size_t length)
{
    struct obikuteru_replayed found;
    uint32_t answer = obikuteru_replay(log, length, handles, SLOTS, sizes, SLOTS, &found);

    stop_if_refused(answer, "the log");
    if (answer == OBIKUTERU_ACCEPTED)
        printf("accepted   %" PRIu64 " records\n", found.record);
    else if (found.refusal != 0)
        printf("disagrees  record %" PRIu64 ": the rules refuse the call by %" PRIu64 "\n", found.record, found.refusal);
    else
        printf("disagrees  record %" PRIu64 ": the rules say %" PRIu64 ", probability %" PRIu64 ", bytes %" PRIu64 "\n",
               found.record, found.verdict, found.probability, found.bytes);
}

int main(int argc, char **argv)
{
    static uint8_t copy[ROOM];
    size_t length;

    if (argc != 2) {
        fprintf(stderr, "usage: recorder FILE\n");
        return 2;
    }
    begin();
    run();
    write_file(argv[1]);
    length = read_file(argv[1], copy);
    count_verdicts(copy, length);
    replay(copy, length);
    copy[length - 16 - 40 + 28] ^= 1; /* in the last record, the bytes after the call */
    replay(copy, length);
    return 0;
}
