/*
 * dump LOG: prints a log's settings, note and records, one line each, then `end N`; on a fault the
 * lines before it, then `refused N`.
 */
#include "shared/call_text.h"
#include "shared/log_file.h"
#include "shared/say.h"

#include <inttypes.h>
#include <stdio.h>

static struct log_file file;

/* A byte of the note: itself where it is printable and no backslash, else in hexadecimal. */
static void print_byte(uint8_t byte)
{
    if (byte >= 32 && byte <= 126 && byte != '\\')
        putchar(byte);
    else
        printf("\\x%02x", byte);
}

static void print_note(struct obikuteru_part note)
{
    printf("note %" PRIu64, note.length);
    if (note.length > 0)
        putchar(' ');
    for (uint64_t i = 0; i < note.length; i++)
        print_byte(file.bytes[note.from + i]);
    putchar('\n');
}

/* Settings and note; or the refusal of either, and nothing is printed. */
static uint32_t print_head(void)
{
    struct obikuteru_settings settings;
    struct obikuteru_part note;
    uint32_t answer = obikuteru_log_settings(file.bytes, file.length, &settings);

    if (!obikuteru_refused(answer))
        answer = obikuteru_log_note(file.bytes, file.length, &note);
    if (obikuteru_refused(answer))
        return answer;
    printf("c %" PRIu64 " %" PRIu32 " %" PRIu32 " %" PRIu64 " %d\n", settings.target, settings.buffer,
           settings.slots, settings.clock, settings.profile);
    print_note(note);
    return answer;
}

/* The records, until their end or a refusal. */
static uint32_t print_records(uint64_t *place)
{
    struct obikuteru_record record;
    uint32_t answer = obikuteru_log_read(file.bytes, file.length, place, &record);

    while (answer == OBIKUTERU_ACCEPTED) {
        printf("%" PRIu64 " ", *place - 1);
        print_record(&record);
        answer = obikuteru_log_read(file.bytes, file.length, place, &record);
    }
    return answer;
}

int main(int argc, char **argv)
{
    uint64_t place = 0;
    uint32_t answer;

    if (argc != 2)
        return say("dump takes one log.");
    if (!read_log(argv[1], &file))
        return FAILED;
    answer = print_head();
    if (!obikuteru_refused(answer))
        answer = print_records(&place);
    if (obikuteru_refused(answer)) {
        printf("refused %" PRIu32 "\n", answer - 100);
        return finish(FAILED);
    }
    printf("end %" PRIu64 "\n", place);
    return finish(DONE);
}
