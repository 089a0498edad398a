/*
 * replay LOG...: checks each log by the rules: `accepted N`, or `disagrees K FIELD` and below it what
 * was recorded and what the rules say, or `refused N`. Exits with the greatest of the statuses.
 */
#include "shared/call_text.h"
#include "shared/log_file.h"
#include "shared/progress.h"
#include "shared/say.h"

#include <inttypes.h>
#include <stdio.h>

enum { MOST_SLOTS = 65536 };

static struct log_file file;
static uint32_t handles[MOST_SLOTS], sizes[MOST_SLOTS];
static const char *name; /* of the log, where it stands before each line; else null */

static void begin_line(const char *word)
{
    if (name != NULL)
        printf("%s: ", name);
    printf("%s ", word);
}

/* The call of a record, with the rules' answer in place of the recorded one. */
static void print_rules(struct obikuteru_record record, const struct obikuteru_replayed *found)
{
    if (found->refusal != 0) {
        print_call(&record);
        printf(" refused %" PRIu64 " %" PRIu64 " %" PRIu64 "\n", found->refusal, found->probability, found->bytes);
        return;
    }
    record.verdict = (uint32_t)found->verdict;
    record.probability = found->probability;
    record.bytes = (uint32_t)found->bytes;
    print_record(&record);
}

static int print_disagreement(uint32_t answer, const struct obikuteru_replayed *found)
{
    struct obikuteru_record record;
    uint64_t place = found->record;

    obikuteru_log_read(file.bytes, file.length, &place, &record);
    begin_line("disagrees");
    printf("%" PRIu64 " %s\n", found->record, field_of(answer));
    begin_line("recorded");
    print_record(&record);
    begin_line("rules");
    print_rules(record, found);
    return DIFFERS;
}

/* Replays the log that was read, over tables of its slots. */
static int replay(void)
{
    struct obikuteru_settings settings;
    struct obikuteru_replayed found;
    uint32_t answer = obikuteru_log_settings(file.bytes, file.length, &settings);

    if (!obikuteru_refused(answer))
        answer = obikuteru_replay(file.bytes, file.length, handles, settings.slots, sizes, settings.slots, &found);
    clear_progress();
    if (obikuteru_refused(answer)) {
        begin_line("refused");
        printf("%" PRIu32 "\n", answer - 100);
        return FAILED;
    }
    if (answer != OBIKUTERU_ACCEPTED)
        return print_disagreement(answer, &found);
    begin_line("accepted");
    printf("%" PRIu64 "\n", found.record);
    return DONE;
}

int main(int argc, char **argv)
{
    int greatest = DONE;

    if (argc < 2)
        return say("replay takes one log or more.");
    for (int i = 1; i < argc; i++) {
        int status = FAILED;

        name = argc > 2 ? argv[i] : NULL;
        if (read_log(argv[i], &file)) {
            show_progress("replay: log", i, argc - 1);
            status = replay();
        }
        greatest = status > greatest ? status : greatest;
    }
    return finish(greatest);
}
