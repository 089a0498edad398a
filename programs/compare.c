/*
 * compare A B: `equal N`; or where two logs differ, with both records below `differs record K`; or
 * which one ends first; or `refused N` and whose log it is.
 */
#include "shared/call_text.h"
#include "shared/log_file.h"
#include "shared/say.h"

#include <inttypes.h>
#include <stdio.h>

static struct log_file first, second;

static void print_record_of(const char *whose, const struct log_file *file, uint64_t place)
{
    struct obikuteru_record record;

    obikuteru_log_read(file->bytes, file->length, &place, &record);
    printf("%s ", whose);
    print_record(&record);
}

static void print_ends(const char *which, const struct obikuteru_compared *found)
{
    printf("%s %" PRIu64 " %" PRIu64 "\n", which, found->record, found->part.length / sizeof(struct obikuteru_record));
}

static void print_difference(uint32_t answer, const struct obikuteru_compared *found)
{
    switch (answer) {
    case OBIKUTERU_SETTINGS_DIFFER:
        printf("differs settings\n");
        break;
    case OBIKUTERU_NOTES_DIFFER:
        printf("differs notes\n");
        break;
    case OBIKUTERU_RECORDS_DIFFER:
        printf("differs record %" PRIu64 "\n", found->record);
        print_record_of("first", &first, found->record);
        print_record_of("second", &second, found->record);
        break;
    case OBIKUTERU_FIRST_ENDS:
        print_ends("first-ends", found);
        break;
    default:
        print_ends("second-ends", found);
    }
}

static int compare(void)
{
    struct obikuteru_compared found;
    uint32_t answer = obikuteru_compare(first.bytes, first.length, second.bytes, second.length, &found);

    if (obikuteru_refused(answer)) {
        printf("refused %" PRIu32 " %s\n", answer - 100, found.whose == 1 ? "first" : "second");
        return FAILED;
    }
    if (answer != OBIKUTERU_ACCEPTED) {
        print_difference(answer, &found);
        return DIFFERS;
    }
    printf("equal %" PRIu64 "\n", found.record);
    return DONE;
}

int main(int argc, char **argv)
{
    bool both;

    if (argc != 3)
        return say("compare takes two logs.");
    both = read_log(argv[1], &first);
    both = read_log(argv[2], &second) && both;
    return both ? finish(compare()) : FAILED;
}
