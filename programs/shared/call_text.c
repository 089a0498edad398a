#include "call_text.h"

#include <inttypes.h>
#include <stdio.h>

const char *const verdict_words[5] = {"enqueued", "marked", "dropped-bytes", "dropped-slots", "dropped-early"};

void print_call(const struct obikuteru_record *record)
{
    printf("%c %" PRIu64, record->kind, record->clock);
    if (record->kind == 'a')
        printf(" %" PRIu32 " %" PRIu32 " %d %" PRIu32, record->handle, record->size, record->ecn, record->u);
}

static void print_answer(const struct obikuteru_record *record)
{
    if (record->kind == 'a')
        printf("%s", verdict_words[record->verdict]);
    else if (record->kind == 'd')
        printf("departed %" PRIu32, record->verdict);
    else
        printf("ticked");
}

void print_record(const struct obikuteru_record *record)
{
    print_call(record);
    putchar(' ');
    print_answer(record);
    printf(" %" PRIu64 " %" PRIu32 "\n", record->probability, record->bytes);
}

const char *field_of(uint32_t answer)
{
    switch (answer) {
    case OBIKUTERU_DISAGREES_VERDICT:
        return "verdict";
    case OBIKUTERU_DISAGREES_PROBABILITY:
        return "probability";
    default:
        return "bytes";
    }
}
