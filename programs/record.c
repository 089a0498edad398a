/*
 * record [--calm] SCRIPT ANSWERS LOG NOTE: makes the log of a script's accepted calls. ANSWERS is
 * what the script program printed: one line for each line of SCRIPT, so that both are read side by
 * side. The script program has checked the form of every line that it answered. Its answers are a
 * plain queue's; with --calm the calls are made on a calm queue, and its answers are recorded.
 */
#include "shared/call_text.h"
#include "shared/calm_queue.h"
#include "shared/say.h"
#include "shared/write_whole.h"

#include <inttypes.h>
#include <stdio.h>
#include <stdlib.h>
#include <string.h>

/* A file of lines, and the character that ended the word or number read last. */
struct text {
    FILE *file;
    int ended_by;
};

struct answer {
    char word[16];
    uint64_t detail; /* departed: the handle; refused: the number */
    uint64_t probability;
    uint64_t bytes;
};

static struct text script, answers;
static uint64_t line; /* number of the line that is read */
static bool calm;
static struct obikuteru_log log_state;
static uint8_t bytes[OBIKUTERU_LOG_MOST];

/* Script and answers do not fit together: one of them was not written whole. */
static void stop_cut_short(void)
{
    exit(say("the script could not be answered whole: it is cut short at line %" PRIu64 ".", line));
}

static bool at_end(struct text *text)
{
    int next = getc(text->file);

    ungetc(next, text->file);
    return next == EOF;
}

static void read_word(struct text *text, char *word, size_t room)
{
    size_t length = 0;
    int next = getc(text->file);

    while (next != ' ' && next != '\n' && next != EOF && length + 1 < room) {
        word[length++] = (char)next;
        next = getc(text->file);
    }
    word[length] = '\0';
    text->ended_by = next;
}

/* A number, which may have any number of leading zeros. */
static uint64_t read_number(struct text *text)
{
    uint64_t number = 0;
    int next = getc(text->file);

    while (next >= '0' && next <= '9') {
        number = 10 * number + (uint64_t)(next - '0');
        next = getc(text->file);
    }
    text->ended_by = next;
    return number;
}

static void read_answer(struct answer *answer)
{
    line++;
    read_word(&answers, answer->word, sizeof answer->word);
    if (strcmp(answer->word, "bad") == 0)
        exit(say("line %" PRIu64 " of the script is bad.", line));
    answer->detail = 0;
    if (strcmp(answer->word, "departed") == 0 || strcmp(answer->word, "refused") == 0)
        answer->detail = read_number(&answers);
    answer->probability = read_number(&answers);
    answer->bytes = read_number(&answers);
    if (answers.ended_by != '\n')
        stop_cut_short();
}

static bool is_refused(const struct answer *answer)
{
    return strcmp(answer->word, "refused") == 0;
}

static void stop_refused_settings(void)
{
    exit(say("line 1 of the script is refused: its target, buffer or slots are out of range."));
}

/* The first line, and with it the log. */
static void begin_log(const char *note)
{
    struct obikuteru_settings settings = {0};
    struct answer answer;
    char word[2];

    if (at_end(&answers))
        exit(say("the script is empty: its first line must be 'c target buffer slots'."));
    read_answer(&answer);
    if (is_refused(&answer))
        stop_refused_settings();
    read_word(&script, word, sizeof word);
    settings.target = read_number(&script);
    settings.buffer = (uint32_t)read_number(&script);
    settings.slots = (uint32_t)read_number(&script);
    settings.profile = calm ? OBIKUTERU_CALM : OBIKUTERU_PLAIN;
    if (calm && !start_calm_queue(&settings))
        stop_refused_settings();
    if (obikuteru_refused(obikuteru_log_begin(&log_state, &settings, (const uint8_t *)note, strlen(note),
                                              bytes, sizeof bytes)))
        exit(say("the note has more than 4,096 bytes."));
}

static void read_call(struct obikuteru_record *record)
{
    char word[2];

    read_word(&script, word, sizeof word);
    record->kind = (uint8_t)word[0];
    record->clock = read_number(&script);
    if (record->kind == 'a') {
        record->handle = (uint32_t)read_number(&script);
        record->size = (uint32_t)read_number(&script);
        record->ecn = (uint8_t)read_number(&script);
        record->u = (uint32_t)read_number(&script);
    }
    if (script.ended_by != '\n' && !at_end(&script))
        stop_cut_short();
}

/* What a record keeps as the verdict: of an arrival its answer, of a departure the handle. */
static uint32_t verdict_of(const struct answer *answer)
{
    for (uint32_t verdict = 0; verdict < 5; verdict++)
        if (strcmp(answer->word, verdict_words[verdict]) == 0)
            return verdict;
    return (uint32_t)answer->detail;
}

/* The record's answer, as the script program gave it; or none where it refused the call. */
static bool take_answer(struct obikuteru_record *record, const struct answer *answer)
{
    if (is_refused(answer))
        return false;
    record->verdict = verdict_of(answer);
    record->probability = answer->probability;
    record->bytes = (uint32_t)answer->bytes;
    return true;
}

static void add_call(const struct answer *answer)
{
    struct obikuteru_record record = {0};
    uint32_t added;

    read_call(&record);
    if (!(calm ? ask_calm_queue(&record) : take_answer(&record, answer)))
        return;
    added = obikuteru_log_add(&log_state, &record, bytes, sizeof bytes);
    if (added == OBIKUTERU_REFUSED_ROOM)
        exit(say("line %" PRIu64 " of the script is one accepted call too many: a log holds at most 100,000.",
                 line));
    if (added != OBIKUTERU_ACCEPTED)
        stop_cut_short();
}

static FILE *open_text(const char *name)
{
    FILE *file = fopen(name, "rb");

    if (file == NULL)
        exit(say("the file '%s' cannot be read.", name));
    return file;
}

int main(int argc, char **argv)
{
    struct answer answer;

    calm = argc > 1 && strcmp(argv[1], "--calm") == 0;
    argv += calm;
    if (argc - calm != 5)
        return say("record takes a script, its answers, a log and a note.");
    script.file = open_text(argv[1]);
    answers.file = open_text(argv[2]);
    begin_log(argv[4]);
    while (!at_end(&answers)) {
        read_answer(&answer);
        add_call(&answer);
    }
    if (!at_end(&script))
        stop_cut_short();
    if (!write_whole(argv[3], bytes, obikuteru_log_length(&log_state)))
        return FAILED;
    printf("recorded %" PRIu32 "\n", log_state.count);
    return finish(DONE);
}
