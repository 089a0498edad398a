/*
 * report LOG FOLDER: writes what a report is made of into the folder: `head` and `questions`, the page's words before and
 * after its pictures, `columns`, their numbers, and `target`, the target delay in milliseconds. The launcher draws and joins them.
 */
#include "report/page.h"
#include "shared/log_file.h"
#include "shared/say.h"

#include <inttypes.h>
#include <string.h>

static struct log_file file;
static struct walk walk;
static uint32_t handles[MOST_SLOTS], sizes[MOST_SLOTS];

/* Reads and replays the log; or answers the refusal. */
static uint32_t find(struct found *found, struct obikuteru_part *note)
{
    uint32_t answer = obikuteru_log_settings(file.bytes, file.length, &found->settings);

    if (!obikuteru_refused(answer))
        answer = obikuteru_log_note(file.bytes, file.length, note);
    if (!obikuteru_refused(answer))
        answer = obikuteru_replay(file.bytes, file.length, handles, found->settings.slots, sizes, found->settings.slots, &found->replayed);
    if (!obikuteru_refused(answer) && answer != OBIKUTERU_ACCEPTED) {
        uint64_t place = found->replayed.record;

        obikuteru_log_read(file.bytes, file.length, &place, &found->wrong);
    }
    found->answer = answer;
    return answer;
}

/* Opens a file of the folder for writing; null where that cannot be. */
static FILE *create(const char *folder, const char *name)
{
    char path[4096];

    return snprintf(path, sizeof path, "%s/%s", folder, name) < (int)sizeof path ? fopen(path, "w") : NULL;
}

static bool written(FILE *to)
{
    return ferror(to) == 0 && fclose(to) == 0;
}

/* Whether all parts are written whole. */
static bool write_parts(const char *folder, const char *log, const struct found *found, struct obikuteru_part note)
{
    FILE *head = create(folder, "head"), *questions = create(folder, "questions");
    FILE *columns = create(folder, "columns"), *target = create(folder, "target");

    if (head == NULL || questions == NULL || columns == NULL || target == NULL)
        return false;
    write_head(head, log, found, file.bytes + note.from, note.length, &walk);
    write_questions(questions, found, &walk);
    write_columns(&walk.columns, columns);
    fprintf(target, "%.3f\n", (double)found->settings.target / 1e3);
    return written(head) & written(questions) & written(columns) & written(target);
}

/* What a refusal of the reader is for. */
static const char *reason_of(uint32_t refusal)
{
    switch (refusal) {
    case OBIKUTERU_REFUSED_LOG:
        return "trailer or length";
    case OBIKUTERU_REFUSED_HEADER:
        return "settings";
    default:
        return "a record";
    }
}

int main(int argc, char **argv)
{
    struct found found = {0};
    struct obikuteru_part note;
    const char *name;

    if (argc != 3)
        return say("report takes a log and a folder.");
    if (!read_log(argv[1], &file))
        return FAILED;
    if (obikuteru_refused(find(&found, &note)))
        return say("'%s' is no log that the reader accepts: refusal %" PRIu32 " (%s).", argv[1], found.answer - 100,
                   reason_of(found.answer));
    walk_log(&walk, file.bytes, file.length, found.answer == OBIKUTERU_ACCEPTED ? UINT64_MAX : found.replayed.record);
    name = strrchr(argv[1], '/');
    if (!write_parts(argv[2], name == NULL ? argv[1] : name + 1, &found, note))
        return say("the report's parts cannot be written.");
    return DONE;
}
