#include "page.h"

#include "../shared/call_text.h"

#include <inttypes.h>

static const char style[] =
    "body{font:16px/1.5 system-ui,sans-serif;max-width:62rem;margin:2rem auto;padding:0 1rem;color:#222}"
    "h1{font-size:1.6rem}h2{font-size:1.2rem;margin-top:2rem}table{border-collapse:collapse}"
    "td,th{padding:.2rem .8rem;border-bottom:1px solid #ddd;text-align:left}td.n{text-align:right;font-variant-numeric:tabular-nums}"
    "figure{margin:1rem 0}figcaption{color:#555}svg{max-width:100%;height:auto}"
    ".good{background:#e8f5e9;padding:.6rem 1rem}.bad{background:#fdecea;padding:.6rem 1rem}pre{overflow-x:auto}";

/* Text in a page: the characters that HTML reads, and bytes that are no printable ASCII, are written by number or \xnn. */
static void write_text(FILE *to, const uint8_t *bytes, uint64_t length)
{
    for (uint64_t i = 0; i < length; i++) {
        if (bytes[i] == '<' || bytes[i] == '>' || bytes[i] == '&' || bytes[i] == '"')
            fprintf(to, "&#%u;", bytes[i]);
        else if (bytes[i] >= 32 && bytes[i] <= 126 && bytes[i] != '\\')
            fputc(bytes[i], to);
        else
            fprintf(to, "\\x%02x", bytes[i]);
    }
}

static void write_name(FILE *to, const char *name)
{
    uint64_t length = 0;

    while (name[length] != '\0')
        length++;
    write_text(to, (const uint8_t *)name, length);
}

static void row(FILE *to, const char *name, uint64_t value, const char *unit)
{
    fprintf(to, "<tr><td>%s</td><td class=n>%" PRIu64 "</td><td>%s</td></tr>\n", name, value, unit);
}

static void write_settings(FILE *to, const struct obikuteru_settings *settings, const uint8_t *note, uint64_t note_length)
{
    fputs("<h2>Settings and note</h2>\n<table>\n", to);
    row(to, "Target delay", settings->target, "microseconds");
    row(to, "Buffer", settings->buffer, "bytes");
    row(to, "Slots", settings->slots, "packets");
    row(to, "Start clock", settings->clock, "microseconds");
    row(to, "Profile", settings->profile, settings->profile == OBIKUTERU_CALM ? "calm" : "plain");
    fputs("</table>\n", to);
    if (note_length == 0) {
        fputs("<p>The log has no note.</p>\n", to);
        return;
    }
    fputs("<p>Note: ", to);
    write_text(to, note, note_length);
    fputs("</p>\n", to);
}

/* A call's answer in words: a verdict, the handle that left, or a refusal. */
static void write_answer(FILE *to, const struct obikuteru_record *call, uint64_t verdict, uint64_t refusal)
{
    if (refusal != 0)
        fprintf(to, "refused %" PRIu64, refusal);
    else if (call->kind == 'a')
        fputs(verdict < 5 ? verdict_words[verdict] : "no verdict", to);
    else if (call->kind == 'd')
        fprintf(to, "departed %" PRIu64, verdict);
    else
        fputs("ticked", to);
}

static void write_wrong_row(FILE *to, const char *whose, const struct obikuteru_record *call, uint64_t verdict, uint64_t refusal,
                            uint64_t probability, uint64_t bytes)
{
    fprintf(to, "<tr><td>%s</td><td>", whose);
    write_answer(to, call, verdict, refusal);
    fprintf(to, "</td><td class=n>%" PRIu64 "</td><td class=n>%" PRIu64 "</td></tr>\n", probability, bytes);
}

static void write_replay(FILE *to, const struct found *found)
{
    const struct obikuteru_record *call = &found->wrong;

    fputs("<h2>What the replay found</h2>\n", to);
    if (found->answer == OBIKUTERU_ACCEPTED) {
        fprintf(to, "<p class=good>Accepted. Records: %" PRIu64 "; the rules give verdict, probability and bytes of each.</p>\n",
                found->replayed.record);
        return;
    }
    fprintf(to, "<p class=bad>Record %" PRIu64 " is the first that the rules do not give: it disagrees in its %s. "
                "The pictures and counts below are those of the rules, up to that call.</p>\n",
            found->replayed.record, field_of(found->answer));
    fprintf(to, "<p>The call: kind %c, clock %" PRIu64 ", size %" PRIu32 ", handle %" PRIu32 ", ecn %u, u %" PRIu32 ".</p>\n",
            call->kind, call->clock, call->size, call->handle, call->ecn, call->u);
    fputs("<table><tr><th></th><th>Answer</th><th>Probability</th><th>Bytes</th></tr>\n", to);
    write_wrong_row(to, "Recorded", call, call->verdict, 0, call->probability, call->bytes);
    write_wrong_row(to, "By the rules", call, found->replayed.verdict, found->replayed.refusal, found->replayed.probability,
                    found->replayed.bytes);
    fputs("</table>\n", to);
}

static void write_counts(FILE *to, const struct walk *walk)
{
    static const char *const names[5] = {"Enqueued", "Enqueued and marked", "Dropped: the buffer would overflow",
                                         "Dropped: every slot is taken", "Dropped early"};
    const struct obikuteru_state *state = &walk->state;

    fputs("<h2>Counts</h2>\n<p>A log holds accepted calls only: what was refused is not in it.</p>\n<table>\n", to);
    for (int i = 0; i < 5; i++)
        row(to, names[i], state->verdicts[i], "packets");
    row(to, "Packets in (enqueued or marked)", state->verdicts[0] + state->verdicts[1], "packets");
    row(to, "Packets out", walk->departures, "packets");
    row(to, "Bytes in", walk->bytes_in, "bytes");
    row(to, "Bytes out", walk->bytes_out, "bytes");
    row(to, "Ticks", walk->ticks, "");
    row(to, "Ticks more than 1 ms late", walk->late_ticks, "");
    fputs("</table>\n", to);
}

void write_head(FILE *to, const char *log, const struct found *found, const uint8_t *note, uint64_t note_length,
                const struct walk *walk)
{
    fputs("<!doctype html>\n<html lang=en>\n<head>\n<meta charset=utf-8>\n<title>Report of ", to);
    write_name(to, log);
    fprintf(to, "</title>\n<link rel=icon href=\"data:,\">\n<style>%s</style>\n</head>\n<body>\n<h1>Report of ", style);
    write_name(to, log);
    fputs("</h1>\n", to);
    write_replay(to, found);
    write_settings(to, &found->settings, note, note_length);
    write_counts(to, walk);
    fputs("<h2>Over time</h2>\n"
          "<p>Each picture shows, for each of at most 900 equal stretches of time, the range of what the rules gave.</p>\n",
          to);
}

static void question(FILE *to, const char *words, const char *theorem, const char *file)
{
    fprintf(to, "<h3>%s</h3>\n<p>Theorem: <b>%s</b> (%s).</p>\n<p>This log: ", words, theorem, file);
}

static void write_first_two(FILE *to, const struct found *found, const struct walk *walk)
{
    const uint64_t *verdicts = walk->state.verdicts;

    question(to, "Was that packet shed because the rule required it?", "WhichVerdict", "crates/ring_guarantees/specs/WhichVerdict.antt");
    fprintf(to, "packets dropped by the rules: %" PRIu64 ", marked: %" PRIu64 "; %s.</p>\n", verdicts[2] + verdicts[3] + verdicts[4],
            verdicts[1], found->answer == OBIKUTERU_ACCEPTED ? "the log records the same" : "counted up to the record that disagrees");
    question(to, "Could the burst allowance have run out early if the timer fired twice?", "AllowanceLasts",
             "crates/ring_guarantees/specs/AllowanceLasts.antt");
    if (walk->allowance_ran)
        fprintf(to, "the least time from a full allowance to an early drop or mark is %.3f ms; the theorem says at least 150.</p>\n",
                (double)walk->soonest_early / 1e3);
    else
        fputs("no packet was dropped early or marked.</p>\n", to);
}

static void write_last_two(FILE *to, const struct walk *walk)
{
    uint64_t target = walk->state.target;

    question(to, "Do the queued bytes equal what went in less what came out?", "Conservation", "crates/ring_guarantees/specs/Conservation.antt");
    fprintf(to,
            "bytes in: %" PRIu64 ", bytes out: %" PRIu64 ", the difference: %" PRIu64 "; bytes queued at the end: %" PRIu64
            ", packets: %" PRIu64 ".</p>\n",
            walk->bytes_in, walk->bytes_out, walk->bytes_in - walk->bytes_out, walk->state.bytes, walk->state.count);
    question(to, "Once a crowd has left, how long does the queue go on dropping?", "RecoveryByTarget",
             "crates/ring_guarantees/specs/RecoveryByTarget.antt");
    fprintf(to, "at a target of %" PRIu64 " the theorem says at most %" PRIu64 " ticks on an empty queue. ", target,
            obikuteru_ticks_to_recover(target));
    if (walk->longest_fade > 0)
        fprintf(to, "Ticks in the longest stretch of them until the probability was 0: %" PRIu64 ".</p>\n", walk->longest_fade);
    else
        fputs("No stretch of ticks on an empty queue brought a probability down to 0 in it.</p>\n", to);
}

void write_questions(FILE *to, const struct found *found, const struct walk *walk)
{
    fputs("<h2>Four questions</h2>\n", to);
    write_first_two(to, found, walk);
    write_last_two(to, walk);
    fputs("<p>What a log cannot show: u and ecn are the maker's word, and an accepted log is no proof of what was on the wire.</p>\n"
          "</body>\n</html>\n",
          to);
}
