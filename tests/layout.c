/*
 * The header against the definitions. The numbers stand here a second time, by hand: of each record the place and the length of
 * its fields, its size and its alignment, and the constants. Then the library runs, kind by kind (layout/), and each field must
 * hold what the rules give for it, and each constant must be the answer of a call that deserves it.
 * It prints each mistake and ends with 1 if there is any.
 */
#include <obikuteru.h>

#include <string.h>

#define LINKAGE
#include "layout.h"
#include "layout/parts.h"

#define COUNT(table) (sizeof(table) / sizeof *(table))

struct field {
    const char *record, *name;
    size_t place, length, wanted_place, wanted_length;
};

#define FIELD(record, field, place, length)                                                                        \
    {#record, #record "." #field, offsetof(struct obikuteru_##record, field),                                      \
     sizeof((struct obikuteru_##record *)0)->field, place, length}

static const struct field fields[] = {
    /* the ring: crates/ring_words/specs/Words.antt */
    FIELD(state, target, 0, 8), FIELD(state, buffer, 8, 8), FIELD(state, slots, 16, 8), FIELD(state, clock, 24, 8),
    FIELD(state, last, 32, 8), FIELD(state, probability, 40, 8), FIELD(state, old_delay, 48, 8),
    FIELD(state, allowance, 56, 8), FIELD(state, accumulated, 64, 8), FIELD(state, average, 72, 8),
    FIELD(state, measuring, 80, 8), FIELD(state, start, 88, 8), FIELD(state, counted, 96, 8),
    FIELD(state, count, 104, 8), FIELD(state, bytes, 112, 8), FIELD(state, first, 120, 8),
    FIELD(state, verdicts[0], 128, 8), FIELD(state, verdicts[1], 136, 8), FIELD(state, verdicts[2], 144, 8),
    FIELD(state, verdicts[3], 152, 8), FIELD(state, verdicts[4], 160, 8), FIELD(state, profile, 168, 8),
    FIELD(state, active, 176, 8),
    FIELD(packet, handle, 0, 4), FIELD(packet, size, 4, 4),
    /* bursts: crates/ring_burst/specs/Calls.antt and crates/ring_steps/specs/Lent.antt */
    FIELD(call, clock, 0, 8), FIELD(call, handle, 8, 4), FIELD(call, size, 12, 4), FIELD(call, u, 16, 4),
    FIELD(call, kind, 20, 4),
    FIELD(answer, code, 0, 2), FIELD(answer, size, 2, 2), FIELD(answer, handle, 4, 4),
    /* the modem: docs/DOCSIS-PIE.md */
    FIELD(modem_state, target, 0, 8), FIELD(modem_state, buffer, 8, 8), FIELD(modem_state, slots, 16, 8),
    FIELD(modem_state, peak, 24, 8), FIELD(modem_state, sustained, 32, 8), FIELD(modem_state, clock, 40, 8),
    FIELD(modem_state, last, 48, 8), FIELD(modem_state, probability, 56, 8), FIELD(modem_state, accumulated, 64, 8),
    FIELD(modem_state, old_delay, 72, 8), FIELD(modem_state, allowance, 80, 8), FIELD(modem_state, reset, 88, 8),
    FIELD(modem_state, activity, 96, 8), FIELD(modem_state, first, 104, 8), FIELD(modem_state, count, 112, 8),
    FIELD(modem_state, bytes, 120, 8),
    /* two queues: docs/SHARED-TABLES.md */
    FIELD(shared, slots, 0, 8), FIELD(shared, reserve[0], 8, 8), FIELD(shared, reserve[1], 16, 8),
    FIELD(shared, used, 24, 8), FIELD(shared, freed, 32, 8), FIELD(shared, spare, 40, 8),
    FIELD(pair_queue, target, 0, 8), FIELD(pair_queue, buffer, 8, 8), FIELD(pair_queue, clock, 16, 8),
    FIELD(pair_queue, last, 24, 8), FIELD(pair_queue, probability, 32, 8), FIELD(pair_queue, old_delay, 40, 8),
    FIELD(pair_queue, allowance, 48, 8), FIELD(pair_queue, accumulated, 56, 8), FIELD(pair_queue, average, 64, 8),
    FIELD(pair_queue, measuring, 72, 8), FIELD(pair_queue, start, 80, 8), FIELD(pair_queue, counted, 88, 8),
    FIELD(pair_queue, count, 96, 8), FIELD(pair_queue, bytes, 104, 8), FIELD(pair_queue, head, 112, 8),
    FIELD(pair_queue, tail, 120, 8), FIELD(pair_queue, verdicts[0], 128, 8), FIELD(pair_queue, verdicts[1], 136, 8),
    FIELD(pair_queue, verdicts[2], 144, 8), FIELD(pair_queue, verdicts[3], 152, 8),
    FIELD(pair_queue, verdicts[4], 160, 8),
    /* 64 flows: docs/SHARED-TABLES.md */
    FIELD(fq, target, 0, 8), FIELD(fq, buffer, 8, 8), FIELD(fq, slots, 16, 8), FIELD(fq, salt, 24, 8),
    FIELD(fq, clock, 32, 8), FIELD(fq, last, 40, 8), FIELD(fq, count, 48, 8), FIELD(fq, bytes, 56, 8),
    FIELD(fq, used, 64, 8), FIELD(fq, freed, 72, 8), FIELD(fq, spare, 80, 8), FIELD(fq, verdicts[0], 88, 8),
    FIELD(fq, verdicts[4], 120, 8), FIELD(fq, first, 128, 8), FIELD(fq, old, 136, 8), FIELD(fq, listed, 144, 8),
    FIELD(fq, order[0], 152, 8), FIELD(fq, order[63], 656, 8), FIELD(fq, flow[0].probability, 664, 8),
    FIELD(fq, flow[63].tail, 6800, 8), FIELD(fq, deficits[0], 6808, 4), FIELD(fq, deficits[63], 7060, 4),
    FIELD(flow, probability, 0, 8), FIELD(flow, old_delay, 8, 8), FIELD(flow, allowance, 16, 8),
    FIELD(flow, accumulated, 24, 8), FIELD(flow, average, 32, 8), FIELD(flow, measuring, 40, 8),
    FIELD(flow, start, 48, 8), FIELD(flow, counted, 56, 8), FIELD(flow, count, 64, 8), FIELD(flow, bytes, 72, 8),
    FIELD(flow, head, 80, 8), FIELD(flow, tail, 88, 8),
    FIELD(flow_packet, flow, 0, 4), FIELD(flow_packet, handle, 4, 4), FIELD(flow_packet, size, 8, 4),
    /* the log: docs/LOG.md */
    FIELD(settings, target, 0, 8), FIELD(settings, buffer, 8, 4), FIELD(settings, slots, 12, 4),
    FIELD(settings, clock, 16, 8), FIELD(settings, profile, 24, 1), FIELD(settings, unused, 25, 7),
    FIELD(record, kind, 0, 1), FIELD(record, ecn, 1, 1), FIELD(record, unused, 2, 2), FIELD(record, handle, 4, 4),
    FIELD(record, clock, 8, 8), FIELD(record, size, 16, 4), FIELD(record, u, 20, 4), FIELD(record, verdict, 24, 4),
    FIELD(record, bytes, 28, 4), FIELD(record, probability, 32, 8),
    FIELD(log, offset, 0, 4), FIELD(log, count, 4, 4),
    FIELD(part, from, 0, 8), FIELD(part, length, 8, 8),
    FIELD(replayed, record, 0, 8), FIELD(replayed, refusal, 8, 8), FIELD(replayed, verdict, 16, 8),
    FIELD(replayed, probability, 24, 8), FIELD(replayed, bytes, 32, 8),
    FIELD(compared, whose, 0, 8), FIELD(compared, record, 8, 8), FIELD(compared, part, 16, 16),
};

struct record {
    const char *name;
    size_t size, alignment, wanted_size, wanted_alignment;
};

#define RECORD(record, size, alignment)                                                                            \
    {#record, sizeof(struct obikuteru_##record), __alignof__(struct obikuteru_##record), size, alignment}

static const struct record records[] = {
    RECORD(state, 184, 8), RECORD(packet, 8, 4), RECORD(call, 24, 8), RECORD(answer, 8, 4), RECORD(modem_state, 128, 8),
    RECORD(shared, 48, 8), RECORD(pair_queue, 168, 8), RECORD(fq, 8 * 851 + 4 * 64, 8), RECORD(flow, 96, 8),
    RECORD(flow_packet, 12, 4), RECORD(settings, 32, 8), RECORD(record, 40, 8), RECORD(log, 8, 4), RECORD(part, 16, 8),
    RECORD(replayed, 40, 8), RECORD(compared, 32, 8),
};

struct constant {
    const char *name;
    uint64_t value, wanted;
};

#define CONSTANT(name, value) {#name, OBIKUTERU_##name, value}

static const struct constant constants[] = {
    /* the answers: crates/ring_words/specs/Codes.antt; the refusals: crates/refusals/specs/Numbers.antt */
    CONSTANT(ENQUEUED, 0), CONSTANT(MARKED, 1), CONSTANT(DROPPED_BYTES, 2), CONSTANT(DROPPED_SLOTS, 3),
    CONSTANT(DROPPED_EARLY, 4), CONSTANT(ACCEPTED, 0), CONSTANT(REFUSED_SETTINGS, 101), CONSTANT(REFUSED_STATE, 102),
    CONSTANT(REFUSED_TABLES, 103), CONSTANT(REFUSED_CLOCK, 104), CONSTANT(REFUSED_TOO_SOON, 105),
    CONSTANT(REFUSED_EMPTY, 106), CONSTANT(REFUSED_SIZE, 107), CONSTANT(REFUSED_COUNTS, 108),
    CONSTANT(REFUSED_HEAD, 109), CONSTANT(TICK_PERIOD, 15000), CONSTANT(RECORD_VERSION, 3), CONSTANT(PLAIN, 0),
    CONSTANT(CALM, 1),
    /* bursts */
    CONSTANT(CALL_ARRIVAL, 0), CONSTANT(CALL_ECN_ARRIVAL, 1), CONSTANT(CALL_DEPARTURE, 2), CONSTANT(CALL_TICK, 3),
    CONSTANT(REFUSED_CALL, 120),
    /* the modem */
    CONSTANT(MODEM_TARGET, 10000), CONSTANT(MODEM_TICK_PERIOD, 16000), CONSTANT(MODEM_FLOWS, 16),
    CONSTANT(MODEM_RECORD_VERSION, 1), CONSTANT(REFUSED_FLOW, 110),
    /* two queues */
    CONSTANT(PAIR_VERSION, 1), CONSTANT(INTERCOM, 0), CONSTANT(PASSENGERS, 1), CONSTANT(CALL_PASSENGERS, 4),
    /* 64 flows */
    CONSTANT(FQ_VERSION, 1),
    /* the log */
    CONSTANT(NOTE_MOST, 4096), CONSTANT(RECORDS_MOST, 100000), CONSTANT(LOG_MOST, 4004144),
    CONSTANT(REFUSED_LOG, 111), CONSTANT(REFUSED_HEADER, 112), CONSTANT(REFUSED_RECORD, 113),
    CONSTANT(REFUSED_ROOM, 114), CONSTANT(END, 1), CONSTANT(DISAGREES_VERDICT, 1), CONSTANT(DISAGREES_PROBABILITY, 2),
    CONSTANT(DISAGREES_BYTES, 3), CONSTANT(SETTINGS_DIFFER, 1), CONSTANT(NOTES_DIFFER, 2),
    CONSTANT(RECORDS_DIFFER, 3), CONSTANT(FIRST_ENDS, 4), CONSTANT(SECOND_ENDS, 5),
};

static void expect_of(const char *what, const char *of, uint64_t found, uint64_t wanted)
{
    char said[80];
    snprintf(said, sizeof said, "%s %s", what, of);
    expect(said, found, wanted);
}

static void check_tables(void)
{
    for (size_t i = 0; i < COUNT(fields); i++) {
        expect_of("the place of", fields[i].name, fields[i].place, fields[i].wanted_place);
        expect_of("the length of", fields[i].name, fields[i].length, fields[i].wanted_length);
    }
    for (size_t i = 0; i < COUNT(records); i++) {
        expect_of("the size of", records[i].name, records[i].size, records[i].wanted_size);
        expect_of("the alignment of", records[i].name, records[i].alignment, records[i].wanted_alignment);
    }
    for (size_t i = 0; i < COUNT(constants); i++)
        expect(constants[i].name, constants[i].value, constants[i].wanted);
}

static void check_refusals(void)
{
    for (uint32_t answer = 0; answer <= 4; answer++)
        expect("a verdict taken for a refusal", obikuteru_refused(answer), false);
    for (uint32_t answer = 101; answer <= 114; answer++)
        expect("a refusal known as one", obikuteru_refused(answer), true);
    expect("that of a call known as one", obikuteru_refused(OBIKUTERU_REFUSED_CALL), true);
}

/* Of the records whose fields are words. */
void expect_fields(const char *record, const void *found, const void *wanted)
{
    for (size_t i = 0; i < COUNT(fields); i++)
        if (strcmp(fields[i].record, record) == 0) {
            uint64_t has, should;
            memcpy(&has, (const char *)found + fields[i].place, sizeof has);
            memcpy(&should, (const char *)wanted + fields[i].place, sizeof should);
            expect(fields[i].name, has, should);
        }
}

int main(void)
{
    check_tables();
    check_refusals();
    check_ring();
    check_burst();
    check_modem();
    check_pair();
    check_fq();
    check_log();
    return result();
}
