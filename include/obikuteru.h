/*
 * Obikuteru: queues of packet records that shed load by PIE (RFC 8033), proved in Rattle.
 *
 * The library holds no memory of its own, calls nothing but memcpy and memset (64 flows, and
 * bursts on two queues), and never fails but by the refusals below. A queue is three things that
 * the caller owns and lends to each call:
 *
 *   - a state record, struct obikuteru_state;
 *   - a table of handles and a table of sizes, each of exactly `slots` 32-bit numbers.
 *
 * The packets themselves stay with the caller. The queue keeps a handle (any 32-bit number that
 * names the packet to the caller) and a size for each.
 *
 * Three more kinds stand further down: a cable modem's sixteen flows, two queues in one pair of
 * tables, 64 flows in one pair.
 *
 * Units: times are microseconds, sizes bytes, probabilities whole units of 1/2^32.
 *
 * Platform
 *   There is an archive for x86-64 Linux and one for AArch64 Linux (./obikuteru library aarch64);
 *   size_t has 64 bits in both. Take the header and the archive from the same release: nothing
 *   compares them.
 *
 * Memory
 *   Hand state and tables back to the next call as the last call left them. The library checks
 *   what it is given: a record that is not well formed, or a head whose size cannot be, is refused
 *   and never followed; damage that stays within those bounds is not seen.
 *   What it cannot check is the caller's part: that a pointer is not null, even with a length of
 *   0; that it leads to as much memory as is said, a record aligned to 8 bytes, a table or packet
 *   to 4; and that what one call is lent does not overlap.
 *   A state and its tables belong to one thread at a time. Calls on different queues may run at
 *   the same time.
 *
 * Clock
 *   Use a monotonic clock (CLOCK_MONOTONIC), never the time of day. Each accepted call sets the
 *   state's clock to its own, and a smaller one is then refused by 4. So a jump forward cannot
 *   be undone: calls are refused until the clock has caught up. 2^48 microseconds are 8.9 years;
 *   beyond that every call is refused by 4, and only a fresh queue with a smaller clock goes on.
 *
 * Ticks
 *   Arm the next tick at `last` + OBIKUTERU_TICK_PERIOD, each time anew. A timer that runs freely
 *   every 15 ms will not do: a tick less than 15 ms after the one before is refused by 5, and with
 *   independent jitter 37 of 100 ticks are.
 *   A late tick is accepted. However late, it makes one update and spends 15,000 of the
 *   allowance, so what takes a number of ticks, recovery say, takes longer in time.
 *
 * Random numbers
 *   Each arrival needs a number `u` of its own, uniform over all 32 bits: from getrandom, or from
 *   a good generator seeded by it. rand() will not do. Where it gives 31 bits, `u` is below 2^31:
 *   where u decides, the queue drops or marks twice as often, and always from a probability of 1/2.
 *   Where it gives 15 bits, always from a probability of 1/131,072.
 *
 * Saving
 *   Save record and both tables together, between two calls, and with them
 *   OBIKUTERU_RECORD_VERSION and sizeof(struct obikuteru_state). Restore only if both are equal;
 *   then ask obikuteru_well_formed. The bytes stand in the machine's order (little-endian on
 *   both): a record from a machine of the other order is converted field by field.
 *   After a restart a monotonic clock begins anew, below the record's, and is refused by 4.
 *   Either add an offset to it, so that it goes on from the record's clock, or start afresh and
 *   put the packets in again.
 *
 * After a refusal
 *   101, 103 to 107, 110 and 120 need only a right call, but for 104 beyond 2^48, which asks for
 *   a fresh queue; 111 to 114 are the log's and leave the queue as it is; 102, 108 and 109 ask for
 *   a fresh queue. The handles that are queued come out of the old one like this:
 *     108  The queue is sound: departures and ticks go on. Let it run empty, then start afresh.
 *     109  They stand in the table of handles, head first, at (first + i) % slots for i below
 *          `count`. Read them there; what damaged the sizes may have damaged them too.
 *     102  The record cannot be trusted. The table of handles still holds what was written, but
 *          which of it is queued, and in what order, only the caller's own books can say.
 */
#ifndef OBIKUTERU_H
#define OBIKUTERU_H

#include <stdbool.h>
#include <stddef.h>
#include <stdint.h>

#ifdef __cplusplus
extern "C" {
#endif

/* Raised whenever the layout or the meaning of the state record (not the log's records) changes. */
#define OBIKUTERU_RECORD_VERSION 3u

/* Least time from one accepted tick to the next. */
#define OBIKUTERU_TICK_PERIOD 15000u

/*
 * Profiles. A calm queue (RFC 8033, 5.3 and 5.5) is inactive until an arrival finds more than a
 * third of the buffer queued, and again after a tick that finds no more than that, the probability
 * 0 and the delays below half the target; inactive, it drops nothing early and marks nothing. From
 * one tenth on its probability rises by at most 0.02 a tick.
 */
#define OBIKUTERU_PLAIN 0u
#define OBIKUTERU_CALM 1u

/*
 * The state record. Make one with obikuteru_fresh; read any field; write none, unless to restore
 * a record that was saved whole.
 */
struct obikuteru_state {
    uint64_t target;      /* target delay, 1,000 to 100,000 microseconds */
    uint64_t buffer;      /* most bytes that may be queued, 1 to 16,777,216 */
    uint64_t slots;       /* most packets that may be queued, 1 to 65,536 */
    uint64_t clock;       /* clock of the last accepted call, at most 2^48 */
    uint64_t last;        /* clock of the last accepted tick, or of fresh */
    uint64_t probability; /* drop probability, 0 to 2^32 */
    uint64_t old_delay;   /* queueing delay at the last tick, at most 10,000,000 */
    uint64_t allowance;   /* burst allowance that is left, at most 150,000 */
    uint64_t accumulated; /* probabilities since the last early verdict, below 36,507,222,016 */
    uint64_t average;     /* average time for 16,384 bytes to leave; 0: none measured yet */
    uint64_t measuring;   /* not 0: a measurement of the departure rate runs; 0 where count is 0 */
    uint64_t start;       /* clock at which it started; 0 if none runs */
    uint64_t counted;     /* bytes that have left since, below 16,384; 0 if none runs */
    uint64_t count;       /* packets queued */
    uint64_t bytes;       /* bytes queued */
    uint64_t first;       /* place of the head in the tables */
    uint64_t verdicts[5]; /* arrivals answered 0 to 4 below; their sum is at most 2^48 */
    uint64_t profile;     /* PLAIN or CALM */
    uint64_t active;      /* 0: inactive, calm with probability 0; a plain queue never is */
};

/* What a departure hands back. */
struct obikuteru_packet {
    uint32_t handle;
    uint32_t size;
};

/* Answers of an accepted arrival. Each is also the index of its count in `verdicts`. */
#define OBIKUTERU_ENQUEUED 0u      /* at the tail */
#define OBIKUTERU_MARKED 1u        /* at the tail; set the packet's ECN mark */
#define OBIKUTERU_DROPPED_BYTES 2u /* dropped: the buffer would overflow */
#define OBIKUTERU_DROPPED_SLOTS 3u /* dropped: every slot is taken */
#define OBIKUTERU_DROPPED_EARLY 4u /* dropped: the drop probability decided so, and the packet is
                                      not ECN-capable or the probability is one tenth or more */

/* Answer of any other accepted call. */
#define OBIKUTERU_ACCEPTED 0u

/*
 * Refusals: 100 and the number. A refused call changes nothing: state and tables are as they
 * were, the packet of a refused departure is {0, 0}; only a refused fresh writes, an all-zero
 * record, which every call refuses. Where several apply, the lowest is given.
 */
#define OBIKUTERU_REFUSED_SETTINGS 101u /* fresh: a setting or the clock is out of range */
#define OBIKUTERU_REFUSED_STATE 102u    /* the state record is damaged: start afresh */
#define OBIKUTERU_REFUSED_TABLES 103u   /* a table's length is not the state's slots */
#define OBIKUTERU_REFUSED_CLOCK 104u    /* the clock went back, or is above 2^48 */
#define OBIKUTERU_REFUSED_TOO_SOON 105u /* tick: less than 15,000 since `last`; try later */
#define OBIKUTERU_REFUSED_EMPTY 106u    /* departure: nothing is queued */
#define OBIKUTERU_REFUSED_SIZE 107u     /* arrival: the size is 0 or above 65,535 */
#define OBIKUTERU_REFUSED_COUNTS 108u   /* arrival: 2^48 arrivals counted; start afresh */
#define OBIKUTERU_REFUSED_HEAD 109u     /* departure: the head's stored size is damaged */

static inline bool obikuteru_refused(uint32_t answer) { return 100u < answer; }

/*
 * A fresh queue at `clock`. Answers ACCEPTED or REFUSED_SETTINGS. The record's memory and the
 * tables need no preparation: lend any two of `slots` numbers to the calls that follow.
 */
uint32_t obikuteru_fresh(struct obikuteru_state *state, uint64_t target, uint64_t buffer,
                         uint64_t slots, uint64_t profile, uint64_t clock);

/*
 * A packet of `size` bytes arrives. `ecn`: the packet is ECN-capable. `u`: a random number,
 * uniform over all 32-bit numbers and fresh for each arrival. Where the answer is ENQUEUED or
 * MARKED, one element of each table was written; otherwise the caller drops the packet. Answers a
 * verdict, or 102, 103, 104, 107, 108.
 */
uint32_t obikuteru_arrival(struct obikuteru_state *state, uint32_t *handles, size_t handles_len,
                           uint32_t *sizes, size_t sizes_len, uint64_t clock, uint32_t handle,
                           uint32_t size, bool ecn, uint32_t u);

/*
 * The head leaves: its handle and size are written to `packet`. The tables are only read. Answers
 * ACCEPTED, or 102, 103, 104, 106, 109.
 */
uint32_t obikuteru_departure(struct obikuteru_state *state, const uint32_t *handles,
                             size_t handles_len, const uint32_t *sizes, size_t sizes_len,
                             uint64_t clock, struct obikuteru_packet *packet);

/*
 * The periodic update of probability and allowance, due at `last` + OBIKUTERU_TICK_PERIOD. Answers
 * ACCEPTED, or 102, 104, 105.
 */
uint32_t obikuteru_tick(struct obikuteru_state *state, uint64_t clock);

/* Whether a record, restored from elsewhere say, is one that the calls accept (not refusal 2). */
bool obikuteru_well_formed(const struct obikuteru_state *state);

/*
 * Many calls in one: a burst. Each call is answered as its single entry would answer it, refused
 * ones included, each given what the last one left; so a list of calls may be cut into bursts
 * anywhere. The record is tested once, and a call in a burst of 32 costs less than half of a
 * single one, of a plain queue and of a calm one. The modem's bursts, of one flow each, and the
 * pair's take the same structs.
 */
struct obikuteru_call {
    uint64_t clock;
    uint32_t handle; /* arrivals */
    uint32_t size;   /* arrivals; at a modem also the credits of a tick */
    uint32_t u;      /* arrivals: a random number, fresh for each */
    uint32_t kind;   /* one of those below, of a pair with CALL_PASSENGERS or without */
};

/* Kinds of call. */
#define OBIKUTERU_CALL_ARRIVAL 0u
#define OBIKUTERU_CALL_ECN_ARRIVAL 1u /* the packet is ECN-capable */
#define OBIKUTERU_CALL_DEPARTURE 2u
#define OBIKUTERU_CALL_TICK 3u

/* What a call is answered. */
struct obikuteru_answer {
    uint16_t code;   /* the single entry's answer */
    uint16_t size;   /* of the packet that departed, else 0 */
    uint32_t handle; /* likewise */
};

/* Refusal of a call whose kind is none of those, and of a burst whose lengths do not fit. */
#define OBIKUTERU_REFUSED_CALL 120u

/*
 * Runs a burst. Answers ACCEPTED, or REFUSED_CALL with nothing done where `calls_len` is not
 * 6 * `answers_len`; what each call was answered stands in `answers`, and the burst is ACCEPTED also
 * where every call in it was refused.
 * Calls are six 32-bit numbers each, in the order of struct obikuteru_call, the clock's low half
 * first; answers are one word each, code + 65,536 * size + 2^32 * handle. On a little-endian
 * machine the two structs stand so in memory: let an array of n calls share a union with one of
 * 6 * n numbers, and an array of n answers one with n words, and pass those (examples/bursts.c).
 */
uint32_t obikuteru_calls(struct obikuteru_state *state, uint32_t *handles, size_t handles_len,
                         uint32_t *sizes, size_t sizes_len, const uint32_t *calls,
                         size_t calls_len, uint64_t *answers, size_t answers_len);

/*
 * How many accepted ticks in succession, each finding the queue empty, bring a queue of this
 * target back from any state: the probability is then 0, and for 150,000 microseconds only a full
 * buffer or full slots turn a packet away. 557 at a target of 1,000, 212 at 15,000, 71 at 100,000;
 * 0 for a target out of range. It holds of this queue, of either queue of a pair, and of each of 64
 * flows, by the ticks that find that flow empty; of the modem it is not claimed.
 */
uint64_t obikuteru_ticks_to_recover(uint64_t target);

/*
 * The log: every accepted call of one queue, kept in lent bytes that anyone can replay.
 * docs/LOG.md lays the bytes out. They are a whole log after every accepted call of the writer:
 * settings, note, records, trailer; nothing is left to be closed.
 *
 * Records and settings stand in the log byte by byte as the two structs below stand in memory on a
 * little-endian machine. The library reads and writes them as bytes, at any address.
 */
struct obikuteru_settings {
    uint64_t target;    /* 1,000 to 100,000 */
    uint32_t buffer;    /* 1 to 16,777,216 */
    uint32_t slots;     /* 1 to 65,536 */
    uint64_t clock;     /* start clock, 0 to 2^48 */
    uint8_t profile;    /* PLAIN or CALM */
    uint8_t unused[7];  /* 0 */
};

struct obikuteru_record {
    uint8_t kind;         /* 'a' arrival, 'd' departure, 't' tick */
    uint8_t ecn;          /* a: 0 or 1 */
    uint16_t unused;      /* 0 */
    uint32_t handle;      /* a: any */
    uint64_t clock;       /* 0 to 2^48 */
    uint32_t size;        /* a: 1 to 65,535 */
    uint32_t u;           /* a: any */
    uint32_t verdict;     /* a: 0 to 4, the answer; d: the handle that left */
    uint32_t bytes;       /* bytes queued after the call, 0 to 16,777,216 */
    uint64_t probability; /* drop probability after the call, 0 to 2^32 */
};                        /* a field that a kind does not use is 0 */

/* The writer's state: the trailer's first two numbers. Keep it beside the bytes. */
struct obikuteru_log {
    uint32_t offset; /* where the first record stands: 32 and the note's length */
    uint32_t count;  /* records written */
};

#define OBIKUTERU_NOTE_MOST 4096u      /* bytes of a note */
#define OBIKUTERU_RECORDS_MOST 100000u /* records of a log */
#define OBIKUTERU_LOG_MOST 4004144u    /* bytes of the longest log */

/* The length of the log so far: what to write to a file, or to hand to a reader. */
static inline size_t obikuteru_log_length(const struct obikuteru_log *log) {
    return (size_t)log->offset + 40u * (size_t)log->count + 16u;
}

/* Refusals of the log's calls. Where several apply, the lowest is given. */
#define OBIKUTERU_REFUSED_LOG 111u       /* reader: bad trailer or length; writer: a state that it
                                            cannot have reached in bytes of that length */
#define OBIKUTERU_REFUSED_HEADER 112u    /* settings out of range, or an unused byte not 0 */
#define OBIKUTERU_REFUSED_RECORD 113u    /* a field out of range, or an unused one not 0 */
#define OBIKUTERU_REFUSED_ROOM 114u      /* writer: note too long, no room, or 100,000 records */

/*
 * Begins a log: writes 48 bytes and the note. Answers ACCEPTED, 112 or 114. A refused call
 * leaves the bytes and makes `log` all zero, which add refuses.
 */
uint32_t obikuteru_log_begin(struct obikuteru_log *log, const struct obikuteru_settings *settings,
                             const uint8_t *note, size_t note_len, uint8_t *bytes,
                             size_t bytes_len);

/*
 * Adds a record: writes 56 bytes, reads none. Answers ACCEPTED, 111, 113 or 114; a refused call
 * changes neither `log` nor a byte.
 */
uint32_t obikuteru_log_add(struct obikuteru_log *log, const struct obikuteru_record *record,
                           uint8_t *bytes, size_t bytes_len);

/* Answer of a read: no record is left. */
#define OBIKUTERU_END 1u

/*
 * Reads the record of number `*place` and moves the place on by one. Answers ACCEPTED, END where
 * the place is the count or more, or 111, 112, 113; then the place stays and `record` is all zero.
 * `log_len` is exactly the log's length.
 */
uint32_t obikuteru_log_read(const uint8_t *log, size_t log_len, uint64_t *place,
                            struct obikuteru_record *record);

/* Reads the settings. Answers ACCEPTED, or 111, 112; then they are all zero. */
uint32_t obikuteru_log_settings(const uint8_t *log, size_t log_len,
                                struct obikuteru_settings *settings);

/* A part of lent bytes. */
struct obikuteru_part {
    uint64_t from;   /* its first byte's place */
    uint64_t length; /* 0: the part is empty, and `from` is 0 */
};

/* Where the note stands. Answers ACCEPTED, or 111, 112; then the part is empty. */
uint32_t obikuteru_log_note(const uint8_t *log, size_t log_len, struct obikuteru_part *note);

/* Answers of a replay, beside the refusals, in this order: 111, 112, 113, 103. */
#define OBIKUTERU_DISAGREES_VERDICT 1u
#define OBIKUTERU_DISAGREES_PROBABILITY 2u
#define OBIKUTERU_DISAGREES_BYTES 3u

/* What a replay found. After a refusal it is all zero. */
struct obikuteru_replayed {
    uint64_t record;      /* number of the first record that disagrees; accepted: of records */
    uint64_t refusal;     /* the rules' refusal of that call, 4 to 6; 0: they accept it */
    uint64_t verdict;     /* by the rules: an arrival's verdict, a departure's handle; else 0 */
    uint64_t probability; /* by the rules, after that call; accepted: after the last */
    uint64_t bytes;       /* likewise */
};

/*
 * Runs the rules from the log's settings over its calls. ACCEPTED where each record's verdict,
 * probability and bytes are theirs, else the first field that disagrees. The log is read whole
 * before. The tables are of exactly the log's slots; what they hold beforehand does not matter,
 * afterwards they hold what the rules wrote, the disagreeing call included.
 */
uint32_t obikuteru_replay(const uint8_t *log, size_t log_len, uint32_t *handles,
                          size_t handles_len, uint32_t *sizes, size_t sizes_len,
                          struct obikuteru_replayed *found);

/* Answers of a comparison, beside the refusals 111, 112 and 113. 0: the logs are equal. */
#define OBIKUTERU_SETTINGS_DIFFER 1u
#define OBIKUTERU_NOTES_DIFFER 2u
#define OBIKUTERU_RECORDS_DIFFER 3u
#define OBIKUTERU_FIRST_ENDS 4u  /* the first log is a proper beginning of the second */
#define OBIKUTERU_SECOND_ENDS 5u /* the second log is a proper beginning of the first */

struct obikuteru_compared {
    uint64_t whose;             /* refused: 1 first log, 2 second; one ends: the longer; else 0 */
    uint64_t record;            /* records shared: the number of the first that differs or is left;
                                   equal: of records; 0 where settings or notes differ, or refused */
    struct obikuteru_part part; /* the longer log's remaining records, in its bytes */
};

/* Compares two logs, each read whole before, the first's refusal ahead of the second's. */
uint32_t obikuteru_compare(const uint8_t *first, size_t first_len, const uint8_t *second,
                           size_t second_len, struct obikuteru_compared *found);

/*
 * The cable modem: a second kind of queue, DOCSIS-PIE (RFC 8034, Appendix A), for sixteen service
 * flows. docs/DOCSIS-PIE.md has its rules. Each flow, 0 to 15, is a queue of its own:
 *
 *   - a state record, struct obikuteru_modem_state;
 *   - a table of handles and a table of sizes, each of exactly `slots` 32-bit numbers.
 *
 * The flows of one modem share a table of counts, sixteen rows of five: row f counts the verdicts
 * on flow f's arrivals, at the places 0 to 4 of the answers (place 1 stays 0: nothing is marked
 * here). Each call is lent the table and names its flow. It reads that flow's row alone and
 * changes no other, so each flow answers as if it were the only one.
 *
 * What is said of the queue holds here too (units, memory, clock, random numbers, what a refused
 * call leaves), but for this:
 *   - Rates are bytes per second. Peak and sustained may be equal, or either the larger.
 *   - The table of counts needs no preparation: an accepted fresh sets its row to 0.
 *   - The table of counts is aligned to 8 bytes, and it belongs to one thread at a time together
 *     with all flows that use it.
 *   - The next tick is due at `last` + OBIKUTERU_MODEM_TICK_PERIOD.
 *   - `u` is compared with the probability scaled by size / 1,024, at most 0.85, and not at all
 *     while the flow is protected: from the early drop that makes a flow active, its arrivals are
 *     enqueued for 128,000 microseconds at least, or dropped for bytes or slots.
 *   - Save the table of counts with the records and their tables, and compare
 *     OBIKUTERU_MODEM_RECORD_VERSION and sizeof(struct obikuteru_modem_state).
 */
struct obikuteru_modem_state {
    uint64_t target;      /* target delay, 1,000 to 100,000 microseconds */
    uint64_t buffer;      /* most bytes that may be queued, 1 to 16,777,216 */
    uint64_t slots;       /* most packets that may be queued, 1 to 65,536 */
    uint64_t peak;        /* peak rate, 1 to 1,250,000,000 bytes per second */
    uint64_t sustained;   /* sustained rate, 1 to 1,250,000,000 bytes per second */
    uint64_t clock;       /* clock of the last accepted call, at most 2^48 */
    uint64_t last;        /* clock of the last accepted tick, or of fresh */
    uint64_t probability; /* drop probability, at most 58,411,555,225 (13.6) */
    uint64_t accumulated; /* scaled probabilities since the last drop, at most 36,507,222,016 */
    uint64_t old_delay;   /* queueing delay at the last tick, at most 10,000,000 */
    uint64_t allowance;   /* burst allowance that is left, at most 142,000; 0 unless active */
    uint64_t reset;       /* time that all was quiet, at most 1,000,000; 0 unless quiescent with
                             a probability of 0 */
    uint64_t activity;    /* 0 inactive, 1 quiescent, 2 active */
    uint64_t first;       /* place of the head in the tables */
    uint64_t count;       /* packets queued */
    uint64_t bytes;       /* bytes queued */
};

/* Raised whenever the layout or the meaning of the modem's state record changes. */
#define OBIKUTERU_MODEM_RECORD_VERSION 1u

/* The target delay for a flow that is given none: 10 ms. It is not put in for a target of 0. */
#define OBIKUTERU_MODEM_TARGET 10000u

/* Least time from one accepted tick of a flow to its next. */
#define OBIKUTERU_MODEM_TICK_PERIOD 16000u

/* Flows of a modem, and rows of its table of counts. */
#define OBIKUTERU_MODEM_FLOWS 16u

/*
 * Refusals of the modem's calls: 110, ahead of all others; then the queue's, the lowest first,
 * with these readings: 101 covers both rates, 102 and 108 the row of the flow too, 105 reads
 * 16,000. A refused call changes nothing, but that the packet of a refused departure is {0, 0} and
 * a refused fresh, 110 among them, writes an all-zero record, which every call refuses; the table
 * of counts stays as it was.
 */
#define OBIKUTERU_REFUSED_FLOW 110u /* the flow is above 15 */

/*
 * A fresh flow at `clock`: inactive, with no allowance. Answers ACCEPTED, 110 or 101. Where it is
 * accepted, the row of the flow is five zeros, whatever it held.
 */
uint32_t obikuteru_modem_fresh(struct obikuteru_modem_state *state, uint64_t counts[16][5],
                               uint32_t flow, uint64_t target, uint64_t buffer, uint64_t slots,
                               uint64_t peak, uint64_t sustained, uint64_t clock);

/*
 * A packet of `size` bytes arrives. `u`: a random number, uniform over all 32-bit numbers and
 * fresh for each arrival. Answers ENQUEUED, DROPPED_BYTES, DROPPED_SLOTS or DROPPED_EARLY, and
 * that count of the row rises by one; or 110, 102, 103, 104, 107, 108. Where the answer is
 * ENQUEUED, one element of each table was written; otherwise the caller drops the packet.
 */
uint32_t obikuteru_modem_arrival(struct obikuteru_modem_state *state, uint64_t counts[16][5],
                                 uint32_t flow, uint32_t *handles, size_t handles_len,
                                 uint32_t *sizes, size_t sizes_len, uint64_t clock,
                                 uint32_t handle, uint32_t size, uint32_t u);

/*
 * The head leaves: its handle and size are written to `packet`. Answers ACCEPTED or 110, 102, 103,
 * 104, 106, 109. Tables and counts are only read; the counts are not const, since C before C23
 * lends no plain array of arrays as const without a cast.
 */
uint32_t obikuteru_modem_departure(struct obikuteru_modem_state *state, uint64_t counts[16][5],
                                   uint32_t flow, const uint32_t *handles, size_t handles_len,
                                   const uint32_t *sizes, size_t sizes_len, uint64_t clock,
                                   struct obikuteru_packet *packet);

/*
 * The periodic update of probability, allowance and activity. `credits`: the bytes that may leave
 * at the peak rate now (RFC 8034's msrtokens). Answers ACCEPTED or 110, 102, 104, 105. The counts
 * are only read.
 */
uint32_t obikuteru_modem_tick(struct obikuteru_modem_state *state, uint64_t counts[16][5],
                              uint32_t flow, uint64_t clock, uint32_t credits);

/*
 * Whether a record with the flow's row is one that the calls accept (neither refusal 10 nor 2):
 * false for a flow above 15. Record and counts are only read.
 */
bool obikuteru_modem_well_formed(const struct obikuteru_modem_state *state,
                                 uint64_t counts[16][5], uint32_t flow);

/*
 * A burst of calls on one flow, in the numbers and by the rules of obikuteru_calls: calls as six
 * numbers each, answers aligned to 8 bytes. A tick's credits stand in `size`. A modem has no ECN: a
 * call of kind OBIKUTERU_CALL_ECN_ARRIVAL, or of a kind above OBIKUTERU_CALL_TICK, is answered
 * REFUSED_CALL, and nothing is changed. Arrivals raise counts of the flow's row.
 * The burst itself answers ACCEPTED also where every call in it is refused, for a flow above 15 (by
 * 110) or a damaged record (by 102): read the code of each answer.
 */
uint32_t obikuteru_modem_calls(struct obikuteru_modem_state *state, uint64_t counts[16][5],
                               uint32_t flow, uint32_t *handles, size_t handles_len,
                               uint32_t *sizes, size_t sizes_len, const uint32_t *calls,
                               size_t calls_len, uint64_t *answers, size_t answers_len);

/*
 * The pair: two queues in one pair of tables. docs/SHARED-TABLES.md has its rules. Queue 0 is the
 * intercom, queue 1 the passengers; each sheds load by itself, as a queue of obikuteru_fresh does.
 * A pair is five things that the caller owns and lends to each call:
 *
 *   - a shared record, struct obikuteru_shared;
 *   - a record of each queue, struct obikuteru_pair_queue: the intercom's, then the passengers';
 *   - a table of handles and a table of sizes, each of exactly `slots` 32-bit numbers.
 *
 * Each queue has a reserve of slots, which the other cannot take. What both reserves leave of the
 * slots is common: a queue takes from it where its count is at or above its reserve, first come,
 * first served. So a queue that never has more packets than its reserve is answered alike whatever
 * the other one does; only the places of its packets in the tables may differ.
 *
 * The slots are no ring: packets of both queues stand anywhere in the tables, each with a link to
 * the next one of its queue. A word of the table of sizes is a size in its low 16 bits and a link
 * above, and means nothing to the caller. A departure writes to that table too.
 *
 * What is said of the queue holds here too (units, memory, clock, ticks, random numbers, what a
 * refused call leaves), but for this:
 *   - All three records are lent to every call, apart from each other. A call changes the called
 *     queue's record and, where a packet enters or leaves, the shared one; never the other
 *     queue's. The whole pair belongs to one thread at a time.
 *   - Each queue has its own clock and its own ticks, due at its `last` + OBIKUTERU_TICK_PERIOD.
 *     The two clocks are never compared.
 *   - Neither queue can be made afresh alone: it would lose the slots that it holds.
 *   - A link is checked where it is followed: one that leads to no slot is refused. Damage that
 *     leads to another slot is not seen there, and may mix the queues.
 *   - Save the three records and both tables together, with OBIKUTERU_PAIR_VERSION and the sizes of
 *     both structs.
 *   - After 108 let both queues run empty, then start afresh. After 109 the handles of a queue
 *     stand in the table at `head` and then, `count` of them in all, each at the link of the one
 *     before, sizes[place] >> 16; what damaged one link may have damaged others. An arrival that
 *     is refused by 109 met a damaged free slot: departures go on, so let both queues run empty and
 *     start afresh. After 102, as for the queue, only the caller's own books can say what is queued.
 */
struct obikuteru_shared {
    uint64_t slots;      /* slots of the tables, 1 to 65,536 */
    uint64_t reserve[2]; /* slots reserved for each queue; together at most `slots` */
    uint64_t used;       /* slots from this place on were never taken */
    uint64_t freed;      /* the first of the freed slots, if there is one */
    uint64_t spare;      /* how many slots are freed; with both counts they make `used` */
};

struct obikuteru_pair_queue {
    uint64_t target;      /* target delay, 1,000 to 100,000 microseconds */
    uint64_t buffer;      /* most bytes that may be queued, 1 to 16,777,216 */
    uint64_t clock;       /* clock of this queue's last accepted call, at most 2^48 */
    uint64_t last;        /* clock of its last accepted tick, or of fresh */
    uint64_t probability; /* drop probability, 0 to 2^32 */
    uint64_t old_delay;   /* queueing delay at the last tick, at most 10,000,000 */
    uint64_t allowance;   /* burst allowance that is left, at most 150,000 */
    uint64_t accumulated; /* probabilities since the last early verdict, below 36,507,222,016 */
    uint64_t average;     /* average time for 16,384 bytes to leave; 0: none measured yet */
    uint64_t measuring;   /* not 0: a measurement of the departure rate runs; 0 where count is 0 */
    uint64_t start;       /* clock at which it started; 0 if none runs */
    uint64_t counted;     /* bytes that have left since, below 16,384; 0 if none runs */
    uint64_t count;       /* packets queued */
    uint64_t bytes;       /* bytes queued */
    uint64_t head;        /* place of the first packet, if there is one */
    uint64_t tail;        /* place of the last packet, if there is one */
    uint64_t verdicts[5]; /* arrivals answered 0 to 4; their sum is at most 2^48 */
};

/* Raised whenever the layout or the meaning of one of the pair's records changes. */
#define OBIKUTERU_PAIR_VERSION 1u

/* Which queue a call is for: its argument `second`. */
#define OBIKUTERU_INTERCOM false
#define OBIKUTERU_PASSENGERS true

/*
 * A call of the pair answers as the queue's does, with these readings: 101 covers both queues'
 * settings, and reserves that sum above the slots; 102 covers all three records, whichever queue
 * is called; 103 reads the shared slots; 104, 105, 106 and 108 read the called queue; 109 covers a
 * link that leads to no slot too. Where several apply, the lowest is given. A refused call changes
 * nothing, but that the packet of a refused departure is {0, 0} and a refused fresh writes three
 * all-zero records, which every call refuses.
 */

/*
 * A fresh pair: slots, then target, buffer, reserve and clock of the intercom, and of the
 * passengers. A reserve may be 0, or all the slots. Answers ACCEPTED or 101. The tables need no
 * preparation.
 */
uint32_t obikuteru_pair_fresh(struct obikuteru_shared *shared,
                              struct obikuteru_pair_queue *intercom,
                              struct obikuteru_pair_queue *passengers, uint64_t slots,
                              uint64_t target0, uint64_t buffer0, uint64_t reserve0,
                              uint64_t clock0, uint64_t target1, uint64_t buffer1,
                              uint64_t reserve1, uint64_t clock1);

/*
 * The library's own entries for a call on one queue: they take the called queue's record and then
 * the other one's, which is only read; `second` says that `own` is the passengers' (its reserve is
 * reserve[1]). Call them by the three functions below, which pick the two.
 */
uint32_t obikuteru_pair_arrival_of(struct obikuteru_shared *shared,
                                   struct obikuteru_pair_queue *own,
                                   const struct obikuteru_pair_queue *other, bool second,
                                   uint32_t *handles, size_t handles_len, uint32_t *sizes,
                                   size_t sizes_len, uint64_t clock, uint32_t handle,
                                   uint32_t size, bool ecn, uint32_t u);
uint32_t obikuteru_pair_departure_of(struct obikuteru_shared *shared,
                                     struct obikuteru_pair_queue *own,
                                     const struct obikuteru_pair_queue *other, bool second,
                                     const uint32_t *handles, size_t handles_len, uint32_t *sizes,
                                     size_t sizes_len, uint64_t clock,
                                     struct obikuteru_packet *packet);
uint32_t obikuteru_pair_tick_of(const struct obikuteru_shared *shared,
                                struct obikuteru_pair_queue *own,
                                const struct obikuteru_pair_queue *other, bool second,
                                uint64_t clock);

/*
 * For the functions below: `b` where `second` says so, else `a`. It has no branch: which queue a call
 * names is often beyond a processor's guess, and a wrong guess costs a tenth of a call.
 */
static inline struct obikuteru_pair_queue *obikuteru_pair_chosen(struct obikuteru_pair_queue *a,
                                                                 struct obikuteru_pair_queue *b,
                                                                 bool second)
{
    struct obikuteru_pair_queue *const queues[2] = {a, b};
    return queues[second];
}

/*
 * A packet of `size` bytes arrives at a queue. Answers a verdict, or 102, 103, 104, 107, 108 or
 * 109, the last only for a packet that would be enqueued or marked. DROPPED_SLOTS: the queue's
 * reserve and the common slots are taken. Where the answer is ENQUEUED or MARKED, one element of
 * handles was written and one of sizes, or two where a packet was queued before it.
 */
static inline uint32_t obikuteru_pair_arrival(
    struct obikuteru_shared *shared, struct obikuteru_pair_queue *intercom,
    struct obikuteru_pair_queue *passengers, bool second, uint32_t *handles, size_t handles_len,
    uint32_t *sizes, size_t sizes_len, uint64_t clock, uint32_t handle, uint32_t size, bool ecn,
    uint32_t u)
{
    return obikuteru_pair_arrival_of(shared, obikuteru_pair_chosen(intercom, passengers, second),
                                     obikuteru_pair_chosen(passengers, intercom, second), second,
                                     handles, handles_len, sizes, sizes_len, clock, handle, size,
                                     ecn, u);
}

/*
 * The head of a queue leaves: its handle and size are written to `packet`. Answers ACCEPTED or 102,
 * 103, 104, 106, 109. Handles are only read; one element of sizes was written where it is accepted.
 */
static inline uint32_t obikuteru_pair_departure(
    struct obikuteru_shared *shared, struct obikuteru_pair_queue *intercom,
    struct obikuteru_pair_queue *passengers, bool second, const uint32_t *handles,
    size_t handles_len, uint32_t *sizes, size_t sizes_len, uint64_t clock,
    struct obikuteru_packet *packet)
{
    return obikuteru_pair_departure_of(shared, obikuteru_pair_chosen(intercom, passengers, second),
                                       obikuteru_pair_chosen(passengers, intercom, second), second,
                                       handles, handles_len, sizes, sizes_len, clock, packet);
}

/*
 * The periodic update of one queue. Answers ACCEPTED or 102, 104, 105. The shared record is only
 * read.
 */
static inline uint32_t obikuteru_pair_tick(const struct obikuteru_shared *shared,
                                           struct obikuteru_pair_queue *intercom,
                                           struct obikuteru_pair_queue *passengers, bool second,
                                           uint64_t clock)
{
    return obikuteru_pair_tick_of(shared, obikuteru_pair_chosen(intercom, passengers, second),
                                  obikuteru_pair_chosen(passengers, intercom, second), second,
                                  clock);
}

/* Whether the three records are ones that the calls accept (not refusal 2). */
bool obikuteru_pair_well_formed(const struct obikuteru_shared *shared,
                                const struct obikuteru_pair_queue *intercom,
                                const struct obikuteru_pair_queue *passengers);

/*
 * A burst of calls on a pair, in the numbers and by the rules of obikuteru_calls; CALL_PASSENGERS
 * is added to the kind of a call on the passengers' queue. The three records are tested once.
 */
#define OBIKUTERU_CALL_PASSENGERS 4u

uint32_t obikuteru_pair_calls(struct obikuteru_shared *shared,
                              struct obikuteru_pair_queue *intercom,
                              struct obikuteru_pair_queue *passengers, uint32_t *handles,
                              size_t handles_len, uint32_t *sizes, size_t sizes_len,
                              const uint32_t *calls, size_t calls_len, uint64_t *answers,
                              size_t answers_len);

/*
 * 64 flows in one pair of tables: FQ-PIE. docs/SHARED-TABLES.md has its rules. Each flow sheds load
 * by itself, with a PIE state of its own, and they are served in turn (deficit round robin, a
 * quantum of 1,514 bytes), so that one sender's flood is shed from its own flow. A set of flows is
 * three things that the caller owns and lends to each call:
 *
 *   - a record, struct obikuteru_fq;
 *   - a table of handles and a table of sizes, each of exactly `slots` 32-bit numbers.
 *
 * A packet's flow is a hash of its key: 13 bytes, source and destination address, 4 each, source
 * and destination port, 2 each, and protocol, 1, in whatever order of bytes the caller keeps to.
 * The salt is added to the hash and moves all flows alike. So two keys share a flow whatever the
 * salt is, or never do: what is kept apart are flows, not senders who choose to share one.
 *
 * What is said of the queue and of the pair's tables holds here too, but for this:
 *   - One clock and one tick serve all flows. A tick updates all 64.
 *   - Bytes and slots are shared: the bytes of all flows are held to the buffer, and the packets of
 *     all to the slots.
 *   - A departure chooses the flow; the answer names it.
 *   - Every single call tests the whole record, 64 flows and both lists; a burst tests it once.
 *   - Save the record and both tables together, with OBIKUTERU_FQ_VERSION and its size.
 *   - After 108, and after an arrival's 109, let the flows run empty, then start afresh. After a
 *     departure's 109 the handles of a flow stand in the table as those of a pair's queue do.
 */
struct obikuteru_flow {
    uint64_t probability; /* as in struct obikuteru_pair_queue, down to `tail` */
    uint64_t old_delay;
    uint64_t allowance;
    uint64_t accumulated;
    uint64_t average;
    uint64_t measuring;
    uint64_t start;
    uint64_t counted;
    uint64_t count; /* packets of this flow */
    uint64_t bytes; /* bytes of this flow */
    uint64_t head;
    uint64_t tail;
};

struct obikuteru_fq {
    uint64_t target;      /* target delay, 1,000 to 100,000 microseconds */
    uint64_t buffer;      /* most bytes that may be queued, 1 to 16,777,216 */
    uint64_t slots;       /* slots of the tables, 1 to 65,536 */
    uint64_t salt;        /* added to the hash of a key, below 2^32 */
    uint64_t clock;       /* clock of the last accepted call, at most 2^48 */
    uint64_t last;        /* clock of the last accepted tick, or of fresh */
    uint64_t count;       /* packets of all flows */
    uint64_t bytes;       /* bytes of all flows */
    uint64_t used;        /* slots from this place on were never taken */
    uint64_t freed;       /* the first of the freed slots, if there is one */
    uint64_t spare;       /* how many slots are freed; with `count` they make `used` */
    uint64_t verdicts[5]; /* arrivals answered 0 to 4; their sum is at most 2^48 */
    uint64_t first;       /* place in `order` of the first flow, below 64 */
    uint64_t old;         /* flows in the old list: at `first` and on, around the end */
    uint64_t listed;      /* flows in both lists: the new list stands behind the old one */
    uint64_t order[64];   /* the lists' flows, 0 to 63, each at most once */
    struct obikuteru_flow flow[64];
    uint32_t deficits[64]; /* each flow's deficit and 65,535: 0 to 67,049 */
};

/* Raised whenever the layout or the meaning of the record changes. */
#define OBIKUTERU_FQ_VERSION 1u

/* What a departure hands out. */
struct obikuteru_flow_packet {
    uint32_t flow;
    uint32_t handle;
    uint32_t size;
};

/*
 * A call answers as the queue's does, with these readings: 102 covers totals, lists and deficits
 * too; 106 is that no flow holds a packet; 109 covers a link that leads to no slot too, and may
 * be given to an arrival. A refused call changes nothing, but that the packet of a refused
 * departure is {0, 0, 0} and a refused fresh writes an all-zero record, which every call refuses.
 */

/* The flow, 0 to 63, of a packet with this key. */
uint32_t obikuteru_fq_flow(const uint8_t key[13], uint32_t salt);

/*
 * The library's own entries: they take the record in its parts, 19 words, the order, the flows'
 * 768 words and the deficits; a packet is three numbers: flow, handle, size. Call them by the
 * functions below.
 */
uint32_t obikuteru_fq_fresh_of(uint64_t *common, uint64_t *order, uint64_t *flows,
                               uint32_t *deficits, uint64_t target, uint64_t buffer,
                               uint64_t slots, uint32_t salt, uint64_t clock);
uint32_t obikuteru_fq_arrival_of(uint64_t *common, uint64_t *order, uint64_t *flows,
                                 uint32_t *deficits, uint32_t *handles, size_t handles_len,
                                 uint32_t *sizes, size_t sizes_len, uint64_t clock,
                                 const uint8_t *key, uint32_t handle, uint32_t size, bool ecn,
                                 uint32_t u);
uint32_t obikuteru_fq_departure_of(uint64_t *common, uint64_t *order, uint64_t *flows,
                                   uint32_t *deficits, const uint32_t *handles,
                                   size_t handles_len, uint32_t *sizes, size_t sizes_len,
                                   uint64_t clock, uint32_t *packet);
uint32_t obikuteru_fq_tick_of(uint64_t *common, const uint64_t *order, uint64_t *flows,
                              const uint32_t *deficits, uint64_t clock);
bool obikuteru_fq_well_formed_of(const uint64_t *common, const uint64_t *order,
                                 const uint64_t *flows, const uint32_t *deficits);

/*
 * Fresh flows: nothing queued, every allowance full. The salt is any number of 32 bits. Answers
 * ACCEPTED or 101. The tables need no preparation.
 */
static inline uint32_t obikuteru_fq_fresh(struct obikuteru_fq *fq, uint64_t target,
                                          uint64_t buffer, uint64_t slots, uint32_t salt,
                                          uint64_t clock)
{
    return obikuteru_fq_fresh_of(&fq->target, fq->order, &fq->flow[0].probability, fq->deficits,
                                 target, buffer, slots, salt, clock);
}

/*
 * A packet with this key, of `size` bytes, arrives. Answers a verdict, or 102, 103, 104, 107, 108
 * or 109, the last only for a packet that would be enqueued or marked.
 */
static inline uint32_t obikuteru_fq_arrival(struct obikuteru_fq *fq, uint32_t *handles,
                                            size_t handles_len, uint32_t *sizes,
                                            size_t sizes_len, uint64_t clock,
                                            const uint8_t key[13], uint32_t handle,
                                            uint32_t size, bool ecn, uint32_t u)
{
    return obikuteru_fq_arrival_of(&fq->target, fq->order, &fq->flow[0].probability, fq->deficits,
                                   handles, handles_len, sizes, sizes_len, clock, key, handle,
                                   size, ecn, u);
}

/*
 * The packet that is served next leaves: its flow, handle and size are written to `packet`.
 * Answers ACCEPTED or 102, 103, 104, 106, 109.
 */
static inline uint32_t obikuteru_fq_departure(struct obikuteru_fq *fq, const uint32_t *handles,
                                              size_t handles_len, uint32_t *sizes,
                                              size_t sizes_len, uint64_t clock,
                                              struct obikuteru_flow_packet *packet)
{
    return obikuteru_fq_departure_of(&fq->target, fq->order, &fq->flow[0].probability,
                                     fq->deficits, handles, handles_len, sizes, sizes_len, clock,
                                     &packet->flow);
}

/* The periodic update of all flows. Answers ACCEPTED or 102, 104, 105. */
static inline uint32_t obikuteru_fq_tick(struct obikuteru_fq *fq, uint64_t clock)
{
    return obikuteru_fq_tick_of(&fq->target, fq->order, &fq->flow[0].probability, fq->deficits,
                                clock);
}

/* Whether the record is one that the calls accept (not refusal 2). */
static inline bool obikuteru_fq_well_formed(const struct obikuteru_fq *fq)
{
    return obikuteru_fq_well_formed_of(&fq->target, fq->order, &fq->flow[0].probability,
                                       fq->deficits);
}

/*
 * A burst of calls on 64 flows, by the rules of obikuteru_calls, with structs of its own: a call has
 * its key, an answer its flow. Testing the record is most of a single call's work, so that a call in
 * a burst of 8 costs a quarter.
 */
struct obikuteru_fq_call {
    uint64_t clock;
    uint32_t handle; /* arrivals */
    uint32_t size;   /* arrivals */
    uint32_t u;      /* arrivals: a random number, fresh for each */
    uint32_t kind;   /* as in struct obikuteru_call */
    uint8_t key[13]; /* arrivals */
    uint8_t unused[3]; /* not read */
};

/* What a call is answered. */
struct obikuteru_fq_answer {
    uint8_t code;    /* the single entry's answer */
    uint8_t flow;    /* of the packet that departed, else 0 */
    uint16_t size;   /* likewise */
    uint32_t handle; /* likewise */
};

/*
 * The library's own entry: calls are ten 32-bit numbers each, in the order of struct
 * obikuteru_fq_call, the clock's low half and each key number's low byte first; answers are one
 * word each, code + 256 * flow + 65,536 * size + 2^32 * handle. Answers ACCEPTED, or REFUSED_CALL
 * with nothing done where `calls_len` is not 10 * `answers_len`.
 */
uint32_t obikuteru_fq_calls_of(uint64_t *common, uint64_t *order, uint64_t *flows,
                               uint32_t *deficits, uint32_t *handles, size_t handles_len,
                               uint32_t *sizes, size_t sizes_len, const uint32_t *calls,
                               size_t calls_len, uint64_t *answers, size_t answers_len);

/*
 * n calls, answered in `answers`, which is aligned to 8 bytes. On a little-endian machine both
 * structs stand in memory as the entry takes them. Answers ACCEPTED.
 */
static inline uint32_t obikuteru_fq_calls(struct obikuteru_fq *fq, uint32_t *handles,
                                          size_t handles_len, uint32_t *sizes, size_t sizes_len,
                                          const struct obikuteru_fq_call *calls,
                                          struct obikuteru_fq_answer *answers, size_t n)
{
    return obikuteru_fq_calls_of(&fq->target, fq->order, &fq->flow[0].probability, fq->deficits,
                                 handles, handles_len, sizes, sizes_len, (const uint32_t *)calls,
                                 10 * n, (uint64_t *)(void *)answers, n);
}

#ifdef __cplusplus
}
#endif

#endif
