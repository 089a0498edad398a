#include "walk.h"

static uint32_t handles[MOST_SLOTS], sizes[MOST_SLOTS];
static uint64_t full_since; /* clock at which the allowance was last full */
static bool fading;         /* the ticks in succession found the queue empty with a probability above 0 */

static void note_arrival(struct walk *walk, const struct obikuteru_record *call, uint32_t answer)
{
    if (obikuteru_refused(answer))
        return;
    column_at(&walk->columns, call->clock)->verdicts[answer]++;
    if (answer == OBIKUTERU_ENQUEUED || answer == OBIKUTERU_MARKED)
        walk->bytes_in += call->size;
    if (answer == OBIKUTERU_MARKED || answer == OBIKUTERU_DROPPED_EARLY) {
        uint64_t passed = call->clock - full_since;

        walk->early++;
        if (!walk->allowance_ran || passed < walk->soonest_early)
            walk->soonest_early = passed;
        walk->allowance_ran = true;
    }
}

/* Ticks in succession on an empty queue, and how many of them it took to bring the probability to 0. */
static void note_fading(struct walk *walk, uint64_t probability_before)
{
    if (walk->state.count > 0) {
        walk->empty_ticks = 0;
        fading = false;
        return;
    }
    if (walk->empty_ticks == 0)
        fading = probability_before > 0;
    walk->empty_ticks++;
    if (fading && walk->state.probability == 0) {
        if (walk->empty_ticks > walk->longest_fade)
            walk->longest_fade = walk->empty_ticks;
        fading = false;
    }
}

static void note_tick(struct walk *walk, uint64_t clock, const struct obikuteru_state *before)
{
    struct column *column = column_at(&walk->columns, clock);
    uint64_t late = clock - (before->last + OBIKUTERU_TICK_PERIOD);

    walk->ticks++;
    walk->late_ticks += late > 1000;
    if (!column->ticked || late > column->latest)
        column->latest = late;
    column->ticked = true;
    if (walk->state.allowance == 150000)
        full_since = clock;
    note_fading(walk, before->probability);
}

static void make_call(struct walk *walk, const struct obikuteru_record *call)
{
    struct obikuteru_state before = walk->state;
    size_t slots = (size_t)before.slots;
    struct obikuteru_packet packet;

    if (call->kind == 'a') {
        note_arrival(walk, call,
                     obikuteru_arrival(&walk->state, handles, slots, sizes, slots, call->clock, call->handle, call->size,
                                       call->ecn != 0, call->u));
    } else if (call->kind == 'd') {
        if (!obikuteru_refused(obikuteru_departure(&walk->state, handles, slots, sizes, slots, call->clock, &packet))) {
            walk->departures++;
            walk->bytes_out += packet.size;
        }
    } else if (!obikuteru_refused(obikuteru_tick(&walk->state, call->clock))) {
        note_tick(walk, call->clock, &before);
    }
}

static void see_state(struct walk *walk)
{
    const struct obikuteru_state *state = &walk->state;
    const uint64_t values[SERIES] = {
        [BYTES] = state->bytes, [DELAY] = state->old_delay, [PROBABILITY] = state->probability, [ALLOWANCE] = state->allowance};

    see(&walk->columns, state->clock, values);
}

/* The greatest clock of the log's records. */
static uint64_t last_clock(const uint8_t *log, size_t length, uint64_t start)
{
    struct obikuteru_record record;
    uint64_t place = 0, greatest = start;

    while (obikuteru_log_read(log, length, &place, &record) == OBIKUTERU_ACCEPTED)
        if (record.clock > greatest)
            greatest = record.clock;
    return greatest;
}

void walk_log(struct walk *walk, const uint8_t *log, size_t length, uint64_t last)
{
    struct obikuteru_settings settings;
    struct obikuteru_record record;
    uint64_t place = 0;

    obikuteru_log_settings(log, length, &settings);
    obikuteru_fresh(&walk->state, settings.target, settings.buffer, settings.slots, settings.profile, settings.clock);
    walk->columns.from = full_since = settings.clock;
    walk->columns.until = last_clock(log, length, settings.clock);
    see_state(walk);
    while (place <= last && obikuteru_log_read(log, length, &place, &record) == OBIKUTERU_ACCEPTED) {
        make_call(walk, &record);
        see_state(walk);
        walk->records++;
    }
}
