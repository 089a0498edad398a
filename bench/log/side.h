/*
 * One implementation of the log on the bench: the loops that are timed, the same text for each.
 * Included once for each implementation, with these defined:
 *
 *   SIDE(name)   a name in this file        CALL(name)   the measured call of that name
 *   TYPE(name)   its record of that name
 *
 * The calls are direct, into object files of their own: none is inlined into a loop. Each returns
 * a sum of the answers, so that none can be left out.
 */
static struct TYPE(log) SIDE(log);
/* Page by page at the same places for each side, and a record half a page from where it is written
 * to: a processor takes a load that follows a store at the same place of another page for its own. */
static _Alignas(PAGE) struct TYPE(record) SIDE(records)[RECORDS];
static _Alignas(PAGE) uint8_t SIDE(room)[PAGE / 2 + LONGEST];
static _Alignas(PAGE) uint32_t SIDE(handles)[MOST_SLOTS];
static _Alignas(PAGE) uint32_t SIDE(sizes)[MOST_SLOTS];
static uint8_t *const SIDE(bytes) = SIDE(room) + PAGE / 2;
static struct TYPE(replayed) SIDE(replayed);
static struct TYPE(compared) SIDE(compared);

/* An empty log, and the records to add. */
static uint32_t SIDE(begin)(void)
{
    struct TYPE(settings) settings;
    memcpy(&settings, first_log, sizeof settings);
    memcpy(SIDE(records), first_log + sizeof settings, sizeof SIDE(records));
    return CALL(log_begin)(&SIDE(log), &settings, first_log, 0, SIDE(bytes), LONGEST);
}

static uint64_t SIDE(add)(size_t from, size_t n)
{
    uint64_t sum = 0;
    for (size_t i = from; i < from + n; i++)
        sum += CALL(log_add)(&SIDE(log), &SIDE(records)[i], SIDE(bytes), LONGEST);
    return sum;
}

static const uint8_t *SIDE(written)(void)
{
    return SIDE(bytes);
}

static uint64_t SIDE(replay)(void)
{
    size_t slots = stream->slots;
    return CALL(replay)(first_log, LONGEST, SIDE(handles), slots, SIDE(sizes), slots, &SIDE(replayed))
        + SIDE(replayed).record;
}

static uint64_t SIDE(compare)(void)
{
    return CALL(compare)(first_log, LONGEST, second_log, LONGEST, &SIDE(compared))
        + SIDE(compared).record;
}

#undef SIDE
#undef CALL
#undef TYPE
