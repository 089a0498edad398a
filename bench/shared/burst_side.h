/*
 * One implementation of a kind's bursts on the bench. Included once for each, with these defined:
 *
 *   SIDE(name)   a name in this file        CALL(name)   the call of that name that starts a queue
 *   ENTRY        its burst                  STATE        its record, if that is not plain C's but the
 *                                                        library's
 */
#ifdef STATE
#define READ(state) library_record(state)
#define RUN LIBRARY_RUN
#else
#define STATE RECORD
#define READ(state) (state)
#define RUN PLAIN_RUN
#endif

static STATE SIDE(queues)[QUEUES];
static uint32_t SIDE(handles)[QUEUES][MOST_SLOTS];
static uint32_t SIDE(sizes)[QUEUES][MOST_SLOTS];
static uint64_t SIDE(counts)[QUEUES][5]; /* not touched where the records have them */

static void SIDE(fresh)(void)
{
    for (uint32_t q = 0; q < QUEUES; q++)
        START(&SIDE(queues)[q], SIDE(counts), q);
}

static void SIDE(burst)(uint32_t q, const BURST_CALL *calls, BURST_ANSWER *answers, size_t n)
{
    size_t slots = stream->slots;
    RUN(ENTRY, &SIDE(queues)[q], SIDE(counts), q, SIDE(handles)[q], SIDE(sizes)[q], calls, answers,
        n);
}

static struct left SIDE(left)(uint32_t q)
{
    return (struct left){READ(SIDE(queues)[q]), SIDE(handles)[q], SIDE(sizes)[q], SIDE(counts)[q]};
}

#undef SIDE
#undef CALL
#undef ENTRY
#undef STATE
#undef READ
#undef RUN
