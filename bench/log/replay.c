/* The rules of ring/plain.c over the recorded calls, after the log has been read whole. */
#include "plain.h"

#include "../ring/plain.h"

#include <string.h>

struct queue {
    struct plain_state state;
    uint32_t *handles;
    uint32_t *sizes;
    size_t slots;
};

/* Makes the recorded call: its refusal or 0, and the verdict by the rules. */
static uint32_t make_call(struct queue *q, const struct plain_record *r, uint32_t *verdict)
{
    struct plain_packet packet;
    uint32_t answer;
    *verdict = 0;
    if (r->kind == 'a') {
        answer = plain_arrival(&q->state, q->handles, q->slots, q->sizes, q->slots, r->clock,
                               r->handle, r->size, r->ecn != 0, r->u);
        if (100 < answer)
            return answer - 100;
        *verdict = answer;
        return 0;
    }
    if (r->kind == 'd') {
        answer = plain_departure(&q->state, q->handles, q->slots, q->sizes, q->slots, r->clock,
                                 &packet);
        *verdict = packet.handle;
    } else {
        answer = plain_tick(&q->state, r->clock);
    }
    return answer == 0 ? 0 : answer - 100;
}

/* The first field in which a record is not what the rules gave; 0 where all agree. */
static uint32_t disagreement(const struct plain_state *s, const struct plain_record *r,
                             uint32_t refusal, uint32_t verdict)
{
    if (refusal != 0 || verdict != r->verdict)
        return PLAIN_DISAGREES_VERDICT;
    if (s->probability != r->probability)
        return PLAIN_DISAGREES_PROBABILITY;
    return s->bytes != r->bytes ? PLAIN_DISAGREES_BYTES : 0;
}

/* The recorded calls from the first to the first that disagrees. */
static uint32_t run(struct queue *q, const uint8_t *records, uint32_t count,
                    struct plain_replayed *found)
{
    uint32_t verdict = 0, refusal = 0, field = 0, i = 0;
    for (; i < count; i++) {
        struct plain_record r;
        memcpy(&r, records + PLAIN_RECORD * (size_t)i, sizeof r);
        refusal = make_call(q, &r, &verdict);
        field = disagreement(&q->state, &r, refusal, verdict);
        if (field != 0)
            break;
    }
    found->record = i;
    found->refusal = refusal;
    found->verdict = field == 0 ? 0 : verdict;
    found->probability = q->state.probability;
    found->bytes = q->state.bytes;
    return field;
}

uint32_t plain_replay(const uint8_t *log, size_t log_len, uint32_t *handles, size_t handles_len,
                      uint32_t *sizes, size_t sizes_len, struct plain_replayed *found)
{
    struct plain_log records;
    struct plain_settings settings;
    struct queue q = {.handles = handles, .sizes = sizes};
    uint32_t answer = plain_log_check(log, log_len, &records);
    memset(found, 0, sizeof *found);
    if (answer != 0)
        return answer; /* 11, 12, 13 */
    memcpy(&settings, log, sizeof settings);
    if (handles_len != settings.slots || sizes_len != settings.slots)
        return PLAIN_REFUSED_TABLES; /* 3 */
    q.slots = settings.slots;
    plain_fresh(&q.state, (uint32_t)settings.target, settings.buffer, settings.slots, settings.profile,
                settings.clock);
    return run(&q, log + records.offset, records.count, found);
}
