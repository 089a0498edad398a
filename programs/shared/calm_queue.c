#include "calm_queue.h"

enum { SLOTS_MOST = 4096 };

static struct obikuteru_state queue;
static uint32_t handles[SLOTS_MOST], sizes[SLOTS_MOST];

bool start_calm_queue(const struct obikuteru_settings *settings)
{
    return !obikuteru_refused(
        obikuteru_fresh(&queue, settings->target, settings->buffer, settings->slots, OBIKUTERU_CALM, settings->clock));
}

bool ask_calm_queue(struct obikuteru_record *record)
{
    struct obikuteru_packet packet = {0, 0};
    uint32_t answer;

    if (record->kind == 'a')
        answer = obikuteru_arrival(&queue, handles, queue.slots, sizes, queue.slots, record->clock, record->handle,
                                   record->size, record->ecn == 1, record->u);
    else if (record->kind == 'd')
        answer = obikuteru_departure(&queue, handles, queue.slots, sizes, queue.slots, record->clock, &packet);
    else
        answer = obikuteru_tick(&queue, record->clock);
    if (obikuteru_refused(answer))
        return false;
    record->verdict = record->kind == 'a' ? answer : packet.handle;
    record->probability = queue.probability;
    record->bytes = (uint32_t)queue.bytes;
    return true;
}
