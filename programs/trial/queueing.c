#include "queueing.h"

struct outcome outcome;

bool note_arrival(uint32_t answer, int number)
{
    outcome.arrived++;
    outcome.refused += obikuteru_refused(answer);
    outcome.marked += answer == OBIKUTERU_MARKED;
    outcome.dropped_early += answer == OBIKUTERU_DROPPED_EARLY;
    outcome.dropped_full += answer == OBIKUTERU_DROPPED_BYTES || answer == OBIKUTERU_DROPPED_SLOTS;
    if (answer == OBIKUTERU_MARKED)
        mark_packet(number);
    if (answer != OBIKUTERU_ENQUEUED && answer != OBIKUTERU_MARKED) {
        outcome.voice_dropped += is_voice(number);
        return false;
    }
    outcome.admitted++;
    return true;
}
