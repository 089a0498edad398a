#include "recording.h"

#include "../shared/say.h"
#include "../shared/write_whole.h"

#include <inttypes.h>
#include <string.h>

static uint8_t bytes[OBIKUTERU_LOG_MOST];
static struct obikuteru_log log_state;
static uint64_t lacking; /* calls for which the log had no room */

bool begin_recording(uint64_t target, uint32_t buffer, uint32_t slots, uint8_t profile, const char *note)
{
    struct obikuteru_settings settings = {.target = target, .buffer = buffer, .slots = slots, .profile = profile};

    return !obikuteru_refused(
        obikuteru_log_begin(&log_state, &settings, (const uint8_t *)note, strlen(note), bytes, sizeof bytes));
}

void record_call(struct obikuteru_record record)
{
    lacking += obikuteru_log_add(&log_state, &record, bytes, sizeof bytes) == OBIKUTERU_REFUSED_ROOM;
}

bool write_recording(const char *name)
{
    if (log_state.offset == 0)
        return true;
    if (lacking > 0)
        say("the log '%s' is full: it holds the first %" PRIu32 " calls and lacks %" PRIu64 ".", name, log_state.count, lacking);
    return write_whole(name, bytes, obikuteru_log_length(&log_state));
}
