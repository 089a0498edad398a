/* The streams of events of a kind, which has its own struct event and struct stream in its events.h. */
#ifndef STREAMS_H
#define STREAMS_H

#include "answers.h"

#define COUNT(array) (sizeof(array) / sizeof *(array))

enum kind { ARRIVAL, DEPARTURE, TICK, KINDS };

struct event;
struct stream;

/* The stream of this name, or NULL. */
const struct stream *find_stream(const char *name);

/* The first n events of a stream, always the same. */
void make_events(const struct stream *stream, struct event *events, size_t n);

/* The kind of an event as a call of a burst. */
static inline uint32_t burst_kind(uint32_t kind, bool ecn)
{
    return kind == ARRIVAL ? (ecn ? PLAIN_ECN_ARRIVAL : PLAIN_ARRIVAL)
         : kind == DEPARTURE ? PLAIN_DEPARTURE
         : PLAIN_TICK;
}

#endif
