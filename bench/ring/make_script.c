/* make_script STREAM N: a script of N lines with the events of a stream, to standard output. */
#include <inttypes.h>
#include <stdio.h>
#include <stdlib.h>

#include "events.h"

static void print_event(const struct event *e)
{
    if (e->kind == ARRIVAL)
        printf("a %" PRIu64 " %" PRIu32 " %u %u %" PRIu32 "\n", e->clock, e->handle, e->size,
               e->ecn, e->u);
    else
        printf("%c %" PRIu64 "\n", e->kind == DEPARTURE ? 'd' : 't', e->clock);
}

int main(int argc, char **argv)
{
    const struct stream *stream = argc == 3 ? find_stream(argv[1]) : NULL;
    size_t lines = argc == 3 ? strtoull(argv[2], NULL, 10) : 0;
    if (stream == NULL || stream->profile != 0 || lines < 2 || 100000000 < lines) {
        fprintf(stderr, "make_script: give a plain stream (varied or full) and a number of lines from 2 "
                        "to 100,000,000.\n");
        return 1;
    }
    struct event *events = malloc((lines - 1) * sizeof *events);
    if (events == NULL) {
        fprintf(stderr, "make_script: not enough memory for %zu events.\n", lines - 1);
        return 1;
    }
    make_events(stream, events, lines - 1);
    printf("c %u %u %u\n", stream->target, stream->buffer, stream->slots);
    for (size_t i = 0; i < lines - 1; i++)
        print_event(&events[i]);
    free(events);
    return fflush(stdout) == 0 ? 0 : 1;
}
