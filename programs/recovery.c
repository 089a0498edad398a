/*
 * recovery TARGET: how many ticks in succession on an empty queue suffice for a queue of this target
 * to recover, and the seconds that they take where every tick is punctual.
 */
#include "shared/say.h"

#include <obikuteru.h>

#include <inttypes.h>
#include <stdbool.h>
#include <stdio.h>
#include <string.h>

/* Whether the text is a plain decimal number; one above 100,000,000 is read as some number above it. */
static bool read_number(const char *text, uint64_t *number)
{
    if (*text == '\0' || strspn(text, "0123456789") != strlen(text))
        return false;
    for (*number = 0; *text != '\0'; text++)
        if (*number <= 100000000)
            *number = 10 * *number + (uint64_t)(*text - '0');
    return true;
}

int main(int argc, char **argv)
{
    uint64_t target, ticks, milliseconds;

    if (argc != 2)
        return say("recovery takes one target.");
    if (!read_number(argv[1], &target))
        return say("the target '%s' is no number.", argv[1]);
    ticks = obikuteru_ticks_to_recover(target);
    if (ticks == 0)
        return say("the target '%s' is out of range: 1,000 to 100,000 microseconds.", argv[1]);
    milliseconds = ticks * OBIKUTERU_TICK_PERIOD / 1000;
    printf("%" PRIu64 " ticks, %" PRIu64 ".%03" PRIu64 " seconds\n", ticks, milliseconds / 1000, milliseconds % 1000);
    return finish(DONE);
}
