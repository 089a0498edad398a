#include "say.h"

#include <stdarg.h>
#include <stdio.h>

int say(const char *format, ...)
{
    va_list words;

    fputs("obikuteru: ", stderr);
    va_start(words, format);
    vfprintf(stderr, format, words);
    va_end(words);
    fputc('\n', stderr);
    return FAILED;
}

int finish(int status)
{
    if (fflush(stdout) != 0 || ferror(stdout))
        return say("the answer cannot be written.");
    return status;
}
