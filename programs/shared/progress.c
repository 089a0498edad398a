#define _POSIX_C_SOURCE 200809L
#include "progress.h"

#include <stdio.h>
#include <unistd.h>

void show_progress(const char *what, int number, int total)
{
    if (total > 1 && isatty(STDERR_FILENO))
        fprintf(stderr, "\r\033[K%s %d of %d", what, number, total);
}

void clear_progress(void)
{
    if (isatty(STDERR_FILENO))
        fputs("\r\033[K", stderr);
}
