#define _XOPEN_SOURCE 700

#include "write_whole.h"

#include "say.h"
#include "write_all.h"

#include <signal.h>
#include <stdio.h>
#include <stdlib.h>
#include <string.h>
#include <sys/stat.h>
#include <unistd.h>

/* Makes an empty file beside `name` and opens it; its own name goes to `beside`. -1: it cannot be. */
static int open_beside(const char *name, mode_t mode, char *beside)
{
    const char *slash = strrchr(name, '/');
    size_t folder = slash == NULL ? 0 : (size_t)(slash - name) + 1;
    int file;

    memcpy(beside, name, folder);
    strcpy(beside + folder, ".obikuteru-XXXXXX");
    file = mkstemp(beside);
    if (file >= 0)
        fchmod(file, mode);
    return file;
}

/* Writes `bytes` to a file beside `name`, which then takes the name. */
static bool replace(const char *name, mode_t mode, const uint8_t *bytes, size_t length)
{
    char *beside = malloc(strlen(name) + sizeof ".obikuteru-XXXXXX");
    int file = beside == NULL ? -1 : open_beside(name, mode, beside);
    bool whole = file >= 0;

    if (whole) {
        whole = write_all(file, bytes, length);
        whole = close(file) == 0 && whole && rename(beside, name) == 0;
        if (!whole)
            unlink(beside);
    }
    free(beside);
    return whole;
}

/* The mode that a new file gets. */
static mode_t new_mode(void)
{
    mode_t mask = umask(0);

    umask(mask);
    return 0666 & ~mask;
}

/* What a name leads to, through links; a file that is not there yet has its own. To be freed. */
static char *real_name(const char *name, bool is_there)
{
    return is_there ? realpath(name, NULL) : strdup(name);
}

bool write_whole(const char *name, const uint8_t *bytes, size_t length)
{
    struct stat old;
    bool is_there = stat(name, &old) == 0;
    char *real;
    bool whole;

    if (is_there && S_ISDIR(old.st_mode)) {
        say("'%s' is a folder, not a file.", name);
        return false;
    }
    signal(SIGXFSZ, SIG_IGN); /* a write beyond the limit of a file's size shall fail, not end the program */
    /* A device or a pipe would be lost by a new file in its place. */
    real = is_there && (!S_ISREG(old.st_mode) || access(name, W_OK) != 0) ? NULL : real_name(name, is_there);
    whole = real != NULL && replace(real, is_there ? old.st_mode & 0777 : new_mode(), bytes, length);
    free(real);
    if (!whole)
        say("the file '%s' cannot be written.", name);
    return whole;
}
