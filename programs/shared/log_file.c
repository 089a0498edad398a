#include "log_file.h"

#include "say.h"

#include <errno.h>
#include <stdio.h>

static bool unreadable(const char *name)
{
    if (errno == ENOENT)
        say("there is no file '%s'.", name);
    else if (errno == EISDIR)
        say("'%s' is a folder, not a file.", name);
    else
        say("the file '%s' cannot be read.", name);
    return false;
}

bool read_log(const char *name, struct log_file *log)
{
    FILE *file = fopen(name, "rb");

    if (file == NULL)
        return unreadable(name);
    errno = 0;
    log->length = fread(log->bytes, 1, LOG_ROOM, file);
    if (ferror(file)) {
        unreadable(name);
        fclose(file);
        return false;
    }
    fclose(file);
    return true;
}
