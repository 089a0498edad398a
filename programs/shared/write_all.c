#define _POSIX_C_SOURCE 200809L

#include "write_all.h"

#include <errno.h>
#include <unistd.h>

bool write_all(int file, const uint8_t *bytes, size_t length)
{
    size_t written = 0;

    while (written < length) {
        ssize_t more = write(file, bytes + written, length - written);

        if (more < 0 && errno != EINTR)
            return false;
        if (more > 0)
            written += (size_t)more;
    }
    return true;
}
