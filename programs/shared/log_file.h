/* A log's file, read whole. */
#ifndef LOG_FILE_H
#define LOG_FILE_H

#include <obikuteru.h>

/*
 * One byte more than the longest log has. Of a longer file so much is read: no log has this
 * length, so the library refuses it by 11, as any bad length.
 */
#define LOG_ROOM (OBIKUTERU_LOG_MOST + 1u)

struct log_file {
    uint8_t bytes[LOG_ROOM];
    size_t length;
};

/* Reads a file. Where that cannot be, says so and answers false. */
bool read_log(const char *name, struct log_file *log);

#endif
