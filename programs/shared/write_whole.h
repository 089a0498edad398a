/* A file written whole or not at all. */
#ifndef WRITE_WHOLE_H
#define WRITE_WHOLE_H

#include <stdbool.h>
#include <stddef.h>
#include <stdint.h>

/*
 * Writes a file: under another name beside it, which becomes its name at the end, so that a file
 * that was there is replaced only by a whole one. Where that cannot be, says so and answers false.
 */
bool write_whole(const char *name, const uint8_t *bytes, size_t length);

#endif
