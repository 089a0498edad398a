/* Bytes written to an open file. */
#ifndef WRITE_ALL_H
#define WRITE_ALL_H

#include <stdbool.h>
#include <stddef.h>
#include <stdint.h>

/* Writes all of them; false where that cannot be, and some of them may be written. */
bool write_all(int file, const uint8_t *bytes, size_t length);

#endif
