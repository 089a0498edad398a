/* A log of a trial, kept in memory by the library's writer. */
#ifndef RECORDING_H
#define RECORDING_H

#include <obikuteru.h>

/* Whether the log has begun. */
bool begin_recording(uint64_t target, uint32_t buffer, uint32_t slots, uint8_t profile, const char *note);

/* A log holds at most 100,000 records: later calls are counted alone. */
void record_call(struct obikuteru_record record);

/* Writes the log, if there is one, and says how many calls it lacks. Where it cannot be written, says so and answers false. */
bool write_recording(const char *name);

#endif
