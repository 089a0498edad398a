/* A call and its answer in the words of the script program. */
#ifndef CALL_TEXT_H
#define CALL_TEXT_H

#include <obikuteru.h>

/* The words of an arrival's verdicts, 0 to 4. */
extern const char *const verdict_words[5];

/* The call of a record, as a line of a script has it. */
void print_call(const struct obikuteru_record *record);

/* The call, its answer, the probability and the bytes of a record, and the line's end. */
void print_record(const struct obikuteru_record *record);

/* The field in which a record disagrees with the rules, by the replay's answer. */
const char *field_of(uint32_t answer);

#endif
