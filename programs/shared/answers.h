/* The answers to a script's lines, on standard output. */
#ifndef ANSWERS_H
#define ANSWERS_H

#include <obikuteru.h>

/* The word of an arrival's answer, or 'refused N'. */
void put_verdict(uint32_t answer);

/* The word of another call that is accepted, or 'refused N'. */
void put_accepted(uint32_t answer, const char *word);

/* 'departed' and the packet's handle, or 'refused N'. */
void put_departed(uint32_t answer, const struct obikuteru_packet *packet);

/* One more number of an answer. */
void put_field(uint64_t number);

/* The two numbers that end every answer. */
void put_numbers(uint64_t probability, uint64_t bytes);

/* 'bad line N'. */
void put_bad_line(uint64_t number);

/* Writes what was put. Where it cannot be written, the program ends, with status 0. */
void write_answers(void);

#endif
