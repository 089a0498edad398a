/* A script of calls on standard input, read a line at a time by a table of forms. */
#ifndef SCRIPT_H
#define SCRIPT_H

#include <stdint.h>

/* FIELDS_MOST: of a line. KEY_SIZE: bytes of a packet's key. SLOTS_MOST: of a script's tables. */
enum { FIELDS_MOST = 7, KEY_SIZE = 13, SLOTS_MOST = 4096 };

/* The most that a field may be: of 1, 32 or 64 bits, or any other number; or else it is a key. */
#define A_BIT 1
#define A_WORD UINT32_MAX
#define A_CLOCK UINT64_MAX
#define A_KEY 0 /* 26 hexadecimal digits */

/* Which line may have a form. */
enum { FIRST = 1, LATER = 2 };

/* A form: a letter and, behind one space each, its fields. */
struct form {
    char letter; /* '\0' behind the last form of a table */
    int lines;   /* FIRST, LATER or both */
    int fields;  /* at least 1 */
    uint64_t most[FIELDS_MOST];
};

/* A line of one of the forms. */
struct line {
    char letter;
    uint64_t number[FIELDS_MOST]; /* each in its field's place */
    uint8_t key[KEY_SIZE];
};

/*
 * Reads standard input to its end, and has each line answered by `answer`. A line of no form ends the
 * run with 'bad line N'. What is answered is written before more input is waited for. Returns the exit
 * status, which is 0 after a bad line too.
 */
int run_script(const struct form *forms, void (*answer)(const struct line *line));

#endif
