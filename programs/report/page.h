/* The words of a report's page. */
#ifndef PAGE_H
#define PAGE_H

#include "walk.h"

#include <stdio.h>

struct found {
    uint32_t answer; /* of the replay */
    struct obikuteru_settings settings;
    struct obikuteru_replayed replayed;
    struct obikuteru_record wrong; /* the first record that disagrees, as recorded */
};

/* The page up to its pictures. `note` is the note's bytes. */
void write_head(FILE *to, const char *log, const struct found *found, const uint8_t *note, uint64_t note_length,
                const struct walk *walk);

/* The four questions, after the pictures, and the page's end. */
void write_questions(FILE *to, const struct found *found, const struct walk *walk);

#endif
