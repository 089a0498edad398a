/* What the files of the layout test share; layout.c and layout.h have the functions. */
#ifndef PARTS_H
#define PARTS_H

#include <stdint.h>
#include <stdio.h>

extern int mistakes;

void expect(const char *what, uint64_t found, uint64_t wanted);

/* Every field of a record of the header, by name: what one holds, and what another does. */
void expect_fields(const char *record, const void *found, const void *wanted);

void check_ring(void);
void check_burst(void);
void check_modem(void);
void check_pair(void);
void check_fq(void);
void check_log(void);

#endif
