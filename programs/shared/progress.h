/* How far a long command is, on one line of a terminal that is erased again. */
#ifndef PROGRESS_H
#define PROGRESS_H

/* Says on standard error, where that is a terminal, which of how many is at work. */
void show_progress(const char *what, int number, int total);

/* Erases the line, before anything else is printed. */
void clear_progress(void);

#endif
