/* What the programs say of themselves: exit statuses, and one sentence on standard error. */
#ifndef SAY_H
#define SAY_H

/* Exit statuses. FAILED: refused, unreadable, not written, or wrong words. */
enum { DONE = 0, DIFFERS = 1, FAILED = 2 };

/* One sentence on standard error, after the command's name. Returns FAILED. */
int say(const char *format, ...);

/* The status to exit with, once all that was printed is written; FAILED where it cannot be. */
int finish(int status);

#endif
