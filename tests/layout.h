/* What the layout and burst tests share: checks are counted, and each mistake is printed. */
#ifndef LAYOUT_H
#define LAYOUT_H

#include <inttypes.h>
#include <stdio.h>

/* Empty where the other files of a program use these too. */
#ifndef LINKAGE
#define LINKAGE static
#endif

LINKAGE int checks, mistakes;

LINKAGE void expect(const char *what, uint64_t found, uint64_t wanted)
{
    checks++;
    if (found != wanted) {
        mistakes++;
        printf("layout: %s is %" PRIu64 ", and not %" PRIu64 ".\n", what, found, wanted);
    }
}

/* The exit status: 1 if there was any mistake. */
LINKAGE int result(void)
{
    if (mistakes > 0)
        return 1;
    printf("layout: %d numbers, all as defined\n", checks);
    return 0;
}

#endif
