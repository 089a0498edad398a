/*
 * The words of a bench's command line. Included once by a program that has PROGRAM, its name, `sides`
 * and their number SIDES, `stream`, a function find(NAME) that gives a stream or NULL, and
 * these, in a run on `stream`:
 *   prepare()      makes the events or logs
 *   run_times()    checks that all sides answer alike, times them and prints ratios
 *   run_side(s)    runs everything once on one side, for callgrind to count
 */
static void fail(const char *sentence)
{
    fprintf(stderr, PROGRAM ": %s\n", sentence);
    exit(1);
}

static void run_count(const char *name)
{
    for (size_t s = 0; s < SIDES; s++)
        if (strcmp(sides[s].name, name) == 0) {
            run_side(s);
            return;
        }
    fail("there is no such side.");
}

int main(int argc, char **argv)
{
    stream = 3 <= argc ? find(argv[2]) : NULL;
    if (stream == NULL)
        fail("usage: " PROGRAM " time STREAM | " PROGRAM " count STREAM SIDE, with a stream of events.c");
    prepare();
    if (argc == 3 && strcmp(argv[1], "time") == 0)
        run_times();
    else if (argc == 4 && strcmp(argv[1], "count") == 0)
        run_count(argv[3]);
    else
        fail("time takes a stream, count a stream and a side.");
    return 0;
}
