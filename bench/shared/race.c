/*
 * race ROUNDS INPUT PROGRAM OUTPUT TWIN OUTPUT: runs both programs in turn over one input file and
 * prints the ratio of their processor times (user and system): median, least, greatest.
 */
#include <fcntl.h>
#include <stdio.h>
#include <stdlib.h>
#include <sys/resource.h>
#include <sys/wait.h>
#include <unistd.h>

#define MOST_ROUNDS 101

static void fail(const char *sentence, const char *name)
{
    fprintf(stderr, "race: %s: %s\n", sentence, name);
    exit(1);
}

static void become(const char *program, const char *input, const char *output)
{
    int in = open(input, O_RDONLY);
    int out = open(output, O_WRONLY | O_CREAT | O_TRUNC, 0644);
    if (in < 0 || out < 0)
        fail("cannot open the input or the output", in < 0 ? input : output);
    dup2(in, STDIN_FILENO);
    dup2(out, STDOUT_FILENO);
    execl(program, program, (char *)NULL);
    fail("cannot run", program);
}

static double microseconds(struct timeval t)
{
    return (double)t.tv_sec * 1e6 + (double)t.tv_usec;
}

/* The processor time of one run. */
static double run(const char *program, const char *input, const char *output)
{
    struct rusage usage;
    int status = 0;
    pid_t child = fork();
    if (child == 0)
        become(program, input, output);
    if (child < 0 || wait4(child, &status, 0, &usage) != child)
        fail("cannot start", program);
    if (!WIFEXITED(status) || WEXITSTATUS(status) != 0)
        fail("did not end well", program);
    return microseconds(usage.ru_utime) + microseconds(usage.ru_stime);
}

static int ascending(const void *a, const void *b)
{
    double x = *(const double *)a, y = *(const double *)b;
    return (x > y) - (x < y);
}

int main(int argc, char **argv)
{
    double ratios[MOST_ROUNDS];
    int rounds = argc == 7 ? atoi(argv[1]) : 0;
    if (rounds < 1 || MOST_ROUNDS < rounds)
        fail("usage", "race ROUNDS INPUT PROGRAM OUTPUT TWIN OUTPUT, with 1 to 101 rounds");
    run(argv[3], argv[2], argv[4]); /* these only warm up */
    run(argv[5], argv[2], argv[6]);
    for (int i = 0; i < rounds; i++) {
        double program = run(argv[3], argv[2], argv[4]);
        double twin = run(argv[5], argv[2], argv[6]);
        ratios[i] = program / twin;
    }
    qsort(ratios, (size_t)rounds, sizeof *ratios, ascending);
    printf("%.3f %.3f %.3f\n", ratios[rounds / 2], ratios[0], ratios[rounds - 1]);
    return 0;
}
