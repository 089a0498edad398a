/* Reading lines of fields and writing answers, for the script program in plain C. */
#ifndef SCRIPT_IO_H
#define SCRIPT_IO_H

#include <stdbool.h>
#include <stdint.h>
#include <unistd.h>

#define END (-1)

static const char *const verdict_words[] = {"enqueued", "marked", "dropped-bytes", "dropped-slots",
                                            "dropped-early"};

static unsigned char input[65536];
static size_t input_at, input_end;
static int byte; /* the byte after the last field that was read, or END */

static char output[65536];
static size_t output_end;

static int next_byte(void)
{
    if (input_at == input_end) {
        ssize_t got = read(STDIN_FILENO, input, sizeof input);
        if (got <= 0)
            return END;
        input_at = 0;
        input_end = (size_t)got;
    }
    return input[input_at++];
}

static void flush(void)
{
    for (size_t at = 0; at < output_end;) {
        ssize_t put = write(STDOUT_FILENO, output + at, output_end - at);
        if (put <= 0)
            _exit(1);
        at += (size_t)put;
    }
    output_end = 0;
}

static void put_word(const char *word)
{
    while (*word != '\0')
        output[output_end++] = *word++;
}

/* A space and the number. */
static void put_number(uint64_t n)
{
    char digits[20];
    size_t count = 0;
    do {
        digits[count++] = (char)('0' + n % 10);
        n /= 10;
    } while (n != 0);
    output[output_end++] = ' ';
    while (count != 0)
        output[output_end++] = digits[--count];
}

static void end_line(void)
{
    output[output_end++] = '\n';
    if (sizeof output - output_end < 128)
        flush();
}

/* A space and a decimal number of at most `most`. */
static bool field(uint64_t *value, uint64_t most)
{
    uint64_t n = 0;
    if (byte != ' ')
        return false;
    byte = next_byte();
    if (byte < '0' || '9' < byte)
        return false;
    do {
        if (__builtin_mul_overflow(n, 10, &n)
            || __builtin_add_overflow(n, (uint64_t)(byte - '0'), &n))
            return false;
        byte = next_byte();
    } while ('0' <= byte && byte <= '9');
    *value = n;
    return n <= most;
}

static bool line_ends(void)
{
    return byte == '\n' || byte == END;
}

/* The word of an accepted call, or the refusal. */
static void put_answer(uint32_t answer, const char *word)
{
    if (answer < 100) {
        put_word(word);
    } else {
        put_word("refused");
        put_number(answer - 100);
    }
}

/* The verdict of an arrival, or the refusal. */
static void put_verdict(uint32_t answer)
{
    put_answer(answer, answer < 100 ? verdict_words[answer] : "");
}

static void put_bad_line(uint64_t line)
{
    put_word("bad line");
    put_number(line);
    end_line();
}

/* The last two fields of a line. */
static void put_queue(uint64_t probability, uint64_t bytes)
{
    put_number(probability);
    put_number(bytes);
    end_line();
}

#endif
