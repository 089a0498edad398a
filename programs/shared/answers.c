#define _POSIX_C_SOURCE 200809L

#include "answers.h"

#include "call_text.h"
#include "say.h"
#include "write_all.h"

#include <stdlib.h>
#include <string.h>
#include <unistd.h>

enum { LINE_MOST = 128 }; /* more than the longest answer has */

static uint8_t output[65536];
static size_t length;

void write_answers(void)
{
    if (!write_all(STDOUT_FILENO, output, length))
        exit(DONE);
    length = 0;
}

static void put_word(const char *word)
{
    size_t more = strlen(word);

    memcpy(output + length, word, more);
    length += more;
}

/* A line has ended; the next one has room. */
static void end_line(void)
{
    put_word("\n");
    if (sizeof output - length < LINE_MOST)
        write_answers();
}

void put_field(uint64_t number)
{
    char digits[22]; /* a space, twenty digits and the end */
    char *first = digits + sizeof digits - 1;

    *first = '\0';
    do {
        *--first = (char)('0' + number % 10);
        number /= 10;
    } while (number != 0);
    *--first = ' ';
    put_word(first);
}

void put_accepted(uint32_t answer, const char *word)
{
    if (!obikuteru_refused(answer)) {
        put_word(word);
        return;
    }
    put_word("refused");
    put_field(answer - 100);
}

void put_verdict(uint32_t answer)
{
    put_accepted(answer, obikuteru_refused(answer) ? "" : verdict_words[answer]);
}

void put_departed(uint32_t answer, const struct obikuteru_packet *packet)
{
    put_accepted(answer, "departed");
    if (!obikuteru_refused(answer))
        put_field(packet->handle);
}

void put_numbers(uint64_t probability, uint64_t bytes)
{
    put_field(probability);
    put_field(bytes);
    end_line();
}

void put_bad_line(uint64_t number)
{
    put_word("bad line");
    put_field(number);
    end_line();
}
