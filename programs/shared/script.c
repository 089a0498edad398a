#define _POSIX_C_SOURCE 200809L

#include "script.h"

#include "answers.h"
#include "say.h"

#include <stdbool.h>
#include <stdio.h>
#include <string.h>
#include <unistd.h>

static uint8_t input[65536];
static size_t at, end; /* what is left of the input that was read */
static int next;       /* the byte that is looked at, or EOF */

/* Looks at the next byte. An input that cannot be read further has ended. */
static void advance(void)
{
    if (at == end) {
        ssize_t got;

        write_answers();
        got = read(STDIN_FILENO, input, sizeof input);
        at = 0;
        end = got > 0 ? (size_t)got : 0;
    }
    next = at < end ? input[at++] : EOF;
}

static bool at_line_end(void)
{
    return next == '\n' || next == EOF;
}

/* A plain decimal number, with any number of leading zeros. */
static bool read_number(uint64_t most, uint64_t *number)
{
    bool is_number = next >= '0' && next <= '9';

    *number = 0;
    for (; next >= '0' && next <= '9'; advance()) {
        uint64_t digit = (uint64_t)(next - '0');

        if (digit > most || *number > (most - digit) / 10)
            return false;
        *number = 10 * *number + digit;
    }
    return is_number;
}

/* The value of a hexadecimal digit of either case, or -1. */
static int hexadecimal(int byte)
{
    if (byte >= '0' && byte <= '9')
        return byte - '0';
    if (byte >= 'a' && byte <= 'f')
        return byte - 'a' + 10;
    if (byte >= 'A' && byte <= 'F')
        return byte - 'A' + 10;
    return -1;
}

static bool read_key(uint8_t *key)
{
    for (int i = 0; i < 2 * KEY_SIZE; i++, advance()) {
        int digit = hexadecimal(next);

        if (digit < 0)
            return false;
        key[i / 2] = (uint8_t)(16 * (key[i / 2] % 16) + digit);
    }
    return true;
}

static const struct form *form_of(const struct form *forms, int letter, int lines)
{
    for (; forms->letter != '\0'; forms++)
        if (forms->letter == letter && (forms->lines & lines) != 0)
            return forms;
    return NULL;
}

/* The line from the byte that is looked at, up to its end if it has one of the forms. */
static bool read_form(const struct form *forms, int lines, struct line *line)
{
    const struct form *form = form_of(forms, next, lines);

    memset(line, 0, sizeof *line);
    if (form == NULL)
        return false;
    line->letter = form->letter;
    advance();
    for (int i = 0; i < form->fields; i++) {
        if (next != ' ')
            return false;
        advance();
        if (form->most[i] == A_KEY ? !read_key(line->key) : !read_number(form->most[i], &line->number[i]))
            return false;
    }
    return at_line_end();
}

int run_script(const struct form *forms, void (*answer)(const struct line *line))
{
    struct line line;
    uint64_t number = 1;

    for (advance(); next != EOF; advance()) {
        bool has_form = read_form(forms, number == 1 ? FIRST : LATER, &line);

        while (!at_line_end())
            advance();
        if (!has_form) {
            put_bad_line(number);
            break;
        }
        answer(&line);
        number++;
        if (next == EOF)
            break;
    }
    write_answers();
    return DONE;
}
