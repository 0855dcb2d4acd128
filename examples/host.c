/*
 * host.c: checks step lines, as a simulator would before it writes them into a `fabric=1` journal.
 *
 * Reads step lines from standard input, each with its newline, and prints of each one that can't stand in a journal its number in the
 * input, the number that it is refused with, and why. Exits with 0 if every line can, with 1 if one can't, and with 2 if reading or
 * writing failed.
 */
#include "fabric.h"

#include <stdio.h>

/* A line of over 200 bytes is refused whatever it holds, so 201 bytes of it are enough. */
#define ROOM 201

/* Reads a line up to its newline or the end of input; keeps its first ROOM bytes and gives their count. `ended` says what came last. */
static size_t read_line(uint8_t *line, int *ended)
{
    size_t len = 0;
    while ((*ended = getchar()) != EOF && *ended != '\n')
        if (len < ROOM)
            line[len++] = (uint8_t)*ended;
    return len;
}

static const char *reason(uint32_t number)
{
    switch (number) {
    case FABRIC_LINE_TOO_LONG:
        return "over 200 bytes, or no newline at its end";
    case FABRIC_LINE_NO_FORM:
        return "not a step line of a fabric=1 journal";
    case FABRIC_LINE_WRONG_NUMBER:
        return "a number without digits, with another byte, with a leading zero, or above 4294967295";
    case FABRIC_LINE_WRONG_DATA:
        return "data that are empty, odd in count, or not 0-9 a-f";
    default:
        return "an unknown number";
    }
}

int main(void)
{
    uint8_t line[ROOM];
    unsigned long lines = 0, refused = 0;
    for (;;) {
        int ended;
        size_t len = read_line(line, &ended);
        uint32_t number;
        if (ended == EOF && len == 0)
            break;
        lines++;
        /* A journal's last line without newline is refused too; the check is given no newline, so this is for its caller to see. */
        number = ended == EOF ? (uint32_t)FABRIC_LINE_TOO_LONG : fabric_check_line(line, len);
        if (number != FABRIC_LINE_STEP) {
            refused++;
            printf("line %lu: refused=%u, %s\n", lines, (unsigned)number, reason(number));
        }
    }
    printf("%lu lines, %lu refused\n", lines, refused);
    if (ferror(stdin) || fflush(stdout) != 0) {
        perror("host");
        return 2;
    }
    return refused > 0;
}
