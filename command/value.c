/* value.c: whether bytes are a number or data of a journal, and in words why they are not. */
#include "value.h"

#include <stdio.h>
#include <string.h>

/* The most bytes that are shown in quotes. */
#define MOST_QUOTED 16

/* Whether a byte can be shown as it is, in quotes. */
static int shows(uint8_t byte)
{
    return byte > ' ' && byte < 127 && byte != '"' && byte != '\\';
}

const char *quoted(const uint8_t *bytes, size_t size, char *text)
{
    char *end = text;
    *end++ = '"';
    for (size_t i = 0; i < size && i < MOST_QUOTED; i++)
        end += sprintf(end, shows(bytes[i]) ? "%c" : "\\x%02x", bytes[i]);
    sprintf(end, "\"%s", size > MOST_QUOTED ? ".." : "");
    return text;
}

/* A byte in words. Returns `text`, which has WHY_ROOM bytes. */
static const char *byte_in_words(uint8_t byte, char *text)
{
    static const struct {
        uint8_t byte;
        const char *name;
    } names[] = { { '\0', "zero byte" }, { '\t', "tab" }, { '\r', "carriage return" } };
    for (size_t i = 0; i < sizeof names / sizeof *names; i++)
        if (names[i].byte == byte)
            return names[i].name;
    snprintf(text, WHY_ROOM, shows(byte) ? "\"%c\"" : "byte 0x%02x", byte);
    return text;
}

uint32_t number_of(const uint8_t *bytes, size_t size)
{
    uint32_t number = 0;
    for (size_t i = 0; i < size; i++)
        number = 10 * number + (uint32_t)(bytes[i] - '0');
    return number;
}

/* Whether digits spell more than the greatest number. */
static int above(const uint8_t *digits, size_t size)
{
    static const char greatest[] = "4294967295";
    size_t most = sizeof greatest - 1;
    return size > most || (size == most && memcmp(digits, greatest, most) > 0);
}

/* right_value of a number. */
static int right_number(const uint8_t *bytes, size_t size, char *why)
{
    char name[WHY_ROOM];
    const char *wrong = NULL;
    for (size_t i = 0; i < size; i++)
        if (bytes[i] < '0' || bytes[i] > '9') {
            snprintf(why, WHY_ROOM, "%s is no digit", byte_in_words(bytes[i], name));
            return 0;
        }
    if (size == 0)
        wrong = "no digits";
    else if (size > 1 && bytes[0] == '0')
        wrong = "leading zero";
    else if (above(bytes, size))
        wrong = "above 4294967295";
    if (wrong != NULL)
        snprintf(why, WHY_ROOM, "%s", wrong);
    return wrong == NULL;
}

/* right_value of data. Of a long row of digits, the column says which of them is meant. */
static int right_data(const uint8_t *bytes, size_t size, size_t column, char *why)
{
    char name[WHY_ROOM];
    const char *wrong = NULL;
    for (size_t i = 0; i < size; i++) {
        int digit = bytes[i] >= '0' && bytes[i] <= '9';
        int upper = bytes[i] >= 'A' && bytes[i] <= 'F';
        if (digit || (bytes[i] >= 'a' && bytes[i] <= 'f'))
            continue;
        snprintf(why, WHY_ROOM, "%s at column %zu is %s", byte_in_words(bytes[i], name), column + i, upper ? "upper case" : "not 0-9 a-f");
        return 0;
    }
    if (size == 0)
        wrong = "empty";
    else if (size % 2 != 0)
        wrong = "odd in count";
    if (wrong != NULL)
        snprintf(why, WHY_ROOM, "%s", wrong);
    return wrong == NULL;
}

int right_value(enum kind kind, const uint8_t *bytes, size_t size, size_t column, char *why)
{
    return kind == NUMBER ? right_number(bytes, size, why) : right_data(bytes, size, column, why);
}
