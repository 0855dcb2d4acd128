/*
 * grammar.h: the lines that journals have, one row each, for saying what is wrong with a line. Whether a line is right, and its number if
 * it is not, is the library's to say.
 */
#ifndef GRAMMAR_H
#define GRAMMAR_H

#include <stddef.h>
#include <stdint.h>

/* The forms of journals. Each is a bit, so that a row can be of several. */
enum { FORM_1 = 1, FORM_2 = 2, EVERY_FORM = FORM_1 | FORM_2 };

/* What a value is: a decimal number, or data, which are pairs of hex digits. */
enum kind { NUMBER, DATA };

/* The greatest value of a key that has no limit of its own, and of one that goes up to the number of lines. */
#define NO_LIMIT 0
#define UP_TO_LINES UINT32_MAX

/* A key and its value. */
struct key {
    const char *text; /* the blank before it, the key and its `=`; NULL after a row's last key */
    enum kind kind;
    uint32_t most; /* of a first line's: the value lies from 1 to this */
};

/* The most keys that a row has. */
#define MOST_KEYS 5

/* A line: its first word, and its keys in their order. */
struct row {
    const char *word;
    int opens;      /* whether it is a first line */
    unsigned forms; /* the forms that have it */
    int unlike;     /* whether a journal that has it can't be one of fabric=1 */
    struct key keys[MOST_KEYS + 1];
};

/* How the first words of first lines and of step lines begin. */
#define FIRST_START "fabric="
#define STEP_START "op="

/* A line of a journal without its newline. */
struct line {
    const uint8_t *bytes;
    size_t size;
    size_t number; /* counted from 1 */
    int ended;     /* whether a newline comes after it */
};

/* Where a value is in its line. */
struct value {
    size_t start;
    size_t size;
};

/* How far a line follows a row. */
struct reading {
    const struct line *line;
    const struct row *row;
    size_t keys;                    /* how many of the row's keys it has, each with its value */
    struct value values[MOST_KEYS]; /* their values */
    size_t at;                      /* the first byte that can't be, or the line's size */
    size_t within;                  /* how many bytes of the next key come before that byte */
};

/* The line that starts at an offset of a journal. */
struct line line_at(const uint8_t *journal, size_t size, size_t start, size_t number);

/* Where a value that starts at an offset of the line ends: at the next blank or at the line's end. */
size_t value_end(const struct line *line, size_t start);

/* How many bytes of a text the line has from an offset on, up to the first that differs. */
size_t common(const char *text, const struct line *line, size_t start);

/* The row of a line's first word, or NULL. */
const struct row *row_of(const struct line *line);

/* Follows a row as far as the line does, whatever its values are. Returns whether it does so to the end of both. */
int follow(const struct row *row, const struct line *line, struct reading *reading);

/* The key whose text starts at an offset of the line, where another row has it and this one has not; or NULL. */
const struct key *foreign_key_at(const struct row *row, const struct line *line, size_t start);

/* The first words of the first lines of some forms, with ` or ` between them. Returns `text`, which has `room` bytes. */
const char *forms_in_words(unsigned forms, char *text, size_t room);

#endif
