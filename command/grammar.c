/* grammar.c: the lines that journals have, and how far a line follows one of them. */
#include "grammar.h"

#include <stdio.h>
#include <string.h>

#define CORES { " cores=", NUMBER, 16 }
#define LINES { " lines=", NUMBER, 64 }
#define WIDTH { " width=", NUMBER, 64 }
#define LEASE { " lease=", NUMBER, 1000 }
#define CAP { " cap=", NUMBER, UP_TO_LINES }
#define CORE { " core=", NUMBER, NO_LIMIT }
#define LINE { " line=", NUMBER, NO_LIMIT }
#define BY { " by=", NUMBER, NO_LIMIT }
#define HEX { " data=", DATA, NO_LIMIT }
#define END { NULL, NUMBER, NO_LIMIT }

/* Every line that there is. A form has one first line; a step is of the forms that are named. */
static const struct row rows[] = {
    /* word, opens, forms, unlike, keys */
    { "fabric=1", 1, FORM_1, 0, { CORES, LINES, WIDTH, LEASE, END } },
    { "fabric=2", 1, FORM_2, 0, { CORES, LINES, WIDTH, LEASE, CAP, END } },
    { "op=load", 0, EVERY_FORM, 0, { CORE, LINE, END } },
    { "op=store", 0, EVERY_FORM, 0, { CORE, LINE, HEX, END } },
    { "op=fence", 0, EVERY_FORM, 0, { CORE, END } },
    { "op=evict", 0, FORM_1, 0, { CORE, LINE, END } },
    { "op=drop", 0, FORM_2, 0, { CORE, LINE, END } },
    { "op=writeback", 0, FORM_2, 0, { CORE, LINE, END } },
    { "op=victim", 0, FORM_2, 1, { CORE, END } },
    { "op=advance", 0, EVERY_FORM, 0, { CORE, BY, END } },
    { "op=serve", 0, EVERY_FORM, 0, { CORE, END } },
    { "op=receive", 0, EVERY_FORM, 0, { CORE, END } },
    { "op=yield", 0, EVERY_FORM, 0, { LINE, END } },
    { "op=take", 0, EVERY_FORM, 0, { LINE, END } },
};

#define ROWS (sizeof rows / sizeof *rows)

struct line line_at(const uint8_t *journal, size_t size, size_t start, size_t number)
{
    const uint8_t *newline = memchr(journal + start, '\n', size - start);
    struct line line = { journal + start, size - start, number, newline != NULL };
    if (newline != NULL)
        line.size = (size_t)(newline - line.bytes);
    return line;
}

size_t value_end(const struct line *line, size_t start)
{
    while (start < line->size && line->bytes[start] != ' ')
        start++;
    return start;
}

const struct row *row_of(const struct line *line)
{
    size_t size = value_end(line, 0);
    for (size_t r = 0; r < ROWS; r++)
        if (strlen(rows[r].word) == size && memcmp(rows[r].word, line->bytes, size) == 0)
            return &rows[r];
    return NULL;
}

size_t common(const char *text, const struct line *line, size_t start)
{
    size_t count = 0;
    while (text[count] != '\0' && start + count < line->size && line->bytes[start + count] == (uint8_t)text[count])
        count++;
    return count;
}

int follow(const struct row *row, const struct line *line, struct reading *reading)
{
    reading->line = line;
    reading->row = row;
    reading->at = strlen(row->word);
    reading->within = 0;
    for (reading->keys = 0; row->keys[reading->keys].text != NULL; reading->keys++) {
        const char *text = row->keys[reading->keys].text;
        struct value *value = &reading->values[reading->keys];
        reading->within = common(text, line, reading->at);
        reading->at += reading->within;
        if (text[reading->within] != '\0')
            return 0;
        value->start = reading->at;
        reading->at = value_end(line, value->start);
        value->size = reading->at - value->start;
    }
    return reading->at == line->size;
}

/* The row's key whose text starts at an offset of the line, or NULL. */
static const struct key *row_key_at(const struct row *row, const struct line *line, size_t start)
{
    for (const struct key *key = row->keys; key->text != NULL; key++)
        if (key->text[common(key->text, line, start)] == '\0')
            return key;
    return NULL;
}

const struct key *foreign_key_at(const struct row *row, const struct line *line, size_t start)
{
    const struct key *key = NULL;
    if (row_key_at(row, line, start) != NULL)
        return NULL;
    for (size_t r = 0; key == NULL && r < ROWS; r++)
        key = row_key_at(&rows[r], line, start);
    return key;
}

const char *forms_in_words(unsigned forms, char *text, size_t room)
{
    size_t size = 0;
    text[0] = '\0';
    for (size_t r = 0; r < ROWS; r++)
        if (rows[r].opens && (rows[r].forms & forms) != 0 && size < room)
            size += (size_t)snprintf(text + size, room - size, "%s%s", size > 0 ? " or " : "", rows[r].word);
    return text;
}
