/* value.h: whether bytes are a number or data of a journal, and in words why they are not. */
#ifndef VALUE_H
#define VALUE_H

#include "grammar.h"

/* The room of every text here. */
#define WHY_ROOM 80

/* Whether bytes, of which the first is at a column, are a value of the kind. Where they are not, `why`, which has WHY_ROOM bytes, says what
 * is wrong. */
int right_value(enum kind kind, const uint8_t *bytes, size_t size, size_t column, char *why);

/* The number that right bytes spell. */
uint32_t number_of(const uint8_t *bytes, size_t size);

/* Bytes as a text in quotes, as far as there is room: those that can't be shown as \xNN. Returns `text`, which has WHY_ROOM bytes. */
const char *quoted(const uint8_t *bytes, size_t size, char *text);

#endif
