/* Journals made from a seed: right ones with steps of others, also after an accident, and bytes of any kind. */
#ifndef JOURNALS_H
#define JOURNALS_H

#include "blocks.h"
#include "lines.h"

/* No journal is longer. */
#define JOURNAL_ROOM 70000

/* A journal made of those given, or of bytes; its length. */
size_t made_journal(struct random *r, const struct bytes *given, size_t count, uint8_t *journal);

/* The journal with more lines at its end, so that it has `size` bytes, if that is some hundred more than it has; its length. */
size_t filled_journal(uint8_t *journal, size_t len, size_t size);

#endif
