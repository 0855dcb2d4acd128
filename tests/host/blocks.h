/* Blocks of memory for a test of the library: bytes that it reads, and bytes that are lent to it to write to. */
#ifndef BLOCKS_H
#define BLOCKS_H

#include <stddef.h>
#include <stdint.h>

/* Memory; the program ends where there is none. */
void *memory(size_t size);

/* Bytes that have a block of exactly their size, so that valgrind sees a read outside them. No bytes are at a block's end. */
struct bytes {
    uint8_t *at;
    size_t size;
};

struct bytes bytes_of(const void *from, size_t size);
void free_bytes(struct bytes *bytes);
int same_bytes(const struct bytes *a, const void *at, size_t size);

/* Bytes to write to. Each byte of their block has a value of its place, 128 to 255, which no text of the library has. */
struct lent {
    uint8_t *block;
    size_t all;
    uint8_t *at;
    size_t size;
};

/* Makes these values; once, before anything is lent. */
void make_first_values(void);

/* Lends bytes with `guard` more before and behind them; without any, their block is of exactly their size, as above. */
struct lent lend(size_t size, size_t guard);
void take_back(struct lent *lent);

/* Whether all bytes of the block are as they were lent, but for the first `written` that were lent. */
int is_as_lent(const struct lent *lent, size_t written);

/* The whole file at a path; the program ends where it can't be read. */
struct bytes file_at(const char *path);

/* Writes a file; the program ends where it can't be written. */
void write_file(const char *path, const void *bytes, size_t size);

#endif
