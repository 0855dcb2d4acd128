#include "blocks.h"

#include <stdio.h>
#include <stdlib.h>
#include <string.h>

/* Ends the program: nothing can be tested. */
static void give_up(const char *why, const char *what)
{
    fprintf(stderr, "test_library: %s%s\n", why, what);
    exit(2);
}

void *memory(size_t size)
{
    void *block = malloc(size);
    if (block == NULL)
        give_up("no memory", "");
    return block;
}

/* No bytes are at the end of a block of one. */
static size_t before_none(size_t size)
{
    return size == 0;
}

struct bytes bytes_of(const void *from, size_t size)
{
    uint8_t *block = memory(before_none(size) + size);
    struct bytes bytes = { block + before_none(size), size };
    if (size > 0)
        memcpy(bytes.at, from, size);
    return bytes;
}

void free_bytes(struct bytes *bytes)
{
    if (bytes->at != NULL)
        free(bytes->at - before_none(bytes->size));
    bytes->at = NULL;
}

int same_bytes(const struct bytes *a, const void *at, size_t size)
{
    return a->size == size && memcmp(a->at, at, size) == 0;
}

/* The values that a lent block's bytes have at first; no block has more. */
static uint8_t first_values[1 << 21];

void make_first_values(void)
{
    for (size_t i = 0; i < sizeof first_values; i++)
        first_values[i] = (uint8_t)(128 + (i * 41 + i / 128) % 128);
}

struct lent lend(size_t size, size_t guard)
{
    size_t before = guard > 0 ? guard : before_none(size);
    struct lent lent;
    lent.all = before + size + guard;
    if (lent.all > sizeof first_values)
        give_up("a block of too many bytes", "");
    lent.block = memory(lent.all);
    lent.at = lent.block + before;
    lent.size = size;
    memcpy(lent.block, first_values, lent.all);
    return lent;
}

void take_back(struct lent *lent)
{
    free(lent->block);
    lent->block = NULL;
}

int is_as_lent(const struct lent *lent, size_t written)
{
    size_t from = (size_t)(lent->at - lent->block), past = from + written;
    return memcmp(lent->block, first_values, from) == 0 && memcmp(lent->block + past, first_values + past, lent->all - past) == 0;
}

struct bytes file_at(const char *path)
{
    FILE *file = fopen(path, "rb");
    size_t size = 0, room = 65536, n;
    uint8_t *read = memory(room);
    struct bytes bytes;
    if (file == NULL)
        give_up("no file that can be read: ", path);
    while ((n = fread(read + size, 1, room - size, file)) > 0) {
        size += n;
        if (size == room) {
            uint8_t *more = memory(2 * room);
            memcpy(more, read, size);
            free(read);
            read = more;
            room *= 2;
        }
    }
    if (ferror(file) || fclose(file) != 0)
        give_up("no file that can be read: ", path);
    bytes = bytes_of(read, size);
    free(read);
    return bytes;
}

void write_file(const char *path, const void *bytes, size_t size)
{
    FILE *file = fopen(path, "wb");
    if (file == NULL || fwrite(bytes, 1, size, file) != size || fclose(file) != 0)
        give_up("no file that can be written: ", path);
}
