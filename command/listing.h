/* listing.h: the listing of a journal, however long it is. */
#ifndef LISTING_H
#define LISTING_H

#include <stddef.h>
#include <stdint.h>

/* Plays a journal. Returns its listing, whose length is in `*length` and which the caller frees, or NULL with errno: there is no memory. */
uint8_t *listing_of(const uint8_t *journal, size_t size, size_t *length);

#endif
