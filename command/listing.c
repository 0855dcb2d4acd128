/* listing.c: the listing of a journal, in a buffer of its own. */
#include "listing.h"

#include "fabric.h"

#include <errno.h>
#include <stdlib.h>

uint8_t *listing_of(const uint8_t *journal, size_t size, size_t *length)
{
    size_t room = FABRIC_LISTING_ROOM(size);
    uint8_t *listing = malloc(room);
    if (listing == NULL)
        return NULL;
    *length = fabric_list(journal, size, listing, room);
    if (*length != FABRIC_NO_ROOM)
        return listing;
    free(listing);
    errno = ENOMEM;
    return NULL;
}
