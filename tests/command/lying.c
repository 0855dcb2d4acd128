/*
 * lying.c: in the place of the library, functions that refuse every journal with 12 on its line 3, for the command's answer to a refusal of
 * which it finds no place.
 */
#include "fabric.h"

uint32_t fabric_check(const uint8_t *journal, size_t len, size_t *line)
{
    (void)journal, (void)len;
    *line = 3;
    return 12;
}

size_t fabric_list(const uint8_t *journal, size_t len, uint8_t *out, size_t room)
{
    (void)journal, (void)len, (void)out, (void)room;
    return 0;
}

size_t fabric_tally(const uint8_t *journal, size_t len, uint8_t *out, size_t room)
{
    return fabric_list(journal, len, out, room);
}

uint32_t fabric_to1(const uint8_t *journal, size_t len, uint8_t *out, size_t room, size_t *length)
{
    (void)journal, (void)len, (void)out, (void)room, (void)length;
    return 12;
}

uint32_t fabric_to2(const uint8_t *journal, size_t len, uint8_t *out, size_t room, size_t *length)
{
    return fabric_to1(journal, len, out, room, length);
}
