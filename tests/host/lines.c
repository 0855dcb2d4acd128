#include "lines.h"

#include <stdio.h>
#include <string.h>

uint32_t random_below(struct random *r, uint32_t n)
{
    r->state ^= r->state << 13;
    r->state ^= r->state >> 7;
    r->state ^= r->state << 17;
    return (uint32_t)((r->state >> 32) % n);
}

/* Small numbers as in a journal, and now and then any, or one at an edge. */
static uint32_t some_number(struct random *r)
{
    static const uint32_t edges[] = { 0, 1, 9, 10, 99, 100, 999999999, 1000000000, 4294967294u, 4294967295u };
    switch (random_below(r, 8)) {
    case 0:
        return edges[random_below(r, sizeof edges / sizeof *edges)];
    case 1:
        return random_below(r, 4294967295u);
    default:
        return random_below(r, 64);
    }
}

size_t right_line(struct random *r, uint8_t *line, uint32_t bytes)
{
    char text[LINE_ROOM];
    int n = 0;
    switch (random_below(r, 9)) {
    case 0:
        n = sprintf(text, "op=load core=%u line=%u", some_number(r), some_number(r));
        break;
    case 1:
        n = sprintf(text, "op=evict core=%u line=%u", some_number(r), some_number(r));
        break;
    case 2:
        n = sprintf(text, "op=store core=%u line=%u data=", some_number(r), some_number(r));
        for (uint32_t i = random_below(r, bytes) + 1; i > 0; i--)
            n += sprintf(text + n, "%02x", random_below(r, 256));
        break;
    case 3:
        n = sprintf(text, "op=fence core=%u", some_number(r));
        break;
    case 4:
        n = sprintf(text, "op=serve core=%u", some_number(r));
        break;
    case 5:
        n = sprintf(text, "op=receive core=%u", some_number(r));
        break;
    case 6:
        n = sprintf(text, "op=advance core=%u by=%u", some_number(r), some_number(r));
        break;
    case 7:
        n = sprintf(text, "op=yield line=%u", some_number(r));
        break;
    default:
        n = sprintf(text, "op=take line=%u", some_number(r));
        break;
    }
    memcpy(line, text, (size_t)n);
    return (size_t)n;
}

/* `size` bytes put in at a place. */
static size_t put_in(uint8_t *line, size_t len, size_t at, const void *bytes, size_t size)
{
    memmove(line + at + size, line + at, len - at);
    memcpy(line + at, bytes, size);
    return len + size;
}

size_t damaged_line(struct random *r, uint8_t *line, size_t len)
{
    static const char *const pieces[] = { " ", "  ", "\t", "\r", "\n", "0", "00", "=", "-1", "+1", "a", "F", "g", " line=0", " core=0",
                                          " by=1", " cap=1", " data=00", "op=load", "4294967296", "99999999999999999999", "1e3", "\303\251" };
    static const uint8_t odd_bytes[] = { 0, ' ', '\t', '\n', '\r', '0', '9', ':', '/', '=', 'A', 'F', 'G', 'N', 'H', '`', 'g', 127, 128, 255 };
    size_t at = random_below(r, (uint32_t)len + 1);
    switch (random_below(r, 9)) {
    case 0: /* a byte changed */
        if (at < len)
            line[at] = odd_bytes[random_below(r, sizeof odd_bytes)];
        return len;
    case 1: /* any byte put in */ {
        uint8_t byte = (uint8_t)random_below(r, 256);
        return put_in(line, len, at, &byte, 1);
    }
    case 2: /* a byte left out */
        if (at < len) {
            memmove(line + at, line + at + 1, len - at - 1);
            return len - 1;
        }
        return len;
    case 3: /* cut off */
        return at;
    case 4: /* a piece put in */ {
        const char *piece = pieces[random_below(r, sizeof pieces / sizeof *pieces)];
        return put_in(line, len, at, piece, strlen(piece));
    }
    case 5: /* a piece put in after an `=` or before a blank, where values stand */ {
        const char *piece = pieces[random_below(r, sizeof pieces / sizeof *pieces)];
        while (at < len && line[at] != ' ' && !(at > 0 && line[at - 1] == '='))
            at++;
        return put_in(line, len, at, piece, strlen(piece));
    }
    case 6: /* a value left out */ {
        size_t end;
        while (at > 0 && line[at - 1] != '=')
            at--;
        end = at;
        while (end < len && line[end] != ' ')
            end++;
        memmove(line + at, line + end, len - end);
        return len - (end - at);
    }
    case 7: /* the kind changed to one that only a fabric=2 journal has */ {
        static const char *const kinds[] = { "op=drop", "op=writeback", "op=victim" };
        const char *kind = kinds[random_below(r, sizeof kinds / sizeof *kinds)];
        const uint8_t *blank = memchr(line, ' ', len);
        size_t end = blank != NULL ? (size_t)(blank - line) : len;
        memmove(line, line + end, len - end);
        return put_in(line, len - end, 0, kind, strlen(kind));
    }
    default: /* made long: around 200 bytes, and now and then far over */ {
        size_t to = random_below(r, 8) == 0 ? 800 : 196 + random_below(r, 10);
        while (len < to)
            line[len++] = (uint8_t)"0123456789abcdef"[random_below(r, 16)];
        return len;
    }
    }
}
