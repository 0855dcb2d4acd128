/*
 * The library with a fault, for tests/host/selftest: the functions of fabric.h, each of which calls the right one, which has `right_` in its name
 * in the place of `fabric_`. The fault is -DFAULT=NAME.
 */
#include "fabric.h"

#include <string.h>

uint32_t right_check_line(const uint8_t *line, size_t len);
uint32_t right_check(const uint8_t *journal, size_t len, size_t *line);
size_t right_list(const uint8_t *journal, size_t len, uint8_t *out, size_t room);
size_t right_tally(const uint8_t *journal, size_t len, uint8_t *out, size_t room);
uint32_t right_to1(const uint8_t *journal, size_t len, uint8_t *out, size_t room, size_t *length);
uint32_t right_to2(const uint8_t *journal, size_t len, uint8_t *out, size_t room, size_t *length);

enum fault {
    NONE,
    CHECK_FROM_0,     /* counts lines from 0 */
    CHECK_LINES_READ, /* says how many lines were read before the one that is refused */
    CHECK_LONG_LINES, /* counts the lines of a journal that is too long */
    CHECK_NUMBER,     /* says 11 where it is 12 */
    CHECK_HALF,       /* writes half of *line */
    CHECK_PAST,       /* writes past *line */
    LIST_PAST,        /* writes a byte past the listing */
    LIST_PAST_ROOM,   /* writes a byte past the buffer */
    LIST_BEFORE,      /* writes a byte before the buffer */
    LIST_CUT_LENGTH,  /* returns the length of what was written of a listing without room */
    LIST_CUT_LINE,    /* fills the buffer with a part of a line */
    LIST_CUT_CLEARS,  /* clears what is left of the buffer */
    LIST_CUT_NONE,    /* writes nothing where there is no room for all */
    LIST_SPLIT,       /* writes the line that ends a run without the end line */
    LIST_TIGHT,       /* needs a byte more than the listing has */
    LIST_OTHER,       /* writes another listing for some journals */
    LIST_JOURNAL,     /* changes the journal */
    LIST_STACK,       /* takes 600 KiB of stack */
    LIST_STATE,       /* gives the last journal's listing again for one at the same address and of the same size */
    LIST_SHARED,      /* works in a buffer that all calls share */
    LIST_READS_PAST,  /* reads the byte after the journal: valgrind sees it */
    TALLY_CUT,        /* writes what has room */
    TALLY_COUNT,      /* counts a serve too many, where there are some */
    TALLY_MOST,       /* needs FABRIC_MOST_TALLY bytes */
    TALLY_SHARED,     /* plays a copy of the journal in a buffer that all calls share */
    TO_LENGTH,        /* writes *length where it refuses */
    TO_NO_LENGTH,     /* never writes *length */
    TO_OUT,           /* writes to the buffer where it refuses */
    TO_CUT,           /* writes as much of the result as has room */
    TO_ROOM_FIRST,    /* looks at the room first */
    TO_PAST,          /* writes a byte past the result */
    TO_OTHER,         /* writes another result for some journals */
    TO_SHARED         /* converts a copy of the journal in a buffer that all calls share */
};

static const enum fault fault = FAULT;

/* Buffers as large as any listing, the second for the last call's, and its journal. */
static uint8_t shared[1 << 20], last[1 << 20];
static const uint8_t *last_journal;
static size_t last_len, last_size;

/* Where the line starts that ends before a byte. */
static size_t line_before(const uint8_t *text, size_t end)
{
    size_t at = end > 0 ? end - 1 : 0;
    while (at > 0 && text[at - 1] != '\n')
        at--;
    return at;
}

uint32_t fabric_check_line(const uint8_t *line, size_t len)
{
    return right_check_line(line, len);
}

uint32_t fabric_check(const uint8_t *journal, size_t len, size_t *line)
{
    size_t is;
    uint32_t number = right_check(journal, len, &is);
    if (fault == CHECK_HALF) {
        memcpy(line, &is, sizeof is / 2);
        return number;
    }
    *line = is;
    if (fault == CHECK_FROM_0 || (fault == CHECK_LINES_READ && number != 0))
        *line = is - 1;
    if (fault == CHECK_LONG_LINES && number == FABRIC_JOURNAL_TOO_LONG)
        for (size_t i = 0; i < len; i++)
            *line += journal[i] == '\n';
    if (fault == CHECK_PAST)
        line[1] = 0;
    return fault == CHECK_NUMBER && number == FABRIC_JOURNAL_WRONG_NUMBER ? FABRIC_JOURNAL_NO_FORM : number;
}

/* What the faults do where a listing has no room, after the right lines were written. */
static size_t list_cut(const uint8_t *journal, size_t len, uint8_t *out, size_t room)
{
    size_t size = right_list(journal, len, shared, sizeof shared);
    size_t end = line_before(shared, size), written = 0;
    for (size_t i = 0; i < room; i++)
        if (shared[i] == '\n')
            written = i + 1;
    if (fault == LIST_SPLIT && written == end)
        memcpy(out, shared, end);
    if (fault == LIST_CUT_LINE)
        memcpy(out, shared, room);
    if (fault == LIST_CUT_CLEARS)
        memset(out + written, 0, room - written);
    return fault == LIST_CUT_LENGTH ? written : FABRIC_NO_ROOM;
}

/* A listing by way of a buffer that all calls share, as far as it has room. */
static size_t list_shared(const uint8_t *journal, size_t len, uint8_t *out, size_t room)
{
    size_t size = right_list(journal, len, shared, sizeof shared);
    if (size > room)
        return right_list(journal, len, out, room);
    memcpy(out, shared, size);
    return size;
}

/* The listing of the last call, if its journal was at the same place and as long. */
static size_t list_again(const uint8_t *journal, size_t len, uint8_t *out, size_t room)
{
    if (journal != last_journal || len != last_len) {
        last_size = right_list(journal, len, last, sizeof last);
        last_journal = journal;
        last_len = len;
    }
    if (last_size > room)
        return right_list(journal, len, out, room);
    memcpy(out, last, last_size);
    return last_size;
}

/* A listing after 600 KiB of the stack were used. */
static size_t list_deep(const uint8_t *journal, size_t len, uint8_t *out, size_t room)
{
    volatile uint8_t deep[600 * 1024];
    for (size_t i = 0; i < sizeof deep; i += 1024)
        deep[i] = 1;
    return right_list(journal, len, out, room) + deep[1024] - 1;
}

size_t fabric_list(const uint8_t *journal, size_t len, uint8_t *out, size_t room)
{
    size_t size;
    if (fault == LIST_CUT_NONE && right_list(journal, len, shared, sizeof shared) > room)
        return FABRIC_NO_ROOM;
    size = fault == LIST_SHARED  ? list_shared(journal, len, out, room)
           : fault == LIST_STATE ? list_again(journal, len, out, room)
           : fault == LIST_STACK ? list_deep(journal, len, out, room)
                                 : right_list(journal, len, out, room);
    if (size == FABRIC_NO_ROOM)
        size = list_cut(journal, len, out, room);
    if (fault == LIST_PAST && size < room)
        out[size] = 0;
    if (fault == LIST_PAST_ROOM)
        out[room] = 0;
    if (fault == LIST_BEFORE)
        out[-1] = 0;
    if (fault == LIST_OTHER && len % 8 == 2 && size <= room)
        out[0] = 'N';
    if (fault == LIST_JOURNAL && len > 0)
        ((uint8_t *)journal)[len - 1] ^= 1;
    if (fault == LIST_READS_PAST && journal[len] == 'x')
        return 0;
    return fault == LIST_TIGHT && size == room ? FABRIC_NO_ROOM : size;
}

size_t fabric_tally(const uint8_t *journal, size_t len, uint8_t *out, size_t room)
{
    size_t size;
    if (fault == TALLY_MOST && room < FABRIC_MOST_TALLY)
        return FABRIC_NO_ROOM;
    if (fault == TALLY_SHARED)
        memcpy(shared, journal, len);
    size = right_tally(fault == TALLY_SHARED ? shared : journal, len, out, room);
    if (fault == TALLY_CUT && size == FABRIC_NO_ROOM && right_tally(journal, len, shared, sizeof shared) > 0)
        memcpy(out, shared, room);
    if (fault == TALLY_COUNT && size <= room && out[size - 2] > '0' && out[size - 2] < '9')
        out[size - 2]++;
    return size;
}

/* What a conversion comes to, of which the right one is given. */
static uint32_t converted(uint32_t (*right)(const uint8_t *, size_t, uint8_t *, size_t, size_t *), const uint8_t *journal, size_t len, uint8_t *out,
                          size_t room, size_t *length)
{
    size_t size = 0;
    uint32_t number;
    if (fault == TO_ROOM_FIRST && room + 20 < len)
        return FABRIC_JOURNAL_TOO_LONG;
    if (fault == TO_SHARED)
        memcpy(shared, journal, len);
    number = right(fault == TO_SHARED ? shared : journal, len, out, room, &size);
    if (number == 0 && fault != TO_NO_LENGTH)
        *length = size;
    if (number != 0 && fault == TO_LENGTH)
        *length = 0;
    if (number != 0 && fault == TO_OUT && room > 0)
        out[0] = 'f';
    if (number == FABRIC_JOURNAL_TOO_LONG && fault == TO_CUT && right(journal, len, shared, FABRIC_MOST_RESULT, &size) == 0)
        memcpy(out, shared, room);
    if (number == 0 && fault == TO_PAST && size < room)
        out[size] = 0;
    if (number == 0 && fault == TO_OTHER && size % 8 == 3)
        out[0] = 'F';
    return number;
}

uint32_t fabric_to1(const uint8_t *journal, size_t len, uint8_t *out, size_t room, size_t *length)
{
    return converted(right_to1, journal, len, out, room, length);
}

uint32_t fabric_to2(const uint8_t *journal, size_t len, uint8_t *out, size_t room, size_t *length)
{
    return converted(right_to2, journal, len, out, room, length);
}
