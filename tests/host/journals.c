#include "journals.h"

#include <string.h>

/* A part of a journal, from one byte to before another. */
struct part {
    size_t from, to;
};

/* The line with the byte at a place, with its newline if it has one. */
static struct part line_at(const uint8_t *journal, size_t len, size_t place)
{
    struct part line = { place, place };
    while (line.from > 0 && journal[line.from - 1] != '\n')
        line.from--;
    while (line.to < len && journal[line.to] != '\n')
        line.to++;
    if (line.to < len)
        line.to++;
    return line;
}

/* Some line of a journal but its first, if there is one: the first is only its start then. */
static struct part some_step(struct random *r, const uint8_t *journal, size_t len)
{
    size_t first = line_at(journal, len, 0).to;
    return first < len ? line_at(journal, len, first + random_below(r, (uint32_t)(len - first))) : (struct part){ first, first };
}

/* Some line of a journal, every fourth time its first. */
static struct part some_line(struct random *r, const uint8_t *journal, size_t len)
{
    return random_below(r, 4) == 0 ? line_at(journal, len, 0) : some_step(r, journal, len);
}

/* The journal with other bytes in the place of a part; as it was, if it has no room for them. */
static size_t put(uint8_t *journal, size_t len, struct part part, const void *bytes, size_t size)
{
    if (len - (part.to - part.from) + size > JOURNAL_ROOM)
        return len;
    memmove(journal + part.from + size, journal + part.to, len - part.to);
    memcpy(journal + part.from, bytes, size);
    return len - (part.to - part.from) + size;
}

/* A line after an accident of its own. */
static size_t with_damaged_line(struct random *r, uint8_t *journal, size_t len)
{
    uint8_t line[2 * LINE_ROOM];
    struct part part = some_line(r, journal, len);
    size_t size = part.to - part.from;
    if (size > 900)
        return len;
    if (size > 0 && journal[part.to - 1] == '\n') {
        size--;
        part.to--;
    }
    memcpy(line, journal + part.from, size);
    return put(journal, len, part, line, damaged_line(r, line, size));
}

/* A number changed to one at an edge. */
static size_t with_other_number(struct random *r, uint8_t *journal, size_t len)
{
    static const char *const numbers[] = { "0",  "1",  "2",    "3",    "15",         "16",         "17", "63",
                                           "64", "65", "1000", "1001", "4294967295", "4294967296", "00" };
    const char *number = numbers[random_below(r, sizeof numbers / sizeof *numbers)];
    struct part line = some_line(r, journal, len);
    struct part part = { line.from + random_below(r, (uint32_t)(line.to - line.from) + 1), 0 };
    while (part.from < line.to && journal[part.from] != '=')
        part.from++;
    if (part.from == line.to)
        return len;
    part.from++;
    for (part.to = part.from; part.to < line.to && journal[part.to] != ' ' && journal[part.to] != '\n';)
        part.to++;
    return put(journal, len, part, number, strlen(number));
}

/* A digit of some data changed to a byte that is none, or put in. */
static size_t with_wrong_data(struct random *r, uint8_t *journal, size_t len)
{
    static const char data[] = " data=";
    size_t at = random_below(r, (uint32_t)len + 1);
    for (; at + sizeof data < len; at++)
        if (memcmp(journal + at, data, sizeof data - 1) == 0) {
            struct part here = { at + sizeof data - 1, at + sizeof data - 1 + random_below(r, 2) };
            return put(journal, len, here, random_below(r, 2) == 0 ? "0" : "G", 1);
        }
    return len;
}

/* Some steps of another journal, one after another, put in before a step. */
static size_t with_steps_of(struct random *r, uint8_t *journal, size_t len, const struct bytes *other)
{
    struct part from = some_step(r, other->at, other->size);
    struct part to = some_step(r, journal, len);
    for (uint32_t more = random_below(r, 12); more > 0; more--)
        from.to = line_at(other->at, other->size, from.to).to;
    to.to = to.from;
    return put(journal, len, to, other->at + from.from, from.to - from.from);
}

/* A step left out, or put elsewhere. */
static size_t with_moved_step(struct random *r, uint8_t *journal, size_t len, int elsewhere)
{
    uint8_t line[LINE_ROOM];
    struct part part = some_step(r, journal, len);
    size_t size = part.to - part.from;
    if (size > LINE_ROOM)
        return len;
    memcpy(line, journal + part.from, size);
    len = put(journal, len, part, "", 0);
    if (!elsewhere)
        return len;
    part = some_step(r, journal, len);
    part.to = part.from;
    return put(journal, len, part, line, size);
}

size_t filled_journal(uint8_t *journal, size_t len, size_t size)
{
    static const char shorter[] = "op=take line=0\n", longer[] = "op=take line=10\n";
    size_t longer_ones = (size - len) % (sizeof shorter - 1);
    if (size < len + (sizeof longer - 1) * longer_ones)
        return len;
    while (len < size) {
        size_t left = (sizeof longer - 1) * longer_ones;
        const char *line = size - len > left ? shorter : longer;
        memcpy(journal + len, line, strlen(line));
        len += strlen(line);
    }
    return len;
}

/* The journal with other steps. */
static size_t with_other_steps(struct random *r, uint8_t *journal, size_t len, const struct bytes *other)
{
    switch (random_below(r, 4)) {
    case 0:
        return with_moved_step(r, journal, len, 0);
    case 1:
        return with_moved_step(r, journal, len, 1);
    default:
        return with_steps_of(r, journal, len, other);
    }
}

/* The journal after an accident that it hardly survives. */
static size_t with_accident(struct random *r, uint8_t *journal, size_t len)
{
    size_t at = random_below(r, (uint32_t)len + 1);
    struct part here = { at, at };
    switch (random_below(r, 8)) {
    case 0: /* cut off */
        return at;
    case 1: /* a byte put in */
        return put(journal, len, here, random_below(r, 2) == 0 ? "\n" : "", 1);
    case 2:
    case 3:
        return with_wrong_data(r, journal, len);
    case 4:
    case 5:
        return with_damaged_line(r, journal, len);
    default:
        return with_other_number(r, journal, len);
    }
}

/* Bytes of any values, or such as journals have. */
static size_t some_bytes(struct random *r, uint8_t *journal)
{
    static const char usual[] = "fabric=1 op=load core=0 line=1\n\n";
    size_t len = random_below(r, 300);
    int any = random_below(r, 2) == 0;
    for (size_t i = 0; i < len; i++)
        journal[i] = any ? (uint8_t)random_below(r, 256) : (uint8_t)usual[random_below(r, sizeof usual - 1)];
    return len;
}

/* One of the journals given, seldom a long one. */
static const struct bytes *some_given(struct random *r, const struct bytes *given, size_t count)
{
    const struct bytes *one = &given[random_below(r, (uint32_t)count)];
    while (one->size > 20000 && random_below(r, 8) != 0)
        one = &given[random_below(r, (uint32_t)count)];
    return one;
}

/* Another of the journals given, if there is one soon that begins alike. */
static const struct bytes *some_like(struct random *r, const struct bytes *given, size_t count, const struct bytes *one)
{
    const struct bytes *other = some_given(r, given, count);
    for (int i = 0; i < 20 && (one->size < 8 || other->size < 8 || memcmp(one->at, other->at, 8) != 0); i++)
        other = some_given(r, given, count);
    return other;
}

size_t made_journal(struct random *r, const struct bytes *given, size_t count, uint8_t *journal)
{
    const struct bytes *one = some_given(r, given, count);
    size_t len = one->size;
    if (random_below(r, 16) == 0)
        return some_bytes(r, journal);
    memcpy(journal, one->at, len);
    for (uint32_t times = random_below(r, 5); times > 0; times--)
        len = with_other_steps(r, journal, len, some_like(r, given, count, one));
    if (random_below(r, 2) == 0)
        len = with_accident(r, journal, len);
    if (random_below(r, 32) == 0 && len < 65000)
        len = filled_journal(journal, len, 65530 + random_below(r, 10));
    return len;
}
