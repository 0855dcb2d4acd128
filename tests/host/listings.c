/* What a listing says, for known.h. */
#include "known.h"

#include <stdio.h>
#include <string.h>

/* The numbers that end a listing. */
static const uint32_t ending[] = { 7, 10, 11, 12, 13, 14 };

/* What a tally counts, in its order: what a listing's line says after its place, where the journal's line there begins with a step. */
static const struct count {
    const char *name, *step, *said;
} counts[] = {
    { "loads", "op=load ", "commit=load " },
    { "stores", "op=store ", "commit=store " },
    { "fences", "op=fence ", "commit=fence " },
    { "asks", "op=", "done=ask\n" },
    { "shares", "op=serve ", "done=share\n" },
    { "renews", "op=serve ", "done=renew\n" },
    { "owns", "op=serve ", "done=own\n" },
};

static int is_ending(uint32_t number)
{
    for (size_t i = 0; i < SIZE_OF(ending); i++)
        if (ending[i] == number)
            return 1;
    return 0;
}

/* How many lines end within bytes. */
static size_t lines_of(const struct bytes *text)
{
    size_t lines = 0;
    for (size_t i = 0; i < text->size; i++)
        lines += text->at[i] == '\n';
    return lines;
}

/* Where the line starts that ends before a byte. */
static size_t line_before(const struct bytes *text, size_t end)
{
    size_t at = end > 0 ? end - 1 : 0;
    while (at > 0 && text->at[at - 1] != '\n')
        at--;
    return at;
}

/* Where the line ends that a byte is in. */
static size_t line_after(const struct bytes *text, size_t at)
{
    while (at < text->size && text->at[at++] != '\n')
        ;
    return at;
}

/* Whether the bytes at a place begin with a text. */
static int begins(const struct bytes *bytes, size_t at, const char *text)
{
    return at <= bytes->size && bytes->size - at >= strlen(text) && memcmp(bytes->at + at, text, strlen(text)) == 0;
}

/* Where the last line of a listing starts, and the last two. */
static size_t last_line(const struct known *k)
{
    return line_before(&k->listing, k->listing.size);
}

static size_t last_two(const struct known *k)
{
    return line_before(&k->listing, last_line(k));
}

void read_end(struct known *k)
{
    char text[64], again[64];
    size_t from = last_two(k), place = 0;
    size_t size = k->listing.size - from < sizeof text ? k->listing.size - from : sizeof text - 1;
    unsigned number = 0;
    memcpy(text, k->listing.at + from, size);
    text[size] = 0;
    if (sscanf(text, "n=%zu refused=%u\n", &place, &number) != 2 || !is_ending(number))
        number = 0;
    snprintf(again, sizeof again, "n=%zu refused=%u\nend=%zu ", place, number, place);
    if (number != 0 && !begins(&k->listing, from, again))
        wrong(k, "its listing ends strangely after refused=%u", number);
    k->number = number;
    k->line = number != 0 ? place + 1 : lines_of(&k->journal);
}

/* The tally and the end line that the lines of a listing before its last come to. */
static void count_listing(const struct known *k, char *tally, char *end)
{
    unsigned long counted[SIZE_OF(counts)] = { 0 }, commits = 0, refused = 0;
    size_t place = 0, step = 0, last = last_line(k);
    for (size_t at = 0; at < last; place++) {
        char start[32];
        snprintf(start, sizeof start, "n=%zu ", place);
        if (!begins(&k->listing, at, start))
            wrong(k, "line %zu of its listing does not begin with n=%zu", place + 1, place);
        at += strlen(start);
        commits += begins(&k->listing, at, "commit=");
        refused += begins(&k->listing, at, "refused=");
        for (size_t i = 0; i < SIZE_OF(counts); i++)
            if (begins(&k->listing, at, counts[i].said) && begins(&k->journal, step, counts[i].step))
                counted[i]++;
        at = line_after(&k->listing, at);
        step = line_after(&k->journal, step);
    }
    for (size_t i = 0; i < SIZE_OF(counts); i++)
        tally += sprintf(tally, "%s%s=%lu", i > 0 ? " " : "", counts[i].name, counted[i]);
    sprintf(tally, "\n");
    sprintf(end, "end=%zu commits=%lu refused=%lu\n", place > 0 ? place - 1 : 0, commits, refused);
}

void see_that_counts_agree(const struct known *k)
{
    char tally[40 * SIZE_OF(counts)], end[100];
    count_listing(k, tally, end);
    if (!same_bytes(&k->tally, tally, strlen(tally)))
        wrong(k, "its tally is not what its listing comes to, %.*s", (int)strlen(tally) - 1, tally);
    if (k->listing.size - last_line(k) != strlen(end) || !begins(&k->listing, last_line(k), end))
        wrong(k, "its listing does not end with %.*s", (int)strlen(end) - 1, end);
}

size_t cut_listing(const struct known *k, size_t room)
{
    size_t most = k->number != 0 ? last_two(k) : k->listing.size;
    size_t written = 0;
    for (size_t i = 0; i < room && i < most; i++)
        if (k->listing.at[i] == '\n')
            written = i + 1;
    return written;
}
