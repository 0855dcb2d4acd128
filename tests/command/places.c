/*
 * places.c: where the refusals of many journals are. Reads journals from standard input, each as its size in decimal, a newline and its
 * bytes. For each prints three lines, one each for playing it and for converting it to fabric=1 and to fabric=2:
 *
 *     NUMBER FOUND LINE COLUMN FIRST30 SENTENCE
 *
 * NUMBER is the library's, 0 where the journal is not refused; FOUND is 1 where the place was found; FIRST30 is the number of the first
 * line that the listing refuses with 30, for a conversion to fabric=1 that comes as far as that, else 0.
 */
#include "fabric.h"
#include "listing.h"
#include "place.h"

#include <stdio.h>
#include <stdlib.h>
#include <string.h>

/* Ends the program, where the test itself is at fault. */
static void fail(const char *why)
{
    fprintf(stderr, "places: %s\n", why);
    exit(2);
}

/* The number of the first line that a listing refuses with 30, or 0. Each line of a listing is of the journal's line at its place. */
static size_t first_30(const uint8_t *listing, size_t length)
{
    static const char refused[] = " refused=30\n";
    size_t line = 1;
    for (size_t i = 0; i < length; i++) {
        if (length - i >= strlen(refused) && memcmp(listing + i, refused, strlen(refused)) == 0)
            return line;
        line += listing[i] == '\n';
    }
    return 0;
}

/* Prints a refusal's line. */
static void print(const struct refusal *refusal, size_t first30)
{
    struct place place = { 0, 0, 0, "" };
    int found = refusal->number == FABRIC_JOURNAL_RIGHT || find_place(refusal, &place);
    printf("%u %d %zu %zu %zu %s\n", (unsigned)refusal->number, found, place.line, place.column, first30, place.sentence);
}

/* Looks a journal over. */
static void play(const uint8_t *journal, size_t size)
{
    struct refusal refusal = { .use = PLAY, .journal = journal, .size = size };
    refusal.number = fabric_check(journal, size, &refusal.line);
    print(&refusal, 0);
}

/* Converts a journal. Whether a step answers 30 is decided only where 14 of the journal, 10 to 13 and 7 do not apply. */
static void convert(enum use use, const uint8_t *journal, size_t size)
{
    static uint8_t result[FABRIC_MOST_RESULT];
    struct refusal refusal = { .use = use, .journal = journal, .size = size };
    uint8_t *listing = NULL;
    size_t length, first30 = 0;
    refusal.number = use == CONVERT_TO_1 ? fabric_to1(journal, size, result, sizeof result, &length)
                                         : fabric_to2(journal, size, result, sizeof result, &length);
    if (use == CONVERT_TO_1 && (refusal.number == 0 || refusal.number == 14 || refusal.number == 32)) {
        listing = listing_of(journal, size, &refusal.listing_size);
        if (listing == NULL)
            fail("no memory");
        first30 = first_30(listing, refusal.listing_size);
    }
    refusal.listing = listing;
    print(&refusal, first30);
    free(listing);
}

int main(void)
{
    size_t size;
    while (scanf("%zu", &size) == 1) {
        /* Exactly so many bytes, so that a read outside them is one outside a block of memory. */
        uint8_t *journal = malloc(size > 0 ? size : 1);
        if (journal == NULL)
            fail("no memory");
        if (getchar() != '\n' || fread(journal, 1, size, stdin) != size)
            fail("not what was expected on standard input");
        play(journal, size);
        convert(CONVERT_TO_1, journal, size);
        convert(CONVERT_TO_2, journal, size);
        free(journal);
    }
    return fflush(stdout) == 0 ? 0 : 2;
}
