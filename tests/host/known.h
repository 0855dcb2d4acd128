/* Journals, each with what the library has to make of it: as it is kept, or as the library said when it was asked first. */
#ifndef KNOWN_H
#define KNOWN_H

#include "blocks.h"

/* A journal is long from here on. */
#define LONG_JOURNAL 20000

/* How many rows a table has. */
#define SIZE_OF(table) (sizeof(table) / sizeof *(table))

/* What converts, in the order of `converters`. */
enum { TO1, TO2, CONVERTERS };

/* The name, with which those kept begin, what a journal of the form begins with that it gives, and the function. */
struct converter {
    const char *name, *gives;
    uint32_t (*convert)(const uint8_t *journal, size_t len, uint8_t *out, size_t room, size_t *length);
};

extern const struct converter converters[CONVERTERS];

/* What a conversion gives: a number, and where it is 0 the result. */
struct converted {
    uint32_t number;
    struct bytes result;
};

/* A journal, with a second copy that the library never sees; few rooms are tried for a long one, and for one that is not kept. */
struct known {
    char name[80];
    struct bytes journal, copy;
    int few_rooms;
    struct bytes listing, tally;
    uint32_t number;
    size_t line;
    struct converted converted[CONVERTERS];
};

/* All journals, and how many there are. */
extern struct known *all;
extern size_t known;

/* How often something was wrong. */
extern unsigned failed;

/* Counts something that is wrong with a journal, and names it; ends the program when that is much. May be called in threads. */
void wrong(const struct known *k, const char *format, ...);

/* The number and the line of a journal are those that its listing says at its end. */
void read_end(struct known *k);

/* Counts the lines of a listing, beside the journal's: the tally and the end line have to be what they come to. */
void see_that_counts_agree(const struct known *k);

/* How many bytes of a listing are written where it has no room: as many lines as have, and the last two, where they end the run, not one
   without the other. */
size_t cut_listing(const struct known *k, size_t room);

/* The journals of a folder, sorted by name, with their listings and tallies; the conversions of a folder. How many. */
size_t add_kept(const char *folder);
size_t add_conversions(const char *folder);

/* Journals of one byte many times, and right ones that are as long as may be, and longer. How many. */
size_t add_edges(void);

/* Journals made from a seed, of all that there are and of what these convert to. How many. */
size_t add_made(uint64_t seed, size_t count);

/* What is not kept, of the journals from one on, the library is asked, with room for all there is. */
void ask_from(size_t first);

/* Writes the journals from one on to the folders `journals` and `conversions` of a folder, as kept ones are; no conversions to the form that
   a journal has. */
void write_from(size_t first, const char *folder);

/* Gives back the memory of the journals. */
void free_all(void);

#endif
