/*
 * place.h: where in a journal a refusal is, and its sentence. The number is the library's; here is only looked for what has it. Tested,
 * not proved.
 */
#ifndef PLACE_H
#define PLACE_H

#include <stddef.h>
#include <stdint.h>

/* What is done with a journal. It decides which lines may be there, and in which order they are looked at. */
enum use { PLAY, CONVERT_TO_1, CONVERT_TO_2 };

/* A refusal of a journal, as the library told it. */
struct refusal {
    enum use use;
    const uint8_t *journal;
    size_t size;
    uint32_t number;
    size_t line;            /* that the library told, or 0 */
    const uint8_t *listing; /* of the journal, for 32; else not looked at */
    size_t listing_size;
};

/* The room of a sentence. */
#define SENTENCE_ROOM 160

/* Where a refusal is. */
struct place {
    uint32_t number;
    size_t line;   /* counted from 1; 0 where it is no line's, or not known */
    size_t column; /* in bytes, counted from 1; 0 as well */
    char sentence[SENTENCE_ROOM];
};

/*
 * Finds the place of a refusal. Returns whether something with its number is wrong there, on the line that the library told. Where nothing
 * is, which must not happen, the place is that line without a column, and the sentence that of the number.
 */
int find_place(const struct refusal *refusal, struct place *place);

#endif
