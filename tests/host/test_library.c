/*
 * Checks fabric_check, fabric_list, fabric_tally, fabric_to1 and fabric_to2 as fabric.h promises them, in the repository's root: on the kept
 * journals, the examples and the kept conversions, on journals at the edges of size, and on journals made from a seed. First each is played where
 * the one before it was. Then each is given in a block of exactly its size, and what is written is looked at byte for byte, where there is room and
 * where there is not, in blocks of exactly their size and between guards. Then eight threads play all of them at once, on stacks of 512 KiB. Where
 * one of these fails, the next is not tried. Prints one line; names what is wrong, and exits with 1 if anything is.
 *
 * test_library [SEED [ROUNDS [FOLDER]]]: the seed of the journals that are made, how often the threads play all of them (default: 2), and a folder
 * to write the journals to that are not kept, with what the library makes of them, to its folders `journals` and `conversions`.
 */
#define _POSIX_C_SOURCE 200809L
#include "fabric.h"
#include "journals.h"
#include "known.h"

#include <pthread.h>
#include <stdio.h>
#include <stdlib.h>
#include <string.h>

#define MADE 400
#define THREADS 8
#define STACK (512 * 1024)

/* How many bytes guard a buffer, and a number, which has to be where numbers may be. */
#define GUARD 67
#define GUARD_OF_NUMBER (8 * sizeof(size_t))

/* A text that the library writes is long from here on. */
#define LONG_TEXT 2000

/* Each number has to be met so often. */
#define FEWEST 2

/* ---- one call at a time */

/* The journal is as it was. */
static void see_that_journal_stays(const struct known *k, const char *function)
{
    if (!same_bytes(&k->copy, k->journal.at, k->journal.size))
        wrong(k, "%s changed the journal", function);
}

/* What fabric_list or fabric_tally did with a buffer: where a text has room it returns its size and writes it; where not, it writes the first
   `cut` bytes. */
static void see_text(const struct known *k, const char *function, const struct lent *out, size_t returned, const struct bytes *text, size_t cut)
{
    int fits = out->size >= text->size;
    size_t written = fits ? text->size : cut;
    if (returned != (fits ? text->size : FABRIC_NO_ROOM))
        wrong(k, "%s with room %zu of %zu returned %zu", function, out->size, text->size, returned);
    else if (memcmp(out->at, text->at, written) != 0)
        wrong(k, "%s with room %zu of %zu wrote something else", function, out->size, text->size);
    else if (!is_as_lent(out, written))
        wrong(k, "%s with room %zu of %zu wrote elsewhere than in the first %zu bytes", function, out->size, text->size, written);
    see_that_journal_stays(k, function);
}

static void try_list(const struct known *k, size_t room, size_t guard)
{
    struct lent out = lend(room, guard);
    size_t returned = fabric_list(k->journal.at, k->journal.size, out.at, room);
    see_text(k, "fabric_list", &out, returned, &k->listing, cut_listing(k, room));
    take_back(&out);
}

static void try_tally(const struct known *k, size_t room, size_t guard)
{
    struct lent out = lend(room, guard);
    size_t returned = fabric_tally(k->journal.at, k->journal.size, out.at, room);
    see_text(k, "fabric_tally", &out, returned, &k->tally, 0);
    take_back(&out);
}

/* Lends the bytes of a number, and says which it is then. */
static struct lent lend_number(size_t guard)
{
    return lend(sizeof(size_t), guard > 0 ? GUARD_OF_NUMBER : 0);
}

static size_t number_in(const struct lent *lent)
{
    size_t number;
    memcpy(&number, lent->at, sizeof number);
    return number;
}

static void try_check(const struct known *k, size_t guard)
{
    struct lent line = lend_number(guard);
    uint32_t number = fabric_check(k->journal.at, k->journal.size, (size_t *)(void *)line.at);
    if (number != k->number || number_in(&line) != k->line)
        wrong(k, "fabric_check said %u at line %zu, not %u at line %zu", number, number_in(&line), k->number, k->line);
    else if (!is_as_lent(&line, line.size))
        wrong(k, "fabric_check wrote elsewhere than in *line");
    see_that_journal_stays(k, "fabric_check");
    take_back(&line);
}

static void try_conversion(const struct known *k, size_t to, size_t room, size_t guard)
{
    const struct converted *is = &k->converted[to];
    uint32_t expected = is->number != 0 ? is->number : room < is->result.size ? FABRIC_JOURNAL_TOO_LONG : FABRIC_JOURNAL_RIGHT;
    size_t written = expected == 0 ? is->result.size : 0;
    struct lent out = lend(room, guard), length = lend_number(guard);
    uint32_t number = converters[to].convert(k->journal.at, k->journal.size, out.at, room, (size_t *)(void *)length.at);
    char what[80];
    snprintf(what, sizeof what, "fabric_%s with room %zu of %zu", converters[to].name, room, is->result.size);
    if (number != expected)
        wrong(k, "%s returned %u, not %u", what, number, expected);
    else if (!is_as_lent(&length, number == 0 ? length.size : 0))
        wrong(k, "%s returned %u and wrote %s *length", what, number, number == 0 ? "elsewhere than in" : "to");
    else if (number == 0 && number_in(&length) != written)
        wrong(k, "%s said a length of %zu", what, number_in(&length));
    else if (memcmp(out.at, is->result.at, written) != 0)
        wrong(k, "%s wrote something else", what);
    else if (!is_as_lent(&out, written))
        wrong(k, "%s returned %u and wrote elsewhere than in the first %zu bytes", what, number, written);
    see_that_journal_stays(k, what);
    take_back(&out);
    take_back(&length);
}

/* ---- the rooms that are tried */

/* Whether a line ends at a place, one before or one after. */
static int is_near_line_end(const struct bytes *text, size_t place)
{
    for (size_t i = place > 2 ? place - 2 : 0; i <= place && i < text->size; i++)
        if (text->at[i] == '\n')
            return 1;
    return 0;
}

/* Of a listing or a tally: of a short one every room; of a long one those near its start and its end, one in several hundred, and some near the
   ends of lines. Where few are tried, those near the ends of the last lines, and some. */
static int is_tried(const struct bytes *text, size_t room, int few)
{
    size_t left = text->size > room ? text->size - room : 0;
    if (few)
        return left < 2 || room % (text->size / 4 + 1) == 0 || (left < 80 && is_near_line_end(text, room));
    return text->size < LONG_TEXT || room < 200 || left < 200 || room % 499 == 0 || (room % 7 == 0 && is_near_line_end(text, room));
}

/* Of a conversion's result: of a short one every room, of any other a few. */
static int is_tried_of_result(size_t size, size_t room, int few)
{
    return (size < LONG_TEXT && !few) || room + 2 > size || room % (size / 4 + 1) == 0;
}

/* Every other room with guards and the rest without; the one that is needed, and one less, both with and without. */
static int is_tried_with(size_t guard, size_t room, size_t needed)
{
    return room == needed || room + 1 == needed || (room % 2 == 0) == (guard > 0);
}

/* Makes all calls for a journal, with the rooms that are tried; how many. */
static unsigned long try_rooms(const struct known *k, size_t guard)
{
    unsigned long calls = 1;
    try_check(k, guard);
    for (size_t room = 0; room <= k->listing.size + 2; room++)
        if (is_tried(&k->listing, room, k->few_rooms) && is_tried_with(guard, room, k->listing.size)) {
            try_list(k, room, guard);
            calls++;
        }
    for (size_t room = 0; room <= k->tally.size + 2; room++)
        if (is_tried(&k->tally, room, k->few_rooms) && is_tried_with(guard, room, k->tally.size)) {
            try_tally(k, room, guard);
            calls++;
        }
    for (size_t to = 0; to < CONVERTERS; to++) {
        size_t size = k->converted[to].result.size;
        for (size_t room = 0; room <= size + 2; room++)
            if (is_tried_of_result(size, room, k->few_rooms) && is_tried_with(guard, room, size)) {
                try_conversion(k, to, room, guard);
                calls++;
            }
        try_conversion(k, to, FABRIC_MOST_RESULT, guard);
        calls++;
    }
    return calls;
}

/* ---- one journal after the other, and many at once */

/* Makes each call for a journal once, with the room that is needed; how many. */
static unsigned long try_each(const struct known *k, size_t guard)
{
    try_check(k, guard);
    try_list(k, k->listing.size, guard);
    try_tally(k, k->tally.size, guard);
    for (size_t to = 0; to < CONVERTERS; to++)
        try_conversion(k, to, k->converted[to].result.size, guard);
    return 3 + CONVERTERS;
}

/* All journals in one block, as a caller has them who reads each into the same buffer: nothing is left of the one before. How many calls. */
static unsigned long try_in_one_block(void)
{
    unsigned long calls = 0;
    uint8_t *block = memory(JOURNAL_ROOM);
    for (size_t i = 0; i < known; i++) {
        struct known here = all[i];
        here.journal.at = block;
        memcpy(block, here.copy.at, here.copy.size);
        calls += try_each(&here, GUARD);
    }
    free(block);
    return calls;
}

/* A thread: the journal that it begins with, how often it plays all, where it waits for the others, and how many calls it made. */
struct thread {
    pthread_t id;
    size_t first, rounds;
    pthread_barrier_t *all_there;
    unsigned long calls;
};

/* Plays all journals, the long ones only once. */
static void *play_all(void *argument)
{
    struct thread *thread = argument;
    pthread_barrier_wait(thread->all_there);
    for (size_t i = 0; i < thread->rounds * known; i++) {
        const struct known *k = &all[(thread->first + i) % known];
        if (i < known || k->journal.size < LONG_JOURNAL)
            thread->calls += try_each(k, 0);
    }
    return NULL;
}

/* Ends the program where a call for a thread failed. */
static void need(int error)
{
    if (error != 0) {
        fprintf(stderr, "test_library: no threads: %s\n", strerror(error));
        exit(2);
    }
}

/* Threads that play all journals at once, each beginning with another; how many calls they made. */
static unsigned long try_threads(size_t rounds)
{
    struct thread threads[THREADS];
    pthread_attr_t small;
    pthread_barrier_t all_there;
    unsigned long calls = 0;
    need(pthread_attr_init(&small));
    need(pthread_attr_setstacksize(&small, STACK));
    need(pthread_barrier_init(&all_there, NULL, THREADS));
    for (size_t i = 0; i < THREADS; i++) {
        threads[i].first = i * known / THREADS;
        threads[i].rounds = rounds;
        threads[i].all_there = &all_there;
        threads[i].calls = 0;
        need(pthread_create(&threads[i].id, &small, play_all, &threads[i]));
    }
    for (size_t i = 0; i < THREADS; i++) {
        need(pthread_join(threads[i].id, NULL));
        calls += threads[i].calls;
    }
    pthread_barrier_destroy(&all_there);
    pthread_attr_destroy(&small);
    return calls;
}

/* ---- all of it */

/* Journals among which a number hardly occurs would show little. The numbers are those of a conversion, of which 32 is for to1 alone. */
static void see_that_all_are_met(void)
{
    static const uint32_t numbers[] = { 0, 7, 10, 11, 12, 13, 14, 32 };
    static const struct known journals = { .name = "the journals" };
    for (size_t n = 0; n < SIZE_OF(numbers); n++) {
        unsigned met = 0, converted[CONVERTERS] = { 0 };
        for (size_t i = 0; i < known; i++) {
            met += all[i].number == numbers[n];
            for (size_t to = 0; to < CONVERTERS; to++)
                converted[to] += all[i].converted[to].number == numbers[n];
        }
        if (met < FEWEST && numbers[n] != 32)
            wrong(&journals, "too much alike: only %u end with %u", met, numbers[n]);
        for (size_t to = 0; to < CONVERTERS; to++)
            if (converted[to] < FEWEST && (numbers[n] != 32 || to == TO1))
                wrong(&journals, "too much alike: fabric_%s answers only %u with %u", converters[to].name, converted[to], numbers[n]);
    }
}

/* A sum over bytes, by FNV-1a. */
static uint64_t summed(uint64_t sum, const void *bytes, size_t size)
{
    for (size_t i = 0; i < size; i++)
        sum = (sum ^ ((const uint8_t *)bytes)[i]) * 1099511628211u;
    return sum;
}

/* A sum over all that the library has to say. */
static uint64_t sum_of_all(void)
{
    uint64_t sum = 14695981039346656037u;
    for (size_t i = 0; i < known; i++) {
        const struct known *k = &all[i];
        sum = summed(summed(sum, k->listing.at, k->listing.size), k->tally.at, k->tally.size);
        for (size_t to = 0; to < CONVERTERS; to++)
            sum = summed(summed(sum, &k->converted[to].number, sizeof(uint32_t)), k->converted[to].result.at, k->converted[to].result.size);
    }
    return sum;
}

int main(int argc, char **argv)
{
    uint64_t seed = argc > 1 ? strtoull(argv[1], NULL, 0) : 0x9e3779b97f4a7c15u;
    size_t rounds = argc > 2 ? strtoul(argv[2], NULL, 10) : 2;
    unsigned long calls = 0, in_threads = 0;
    size_t kept, examples, conversions, made, edges;
    make_first_values();
    kept = add_kept("tests/journals");
    examples = add_kept("examples");
    conversions = add_conversions("tests/conversions");
    ask_from(0);
    made = add_made(seed != 0 ? seed : 1, MADE);
    edges = add_edges();
    ask_from(kept + examples + conversions);
    calls += try_in_one_block();
    see_that_all_are_met();
    for (size_t i = 0; i < known; i++)
        see_that_counts_agree(&all[i]);
    for (size_t i = 0; i < known && failed == 0; i++)
        calls += try_rooms(&all[i], GUARD) + try_rooms(&all[i], 0);
    if (failed == 0)
        in_threads = try_threads(rounds);
    if (argc > 3)
        write_from(kept + examples + conversions, argv[3]);
    printf("library: %zu kept journals, %zu examples, %zu kept conversions, %zu journals made and %zu at edges, %lu calls and %lu in %d threads, "
           "sum %016llx, %u wrong\n",
           kept, examples, conversions, made, edges, calls, in_threads, THREADS, (unsigned long long)sum_of_all(), failed);
    free_all();
    return failed != 0;
}
