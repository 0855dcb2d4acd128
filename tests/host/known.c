#define _POSIX_C_SOURCE 200809L
#include "known.h"
#include "fabric.h"
#include "journals.h"

#include <dirent.h>
#include <pthread.h>
#include <stdarg.h>
#include <stdio.h>
#include <stdlib.h>
#include <string.h>

/* The program ends when so much is wrong. */
#define MOST_WRONG 30

const struct converter converters[CONVERTERS] = {
    { "to1", "fabric=1", fabric_to1 },
    { "to2", "fabric=2", fabric_to2 },
};

struct known *all;
size_t known;
unsigned failed;

void wrong(const struct known *k, const char *format, ...)
{
    static pthread_mutex_t saying = PTHREAD_MUTEX_INITIALIZER;
    va_list arguments;
    va_start(arguments, format);
    pthread_mutex_lock(&saying);
    fprintf(stderr, "%s: ", k->name);
    vfprintf(stderr, format, arguments);
    fprintf(stderr, "\n");
    if (++failed == MOST_WRONG) {
        fprintf(stderr, "test_library: %u wrong; no more is tried\n", failed);
        exit(1);
    }
    pthread_mutex_unlock(&saying);
    va_end(arguments);
}

/* One more journal, of which nothing is known yet. */
static struct known *add(const char *name, const void *journal, size_t len)
{
    static size_t room;
    struct known *k;
    if (known == room) {
        struct known *more = memory((room = 2 * room + 64) * sizeof *all);
        if (known > 0)
            memcpy(more, all, known * sizeof *all);
        free(all);
        all = more;
    }
    if (len > JOURNAL_ROOM) {
        fprintf(stderr, "test_library: %s has more than %d bytes\n", name, JOURNAL_ROOM);
        exit(2);
    }
    k = &all[known++];
    memset(k, 0, sizeof *k);
    snprintf(k->name, sizeof k->name, "%s", name);
    k->journal = bytes_of(journal, len);
    k->copy = bytes_of(journal, len);
    k->few_rooms = len >= LONG_JOURNAL;
    return k;
}

/* ---- the kept ones */

static int by_name(const void *a, const void *b)
{
    return strcmp(((const struct known *)a)->name, ((const struct known *)b)->name);
}

/* The file of a folder with a name and an ending. */
static struct bytes file_of(const char *folder, const char *name, const char *ending)
{
    char path[512];
    snprintf(path, sizeof path, "%s/%s%s", folder, name, ending);
    return file_at(path);
}

/* The journals of a folder, sorted by name; how many. */
static size_t add_folder(const char *folder)
{
    size_t before = known;
    struct dirent *entry;
    DIR *entries = opendir(folder);
    if (entries == NULL) {
        fprintf(stderr, "test_library: no folder that can be read: %s\n", folder);
        exit(2);
    }
    while ((entry = readdir(entries)) != NULL) {
        char *end = strrchr(entry->d_name, '.');
        if (end != NULL && strcmp(end, ".journal") == 0) {
            struct bytes journal = file_of(folder, entry->d_name, "");
            *end = 0;
            add(entry->d_name, journal.at, journal.size);
            free_bytes(&journal);
        }
    }
    closedir(entries);
    if (known > before)
        qsort(all + before, known - before, sizeof *all, by_name);
    return known - before;
}

size_t add_kept(const char *folder)
{
    size_t added = add_folder(folder);
    for (size_t i = known - added; i < known; i++) {
        all[i].listing = file_of(folder, all[i].name, ".listing");
        all[i].tally = file_of(folder, all[i].name, ".tally");
    }
    return added;
}

/* The number of a result that is a line with `refused=`, or 0. */
static uint32_t refusal_in(const struct bytes *result)
{
    char text[16] = "";
    unsigned number = 0;
    if (result->size < sizeof text)
        memcpy(text, result->at, result->size);
    return sscanf(text, "refused=%u", &number) == 1 ? number : 0;
}

size_t add_conversions(const char *folder)
{
    size_t added = add_folder(folder);
    for (size_t i = known - added; i < known; i++) {
        struct bytes result = file_of(folder, all[i].name, ".result");
        for (size_t to = 0; to < CONVERTERS; to++)
            if (strncmp(all[i].name, converters[to].name, strlen(converters[to].name)) == 0) {
                struct converted *is = &all[i].converted[to];
                is->number = refusal_in(&result);
                is->result = bytes_of(result.at, is->number == 0 ? result.size : 0);
            }
        free_bytes(&result);
    }
    return added;
}

/* ---- the others */

/* Journals of one byte many times. */
static void add_bytes(size_t size)
{
    static const uint8_t values[] = { 0, '\n', ' ', '0', 255 };
    static uint8_t journal[JOURNAL_ROOM];
    for (size_t v = 0; v < SIZE_OF(values); v++) {
        char name[80];
        memset(journal, values[v], size);
        snprintf(name, sizeof name, "%zu-bytes-of-%u", size, values[v]);
        add(name, journal, size)->few_rooms = 1;
    }
}

/* Journals of both forms with many steps, and one with as long answers to short lines as there are: loads of 64 bytes at a late timestamp. */
static void add_steps(size_t size)
{
    static const struct steps {
        const char *start, *step;
    } all_steps[] = {
        { "fabric=1 cores=1 lines=1 width=1 lease=10\n", "" },
        { "fabric=2 cores=16 lines=64 width=64 lease=1000 cap=64\n", "" },
        { "fabric=1 cores=1 lines=1 width=64 lease=1000\nop=advance core=0 by=4294960000\n"
          "op=load core=0 line=0\nop=serve core=0\nop=receive core=0\n",
          "op=load core=0 line=0\n" },
    };
    static uint8_t journal[JOURNAL_ROOM];
    for (size_t s = 0; s < SIZE_OF(all_steps); s++) {
        const char *step = all_steps[s].step;
        size_t len = strlen(all_steps[s].start);
        char name[80];
        memcpy(journal, all_steps[s].start, len);
        for (; strlen(step) > 0 && len + 300 < size; len += strlen(step))
            memcpy(journal + len, step, strlen(step));
        snprintf(name, sizeof name, "%zu-bytes-of-steps-%zu", size, s + 1);
        add(name, journal, filled_journal(journal, len, size))->few_rooms = 1;
    }
}

size_t add_edges(void)
{
    static const size_t few[] = { 0, 1, 200, 201 }, many[] = { 65535, 65536, 65537, JOURNAL_ROOM };
    size_t before = known;
    for (size_t i = 0; i < SIZE_OF(few); i++)
        add_bytes(few[i]);
    for (size_t i = 0; i < SIZE_OF(many); i++) {
        add_bytes(many[i]);
        add_steps(many[i]);
    }
    return known - before;
}

size_t add_made(uint64_t seed, size_t count)
{
    static uint8_t journal[JOURNAL_ROOM];
    struct random r = { seed };
    struct bytes *given = memory((1 + CONVERTERS) * known * sizeof *given);
    size_t there = 0;
    for (size_t i = 0; i < known; i++) {
        given[there++] = all[i].copy;
        for (size_t to = 0; to < CONVERTERS; to++)
            if (all[i].converted[to].number == 0)
                given[there++] = all[i].converted[to].result;
    }
    for (size_t i = 0; i < count; i++) {
        char name[80];
        snprintf(name, sizeof name, "made-%zu", i);
        add(name, journal, made_journal(&r, given, there, journal))->few_rooms = 1;
    }
    free(given);
    return count;
}

/* A text of a size that the library said, in a buffer with some room. */
static struct bytes said(const struct known *k, const char *function, const uint8_t *out, size_t size, size_t room)
{
    if (size <= room)
        return bytes_of(out, size);
    wrong(k, "fabric_%s with room %zu said a size of %zu", function, room, size);
    return bytes_of(out, 0);
}

/* Asks the library what is not known of a journal. */
static void ask(struct known *k)
{
    static uint8_t out[FABRIC_LISTING_ROOM(JOURNAL_ROOM)];
    size_t room = FABRIC_LISTING_ROOM(k->journal.size);
    if (k->listing.at == NULL)
        k->listing = said(k, "list", out, fabric_list(k->journal.at, k->journal.size, out, room), room);
    if (k->listing.size > room)
        wrong(k, "its listing has %zu bytes, more than FABRIC_LISTING_ROOM", k->listing.size);
    if (k->tally.at == NULL)
        k->tally = said(k, "tally", out, fabric_tally(k->journal.at, k->journal.size, out, FABRIC_MOST_TALLY), FABRIC_MOST_TALLY);
    for (size_t to = 0; to < CONVERTERS; to++) {
        struct converted *is = &k->converted[to];
        size_t size = SIZE_MAX;
        if (is->result.at != NULL)
            continue;
        is->number = converters[to].convert(k->journal.at, k->journal.size, out, FABRIC_MOST_RESULT, &size);
        is->result = said(k, converters[to].name, out, is->number == 0 ? size : 0, FABRIC_MOST_RESULT);
    }
    read_end(k);
}

void ask_from(size_t first)
{
    for (size_t i = first; i < known; i++)
        ask(&all[i]);
}

/* Writes a file of a journal to a folder of a folder; its name begins with a word and the journal's number. */
static void write_part(const char *folder, const char *start, const struct known *k, const char *ending, const void *bytes, size_t size)
{
    char path[1024];
    snprintf(path, sizeof path, "%s/%s-%zu-%s%s", folder, start, (size_t)(k - all), k->name, ending);
    write_file(path, bytes, size);
}

/* Writes a conversion, if it is to another form than the journal has: the journal, and the result or the line with `refused=`. */
static void write_conversion(const char *folder, const struct known *k, size_t to)
{
    const struct converted *is = &k->converted[to];
    const char *gives = converters[to].gives;
    char start[32], refused[32];
    int size = snprintf(refused, sizeof refused, "refused=%u\n", is->number);
    if (k->copy.size > strlen(gives) && memcmp(k->copy.at, gives, strlen(gives)) == 0)
        return;
    snprintf(start, sizeof start, "conversions/%s", converters[to].name);
    write_part(folder, start, k, ".journal", k->copy.at, k->copy.size);
    if (is->number != 0)
        write_part(folder, start, k, ".result", refused, (size_t)size);
    else
        write_part(folder, start, k, ".result", is->result.at, is->result.size);
}

void write_from(size_t first, const char *folder)
{
    for (size_t i = first; i < known; i++) {
        const struct known *k = &all[i];
        write_part(folder, "journals/of", k, ".journal", k->copy.at, k->copy.size);
        write_part(folder, "journals/of", k, ".listing", k->listing.at, k->listing.size);
        write_part(folder, "journals/of", k, ".tally", k->tally.at, k->tally.size);
        for (size_t to = 0; to < CONVERTERS; to++)
            write_conversion(folder, k, to);
    }
}

void free_all(void)
{
    for (size_t i = 0; i < known; i++) {
        free_bytes(&all[i].journal);
        free_bytes(&all[i].copy);
        free_bytes(&all[i].listing);
        free_bytes(&all[i].tally);
        for (size_t to = 0; to < CONVERTERS; to++)
            free_bytes(&all[i].converted[to].result);
    }
    free(all);
}
