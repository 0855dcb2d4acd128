/*
 * play.c: a toy simulator that writes a `fabric=1` journal, plays it, and compares its own loads with those of the fabric.
 *
 * Two cores count in one line of memory, in turn: a core gets the line as its own, loads the count and stores one more. The journal goes to
 * standard output; how the loads compare goes to standard error. `play stale` has a fault: a core that gets the line goes on with the count
 * that it had. Exits with 0 if all loads are the same, with 1 if one is not, and with 2 if something failed.
 */
#include "fabric.h"

#include <stdarg.h>
#include <stdio.h>
#include <stdlib.h>
#include <string.h>

#define TURNS 4

/* The journal so far, the count as each core has it, and what was loaded in each turn. */
struct run {
    uint8_t journal[FABRIC_MOST_JOURNAL];
    size_t len;
    unsigned count[2], loaded[TURNS];
};

/* Ends the program, which can't go on. */
static void give_up(const char *why)
{
    fprintf(stderr, "play: %s\n", why);
    exit(2);
}

/* Adds a step line to the journal, once the library has checked it. */
static void add_step(struct run *run, const char *form, ...)
{
    uint8_t *line = run->journal + run->len;
    size_t room = sizeof run->journal - run->len, len;
    va_list values;
    va_start(values, form);
    len = (size_t)vsnprintf((char *)line, room, form, values);
    va_end(values);
    if (len >= room || fabric_check_line(line, len) != FABRIC_LINE_STEP)
        give_up("no room for a line, or one that is no step line");
    line[len] = '\n';
    run->len += len + 1;
}

/* A core's turn. Its first store asks for the line, which from the second turn on the other core has; its load and last store commit. */
static void take_turn(struct run *run, int turn, int stale)
{
    int core = turn % 2;
    add_step(run, "op=store core=%d line=0 data=00", core);
    if (turn > 0) {
        add_step(run, "op=serve core=%d", core); /* the manager recalls the line, */
        add_step(run, "op=yield line=0");        /* the other core gives it back, */
        add_step(run, "op=take line=0");         /* and the manager has it again */
    }
    add_step(run, "op=serve core=%d", core);
    add_step(run, "op=receive core=%d", core);
    if (!stale)
        run->count[core] = run->count[1 - core];
    run->loaded[turn] = run->count[core]++;
    add_step(run, "op=load core=%d line=0", core);
    add_step(run, "op=store core=%d line=0 data=%02x", core, run->count[core]);
}

/* The journal's listing, as a string that the caller frees. The buffer is doubled until the listing fits. */
static char *listing_of(const struct run *run)
{
    uint8_t *out = NULL;
    size_t room = 256, len = FABRIC_NO_ROOM;
    for (; len == FABRIC_NO_ROOM; room *= 2) {
        out = realloc(out, room + 1);
        if (out == NULL)
            give_up("no memory for the listing");
        len = fabric_list(run->journal, run->len, out, room);
    }
    out[len] = 0;
    return (char *)out;
}

/* How many loads of the listing, in their order, have what the simulator loaded. Says which have not. */
static int same_loads(const struct run *run, char *listing)
{
    int turn = 0, same = 0;
    unsigned data;
    char *answer;
    for (answer = strtok(listing, "\n"); answer != NULL && turn < TURNS; answer = strtok(NULL, "\n"))
        if (sscanf(answer, "n=%*d commit=load core=%*d line=%*d ts=%*u data=%2x", &data) == 1) {
            if (data == run->loaded[turn])
                same++;
            else
                fprintf(stderr, "play: the simulator loaded %02x, the fabric has %s\n", run->loaded[turn], answer);
            turn++;
        }
    return same;
}

int main(int argc, char **argv)
{
    static struct run run;
    int turn, same, stale = argc > 1 && strcmp(argv[1], "stale") == 0;
    char *listing;
    run.len = (size_t)sprintf((char *)run.journal, "fabric=1 cores=2 lines=1 width=1 lease=10\n");
    for (turn = 0; turn < TURNS; turn++)
        take_turn(&run, turn, stale);
    if (fwrite(run.journal, 1, run.len, stdout) != run.len || fflush(stdout) != 0)
        give_up("the journal could not be written");
    listing = listing_of(&run);
    same = same_loads(&run, listing);
    free(listing);
    fprintf(stderr, "play: %d of %d loads are the same\n", same, TURNS);
    return same < TURNS;
}
