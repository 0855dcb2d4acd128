/*
 * fabric.h: a Tardis TSO fabric for a simulator that writes journals: checks them, plays them, counts their traffic, converts them.
 *
 * Six functions, bytes in, bytes out, with nothing else to link. In a clone of the repository, after `make build`:
 *
 *     cc -Iinclude host.c target/lib/libfabric.a
 *
 * Where the library is installed, under /usr/local say, with pkg-config and without:
 *
 *     cc host.c $(pkg-config --cflags --libs fabric)
 *     cc -I/usr/local/include host.c -L/usr/local/lib -lfabric
 *
 * What each function returns and writes is proved, for all bytes that it may be given, by the same definitions as the programs steps,
 * tally, to1 and to2. The format of journals, listings and tallies is in the manual pages steps(1), tally(1) and to1(1), and fabric(3) has
 * an example. examples/host.c and examples/play.c of the repository are whole programs.
 *
 * Of every function:
 *
 * A pointer and the length after it are bytes of any values; a zero byte is one like any other. A pointer must not be null, even where the
 * length is 0. What a function writes to must not overlap what it reads, nor anything else that it writes to. No byte outside these is
 * read or written.
 *
 * The functions keep no state, allocate nothing, always return and set no errno: they may be called from any number of threads at once,
 * and from a signal handler. They need at most 512 KiB of stack.
 */
#ifndef FABRIC_H
#define FABRIC_H

#include <stddef.h>
#include <stdint.h>

#define FABRIC_VERSION "1.1.0"

/* The most bytes of a journal, of one of its lines without the newline, of a journal that a conversion gives, and of a tally's line. */
#define FABRIC_MOST_JOURNAL 65536
#define FABRIC_MOST_LINE 200
#define FABRIC_MOST_RESULT 65536
#define FABRIC_MOST_TALLY 191

/* Room for the listing of a journal of `len` bytes: a line of a journal has 15 bytes or more, and what answers it 246 at most. This is counted
 * and tested, not proved, as is the need of stack. */
#define FABRIC_LISTING_ROOM(len) (17 * (size_t)(len) + 512)

#ifdef __cplusplus
extern "C" {
#endif

/* What fabric_check_line returns. */
enum fabric_line {
    FABRIC_LINE_STEP = 0,          /* a step line of a `fabric=1` journal */
    FABRIC_LINE_TOO_LONG = 10,     /* over 200 bytes */
    FABRIC_LINE_NO_FORM = 11,      /* none of the lines below; nor is an empty one, a journal's first, an op=drop, op=writeback or op=victim */
    FABRIC_LINE_WRONG_NUMBER = 12, /* a number without digits, with another byte, with a leading zero, or above 4294967295 */
    FABRIC_LINE_WRONG_DATA = 13    /* data that are empty, odd in count, or have a byte other than 0-9 a-f */
};

/* What refuses a whole journal: what fabric_check, fabric_to1 and fabric_to2 return. A journal that is checked, or played, ends at the first
 * line that is refused; a conversion looks at all lines before it looks at the sizes, so that there 7 comes after 10 to 13. */
enum fabric_journal {
    FABRIC_JOURNAL_RIGHT = 0,         /* nothing */
    FABRIC_JOURNAL_SIZES = 7,         /* cores, lines, width, lease or cap of the first line outside the limits */
    FABRIC_JOURNAL_LINE = 10,         /* a line over 200 bytes, or a last line without newline */
    FABRIC_JOURNAL_NO_FORM = 11,      /* not a line of the journal's form, or an empty journal; of a conversion also one of the other form */
    FABRIC_JOURNAL_WRONG_NUMBER = 12, /* as FABRIC_LINE_WRONG_NUMBER */
    FABRIC_JOURNAL_WRONG_DATA = 13,   /* as FABRIC_LINE_WRONG_DATA */
    FABRIC_JOURNAL_TOO_LONG = 14,     /* over 65,536 bytes; of a conversion also a result that is longer than that, or than its buffer */
    FABRIC_JOURNAL_UNLIKE = 32        /* fabric_to1 alone: cap is not lines, a victim step, or a step that answers 30 when it is played */
};

/* What stands after `refused=` in a listing, beside 7 and 10 to 14, which end it. The run goes on after each. */
enum fabric_refusal {
    FABRIC_REFUSED_CORE = 3,          /* no such core */
    FABRIC_REFUSED_ADDRESS = 4,       /* no such line of memory */
    FABRIC_REFUSED_COUNT = 5,         /* a store's bytes are not width in count */
    FABRIC_REFUSED_ADVANCE = 6,       /* advance by 0 */
    FABRIC_REFUSED_SLOT = 20,         /* a load or store must ask, and the slot is in use */
    FABRIC_REFUSED_NOT_ASKED = 21,    /* serve, and the slot does not ask */
    FABRIC_REFUSED_NO_ANSWER = 22,    /* receive, and the slot has no answer */
    FABRIC_REFUSED_NO_RECALL = 23,    /* yield, and the line is not owned or no recall stands */
    FABRIC_REFUSED_NO_COPY = 24,      /* yield, and the owner's copy is not owned */
    FABRIC_REFUSED_NO_WRITEBACK = 25, /* take, and there is no writeback */
    FABRIC_REFUSED_NOTHING_HELD = 26, /* evict, drop or writeback of no copy; victim of a core without copies */
    FABRIC_REFUSED_TIMESTAMP = 27,    /* a timestamp would pass 4294967295 */
    FABRIC_REFUSED_OTHER_STATE = 30,  /* drop of an owned copy, writeback of a shared one */
    FABRIC_REFUSED_FULL = 31          /* receive of a copy too many for the cap */
};

/* What fabric_list and fabric_tally return where the buffer is too short. */
#define FABRIC_NO_ROOM SIZE_MAX

/*
 * Checks the `len` bytes at `line` as one step line of a `fabric=1` journal, without its newline. Such a line is one of
 *
 *     op=load core=N line=N                op=evict core=N line=N
 *     op=store core=N line=N data=H        op=advance core=N by=N
 *     op=fence core=N                      op=serve core=N
 *     op=receive core=N                    op=yield line=N
 *     op=take line=N
 *
 * with single blanks, N a decimal number (0 itself, or without leading zeros) and H lower-case hex pairs. A value is the bytes after its
 * `=` up to the next blank or the line's end.
 *
 * Returns one of the numbers of fabric_line: the first that applies, in the order 10, 11, 12, 13. A line that gives 0 may still be refused
 * when it is played: whether its core, its line and the count of its data bytes fit an engine is not looked at, nor the engine's state.
 *
 * A newline is a byte like any other. `len` may be 0, which is 11. Nothing is written.
 *
 * The second form of journals, `fabric=2`, has the steps op=drop and op=writeback in the place of op=evict, and op=victim; here all three
 * are 11, and fabric_check looks at journals of both forms.
 */
uint32_t fabric_check_line(const uint8_t *line, size_t len);

/*
 * Checks a whole journal of either form without playing it. Returns what ends its listing: 0, or 7 or 10 to 14 of fabric_journal. `*line`
 * is then how many lines the journal has, or the number of the line that is refused, counted from 1; for 14 it is 1.
 *
 * A journal that gives 0 may still have steps that are refused when it is played, with numbers of fabric_refusal.
 */
uint32_t fabric_check(const uint8_t *journal, size_t len, size_t *line);

/*
 * Plays a journal of either form and writes its listing, just what steps(1) prints, to the start of `out`, which has `room` bytes. Every
 * journal has a listing: one that is refused has `refused=` with its number in the line before the last.
 *
 * Returns the length of the listing; all bytes of `out` past it are as they were. Where the listing has more than `room` bytes, returns
 * FABRIC_NO_ROOM; then as many of its lines as have room, from the first on, are at the start of `out`, and all bytes past them are
 * as they were (a last line with `refused=` that ends the run and the end line are written together or not at all).
 * FABRIC_LISTING_ROOM(len) bytes are always enough.
 */
size_t fabric_list(const uint8_t *journal, size_t len, uint8_t *out, size_t room);

/*
 * Plays a journal of either form and writes its tally, just the line that tally(1) prints with its newline, to the start of `out`.
 *
 * Returns the length of the line; all bytes of `out` past it are as they were. Where the line has more than `room` bytes, returns
 * FABRIC_NO_ROOM, and all of `out` is as it was. FABRIC_MOST_TALLY bytes are always enough.
 */
size_t fabric_tally(const uint8_t *journal, size_t len, uint8_t *out, size_t room);

/*
 * fabric_to1 converts a journal of `fabric=2` to `fabric=1`, fabric_to2 one of `fabric=1` to `fabric=2`, as to1(1) and to2(1) do. The
 * result is written to the start of `out`.
 *
 * Returns 0; then `*length` is the length of the result, and all bytes of `out` past it are as they were. Or returns a number of
 * fabric_journal; then `*length` and all of `out` are as they were. FABRIC_MOST_RESULT bytes have room for every result; with fewer, a
 * result that is longer is 14.
 */
uint32_t fabric_to1(const uint8_t *journal, size_t len, uint8_t *out, size_t room, size_t *length);
uint32_t fabric_to2(const uint8_t *journal, size_t len, uint8_t *out, size_t room, size_t *length);

#ifdef __cplusplus
}
#endif

#endif
