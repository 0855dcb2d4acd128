/*
 * Checks fabric_check_line: every number at its edges, by hand; 100,000 random lines against the independent check of
 * plain_check.c; and the lines on standard input, each with the number that the second implementation gives it, as
 * `step-lines` of tests/reference writes them. Prints one line; exits with 1 if anything is wrong. Takes the seed of the
 * random lines as an argument.
 */
#include "fabric.h"
#include "lines.h"
#include "plain_check.h"

#include <stdio.h>
#include <stdlib.h>
#include <string.h>

static unsigned failed;
static unsigned edges;

/* How often each number was met; 0 and 10 to 13 are the numbers there are. */
struct met {
    unsigned of[14];
    unsigned in_all;
};

static void meet(struct met *met, uint32_t number)
{
    met->in_all++;
    if (number <= 13)
        met->of[number]++;
}

/* Lines among which a number hardly occurs would show little. */
static void see_that_all_are_met(const char *what, const struct met *met, unsigned least)
{
    static const unsigned numbers[] = { 0, 10, 11, 12, 13 };
    for (size_t i = 0; i < sizeof numbers / sizeof *numbers; i++)
        if (met->in_all < least || met->of[numbers[i]] < met->in_all / 100) {
            fprintf(stderr, "the %s lines are too few or too much alike: %u, of them %u with %u\n", what, met->in_all,
                    met->of[numbers[i]], numbers[i]);
            failed++;
        }
}

static void show(const uint8_t *line, size_t len)
{
    for (size_t i = 0; i < len && i < 240; i++)
        if (line[i] >= ' ' && line[i] < 127 && line[i] != '\\')
            fputc(line[i], stderr);
        else
            fprintf(stderr, "\\x%02x", line[i]);
}

/* Both checks on a copy of exactly the line's size, so that a read outside it is a read outside a block of memory. */
static uint32_t answer(const uint8_t *bytes, size_t len, uint32_t *plain)
{
    uint8_t *line = malloc(len > 0 ? len : 1);
    uint32_t r;
    if (line == NULL) {
        fprintf(stderr, "test_host: no memory\n");
        exit(2);
    }
    memcpy(line, bytes, len);
    r = fabric_check_line(line, len);
    *plain = plain_check_line(line, len);
    if (memcmp(line, bytes, len) != 0) {
        fprintf(stderr, "the line was changed: ");
        show(bytes, len);
        fprintf(stderr, "\n");
        failed++;
    }
    free(line);
    return r;
}

static void expect(uint32_t number, const void *bytes, size_t len)
{
    uint32_t plain;
    uint32_t r = answer(bytes, len, &plain);
    edges++;
    if (r == number && plain == number)
        return;
    fprintf(stderr, "expected %u, got %u, by the plain check %u: ", number, r, plain);
    show(bytes, len);
    fprintf(stderr, "\n");
    failed++;
}

/* The text's own length, so that a zero byte in it counts. */
#define EXPECT(number, text) expect(number, text, sizeof(text) - 1)

/* A store line of exactly `len` bytes, its data of `last` at the end. */
static void expect_long(uint32_t number, const char *start, size_t len, char last)
{
    uint8_t line[LINE_ROOM];
    size_t n = strlen(start);
    memcpy(line, start, n);
    while (n < len)
        line[n++] = 'a';
    line[len - 1] = (uint8_t)last;
    expect(number, line, len);
}

static void every_kind(void)
{
    EXPECT(0, "op=load core=0 line=0");
    EXPECT(0, "op=evict core=15 line=63");
    EXPECT(0, "op=store core=1 line=2 data=00");
    EXPECT(0, "op=store core=1 line=2 data=0123456789abcdef");
    EXPECT(0, "op=fence core=3");
    EXPECT(0, "op=serve core=4");
    EXPECT(0, "op=receive core=5");
    EXPECT(0, "op=advance core=6 by=7");
    EXPECT(0, "op=yield line=8");
    EXPECT(0, "op=take line=9");
}

static void lengths(void)
{
    /* "op=store core=0 line=0 data=" has 28 bytes: 86 pairs make 200. */
    expect_long(13, "op=store core=0 line=0 data=", 199, 'a');
    expect_long(0, "op=store core=0 line=0 data=", 200, 'a');
    expect_long(10, "op=store core=0 line=0 data=", 201, 'a');
    expect_long(10, "op=store core=0 line=0 data=", 202, 'a');
    expect_long(0, "op=store core=10 line=0 data=", 199, 'a');
    expect_long(13, "op=store core=10 line=0 data=", 200, 'a');
    expect_long(13, "op=store core=0 line=0 data=", 200, 'g');
    expect_long(12, "op=store core=00 line=0 data=", 200, 'a');
    expect_long(11, "op=store core=0 line=0 date=", 200, 'a');
    expect_long(11, "op=store core=0 line=0 data=", 200, ' ');
    expect_long(10, "no form", 201, 'a');
    expect_long(10, "no form", 1000, 'a');
    expect_long(12, "op=load core=0 line=", 200, 'a');
    EXPECT(11, "");
}

static void numbers(void)
{
    EXPECT(0, "op=fence core=0");
    EXPECT(0, "op=fence core=9");
    EXPECT(0, "op=fence core=10");
    EXPECT(0, "op=fence core=4294967295");
    EXPECT(12, "op=fence core=4294967296");
    EXPECT(12, "op=fence core=4294967300");
    EXPECT(12, "op=fence core=9999999999");
    EXPECT(12, "op=fence core=42949672950");
    EXPECT(12, "op=fence core=18446744073709551616");
    EXPECT(12, "op=fence core=18446744073709551617");
    EXPECT(12, "op=fence core=00");
    EXPECT(12, "op=fence core=01");
    EXPECT(12, "op=fence core=00000000000000000000000000000000000001");
    EXPECT(12, "op=fence core=");
    EXPECT(12, "op=fence core=-1");
    EXPECT(12, "op=fence core=+1");
    EXPECT(12, "op=fence core=1a");
    EXPECT(12, "op=fence core=a1");
    EXPECT(12, "op=fence core=0x1");
    EXPECT(12, "op=fence core=1.0");
    EXPECT(12, "op=fence core=/");
    EXPECT(12, "op=fence core=:");
    EXPECT(12, "op=fence core==1");
    EXPECT(12, "op=fence core=1\t");
    EXPECT(12, "op=fence core=\t1");
    EXPECT(12, "op=fence core=1\r");
    EXPECT(12, "op=fence core=1\n");
    EXPECT(12, "op=fence core=1\0");
    EXPECT(12, "op=fence core=\0");
    EXPECT(12, "op=fence core=\377");
    EXPECT(12, "op=load core= line=0");
    EXPECT(12, "op=load core=0 line=");
    EXPECT(12, "op=load core=4294967295 line=4294967296");
    EXPECT(12, "op=load core=4294967296 line=4294967295");
    EXPECT(0, "op=load core=4294967295 line=4294967295");
    EXPECT(12, "op=advance core=0 by=4294967296");
    EXPECT(0, "op=advance core=0 by=0");
    EXPECT(12, "op=yield line=4294967296");
    EXPECT(12, "op=take line=01");
}

static void datas(void)
{
    EXPECT(13, "op=store core=0 line=0 data=");
    EXPECT(13, "op=store core=0 line=0 data=0");
    EXPECT(13, "op=store core=0 line=0 data=000");
    EXPECT(13, "op=store core=0 line=0 data=0A");
    EXPECT(13, "op=store core=0 line=0 data=AB");
    EXPECT(13, "op=store core=0 line=0 data=0g");
    EXPECT(13, "op=store core=0 line=0 data=0/");
    EXPECT(13, "op=store core=0 line=0 data=0:");
    EXPECT(13, "op=store core=0 line=0 data=0`");
    EXPECT(13, "op=store core=0 line=0 data=0x");
    EXPECT(13, "op=store core=0 line=0 data=0\0");
    EXPECT(13, "op=store core=0 line=0 data=00\r");
    EXPECT(13, "op=store core=0 line=0 data=00\t1");
    EXPECT(0, "op=store core=0 line=0 data=09af");
    /* A wrong number comes before wrong data, and no form before both. */
    EXPECT(12, "op=store core=x line=0 data=0");
    EXPECT(12, "op=store core=0 line=x data=G");
    EXPECT(11, "op=store core=x line=0 data=0 ");
    EXPECT(11, "op=store core=x line=0 data=0 more");
    EXPECT(11, "op=load core=x  line=0");
}

static void texts(void)
{
    EXPECT(11, " ");
    EXPECT(11, "op");
    EXPECT(11, "op=");
    EXPECT(11, "op=l");
    EXPECT(11, "op=lo");
    EXPECT(11, "op=load");
    EXPECT(11, "op=load ");
    EXPECT(11, "op=load core");
    EXPECT(11, "op=load core=");
    EXPECT(11, "op=load core=0");
    EXPECT(11, "op=load core=0 ");
    EXPECT(11, "op=load core=0 line");
    EXPECT(12, "op=load core=0 line=");
    EXPECT(11, "op=fence");
    EXPECT(11, " op=fence core=0");
    EXPECT(11, "op=fence core=0 ");
    EXPECT(11, "op=fence core= 0");
    EXPECT(11, "op=fence  core=0");
    EXPECT(11, "op=fence\tcore=0");
    EXPECT(11, "op= fence core=0");
    EXPECT(11, "op=load core=0  line=0");
    EXPECT(12, "op=load core=0\tline=0 line=0");
    EXPECT(11, "op=load core=0\tline=0");
    EXPECT(11, "op=load core=0 line=0 ");
    EXPECT(11, "op=load core=0 line=0 x");
    EXPECT(11, "op=load core=0 line=0 by=0");
    EXPECT(11, "op=load line=0 core=0");
    EXPECT(11, "op=store line=0 core=0 data=00");
    EXPECT(11, "op=store core=0 data=00 line=0");
    EXPECT(11, "op=store core=0 line=0");
    EXPECT(11, "op=advance by=1 core=0");
    EXPECT(11, "op=advance core=0 line=0");
    EXPECT(11, "op=evict core=0 by=0");
    EXPECT(11, "op=yield core=0");
    EXPECT(11, "op=take core=0");
    EXPECT(11, "op=serve line=0");
    EXPECT(11, "core=0 op=fence");
    EXPECT(11, "OP=fence core=0");
    EXPECT(11, "op=Fence core=0");
    EXPECT(11, "op=fence Core=0");
    EXPECT(11, "op\0fence core=0");
    EXPECT(11, "op=fence\0core=0");
    EXPECT(11, "op=fence core=0\0 ");
    EXPECT(11, "\0");
    /* The steps that a fabric=2 journal alone has, also with a value that would be 12, and its first line. */
    EXPECT(11, "op=drop core=0 line=0");
    EXPECT(11, "op=writeback core=0 line=0");
    EXPECT(11, "op=drop core=x line=0");
    EXPECT(11, "op=writeback core=0 line=00");
    EXPECT(11, "op=drop core=0");
    EXPECT(11, "op=writeback line=0");
    EXPECT(11, "op=victim core=0");
    EXPECT(11, "op=victim core=00");
    EXPECT(11, "op=victim core=0 line=0");
    EXPECT(11, "fabric=2 cores=1 lines=1 width=1 lease=10 cap=1");
    EXPECT(11, "fabric=2 cores=1 lines=1 width=1 lease=10");
    expect_long(11, "op=writeback core=0 line=", 200, 'a');
    expect_long(10, "op=writeback core=0 line=", 201, 'a');
    /* Kinds that no journal has, a first line, and the forms' own letters. */
    EXPECT(11, "op=show core=0 line=0");
    EXPECT(11, "op=loads core=0 line=0");
    EXPECT(11, "op=loa core=0 line=0");
    EXPECT(11, "op=fabric core=0");
    EXPECT(11, "fabric=1 cores=1 lines=1 width=1 lease=10");
    EXPECT(12, "op=load core=N line=N");
    EXPECT(13, "op=store core=0 line=0 data=H");
}

static void random_lines(uint64_t seed, unsigned count, struct met *met)
{
    struct random r = { seed };
    for (unsigned i = 0; i < count; i++) {
        uint8_t line[LINE_ROOM];
        uint32_t plain;
        uint32_t got;
        size_t len = right_line(&r, line, random_below(&r, 4) == 0 ? 90 : 16);
        for (uint32_t accidents = random_below(&r, 3); accidents > 0 && len < 900; accidents--)
            len = damaged_line(&r, line, len);
        got = answer(line, len, &plain);
        meet(met, got);
        if (got != plain) {
            fprintf(stderr, "line %u: got %u, by the plain check %u: ", i, got, plain);
            show(line, len);
            fprintf(stderr, "\n");
            failed++;
        }
    }
}

/* The bytes that a text of hex pairs stands for; how many. */
static size_t from_hex(const char *text, uint8_t *bytes)
{
    size_t n = 0;
    unsigned byte;
    while (sscanf(text + 2 * n, "%2x", &byte) == 1)
        bytes[n++] = (uint8_t)byte;
    return n;
}

/* The lines of standard input: a number, a blank, and the line in hex. */
static void given_lines(struct met *met)
{
    static char text[16384];
    static uint8_t line[sizeof text / 2];
    while (fgets(text, sizeof text, stdin) != NULL) {
        char *rest;
        uint32_t number = (uint32_t)strtoul(text, &rest, 10);
        size_t len = from_hex(rest + 1, line);
        uint32_t plain;
        uint32_t got = answer(line, len, &plain);
        meet(met, got);
        if (got != number || plain != number) {
            fprintf(stderr, "given %u, got %u, by the plain check %u: ", number, got, plain);
            show(line, len);
            fprintf(stderr, "\n");
            failed++;
        }
    }
}

int main(int argc, char **argv)
{
    uint64_t seed = argc > 1 ? strtoull(argv[1], NULL, 0) : 0x9e3779b97f4a7c15u;
    struct met random = { { 0 }, 0 }, given = { { 0 }, 0 };
    every_kind();
    lengths();
    numbers();
    datas();
    texts();
    random_lines(seed != 0 ? seed : 1, 100000, &random);
    see_that_all_are_met("random", &random, 100000);
    given_lines(&given);
    see_that_all_are_met("given", &given, 1000);
    printf("host: %u edge lines, %u random lines (0: %u, 10: %u, 11: %u, 12: %u, 13: %u), %u given by the second implementation, %u wrong\n",
           edges, random.in_all, random.of[0], random.of[10], random.of[11], random.of[12], random.of[13], given.in_all, failed);
    return failed != 0;
}
