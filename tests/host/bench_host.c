/*
 * Megabytes a second of step lines through fabric_check_line, beside the plain C check on the same lines in the same run.
 * Each figure is the best of several passes; the two take turns. Nothing is cleared between passes: the lines stay in cache.
 */
#define _POSIX_C_SOURCE 199309L
#include "fabric.h"
#include "lines.h"
#include "plain_check.h"

#include <stdio.h>
#include <stdlib.h>
#include <time.h>

#define LINES 4096
#define PASSES 200

static uint8_t text[LINES * 256];
static size_t start[LINES + 1];

static double seconds(void)
{
    struct timespec t;
    clock_gettime(CLOCK_MONOTONIC, &t);
    return (double)t.tv_sec + (double)t.tv_nsec * 1e-9;
}

static double pass(uint32_t (*check)(const uint8_t *, size_t), uint32_t *sum)
{
    double before = seconds();
    for (size_t i = 0; i < LINES; i++)
        *sum += check(text + start[i], start[i + 1] - start[i]);
    return seconds() - before;
}

static double measure(const char *what, uint32_t bytes)
{
    struct random r = { 20 };
    uint32_t sum = 0, plain_sum = 0;
    double best = 1e9, plain_best = 1e9, size;
    for (size_t i = 0; i < LINES; i++)
        start[i + 1] = start[i] + right_line(&r, text + start[i], bytes);
    size = (double)start[LINES] / 1e6;
    for (int i = 0; i < PASSES; i++) {
        double t = pass(fabric_check_line, &sum);
        double p = pass(plain_check_line, &plain_sum);
        best = t < best ? t : best;
        plain_best = p < plain_best ? p : plain_best;
    }
    if (sum != 0 || plain_sum != 0) {
        fprintf(stderr, "bench: a right line was refused\n");
        exit(1);
    }
    printf("host %s: %.0f MB/s, %.1f ns a line of %.1f bytes; plain C check %.0f MB/s; ratio %.2f\n", what, size / best, best / LINES * 1e9,
           size * 1e6 / LINES, size / plain_best, plain_best / best);
    return plain_best / best;
}

int main(void)
{
    measure("lines, data of 8 bytes at most", 8);
    measure("lines, data of 64 bytes at most", 64);
    return 0;
}
