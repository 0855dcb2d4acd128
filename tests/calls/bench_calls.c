/* Times the engine's calls: `count` mixed calls on a fresh engine of each size, made by the program
   bench_calls, and beside them one plain copy of the state, in the same run. The program's buffers
   are zeros; what it takes to start is taken off.

   bench_calls PROGRAM COUNT: the table. bench_calls copies COUNT: the copies alone, for callgrind. */
#include <stdint.h>
#include <stdio.h>
#include <stdlib.h>
#include <string.h>
#include <time.h>

/* the state: opening 40 bytes, 16 cores of 40, 1,024 cells of 12, 64 lines of 32 */
enum { STATE = 40 + 16 * 40 + 1024 * 12 + 64 * 32 };

static uint8_t from[STATE], to[STATE];

static double now(void) {
    struct timespec t;
    clock_gettime(CLOCK_MONOTONIC, &t);
    return t.tv_sec * 1e9 + t.tv_nsec;
}

static double copies(unsigned long count) {
    double start = now();
    for (unsigned long i = 0; i < count; i++) {
        memcpy(to, from, STATE);
        __asm__ volatile("" ::"r"(to), "r"(from) : "memory");
    }
    return now() - start;
}

/* Runs the program; how many calls it says were refused. */
static unsigned long run(const char *program, unsigned long count, int cores, int lines, int width, double *time) {
    char command[4096];
    unsigned long refused;
    double start = now();
    snprintf(command, sizeof command, "'%s' %lu %d %d %d", program, count, cores, lines, width);
    FILE *out = popen(command, "r");
    if (!out || fscanf(out, "%lu", &refused) != 1 || pclose(out) != 0) {
        fprintf(stderr, "bench_calls: %s did not run\n", command);
        exit(1);
    }
    *time = now() - start;
    return refused;
}

static void calls(const char *program, unsigned long count, int cores, int lines, int width) {
    double none, some;
    double copy = copies(count) / count;
    run(program, 0, cores, lines, width, &none);
    unsigned long refused = run(program, count, cores, lines, width, &some);
    double call = (some - none) / count;
    printf("%2d cores x %2d lines x %2d bytes: %6.1f ns a call, %6.1f ns a copy of the state (%d bytes), %.2f copies a call, %lu of %lu refused\n", cores,
           lines, width, call, copy, STATE, call / copy, refused, count);
}

int main(int argc, char **argv) {
    unsigned long count = argc == 3 ? strtoul(argv[2], 0, 10) : 0;
    if (count == 0) {
        fprintf(stderr, "usage: bench_calls PROGRAM COUNT | bench_calls copies COUNT\n");
        return 2;
    }
    if (strcmp(argv[1], "copies") == 0) {
        copies(count);
        return 0;
    }
    for (int i = 0; i < 2; i++) {
        calls(argv[1], count, 16, 64, 64);
        calls(argv[1], count, 2, 2, 8);
    }
    return 0;
}
