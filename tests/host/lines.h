/* Step lines made from a seed: right ones, and right ones that were then damaged. */
#ifndef LINES_H
#define LINES_H

#include <stddef.h>
#include <stdint.h>

/* No line is longer. */
#define LINE_ROOM 1024

struct random {
    uint64_t state;
};

/* A number below `n`. */
uint32_t random_below(struct random *r, uint32_t n);

/* A step line that a fabric=1 journal has, of any kind; data of `bytes` bytes at most. The line's length. */
size_t right_line(struct random *r, uint8_t *line, uint32_t bytes);

/* The line after one accident: a byte changed, put in or left out, a piece cut off or put in, a value left out, bytes put on, or the step's
   kind changed to one of a fabric=2 journal. */
size_t damaged_line(struct random *r, uint8_t *line, size_t len);

#endif
