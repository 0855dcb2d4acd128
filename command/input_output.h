/*
 * input_output.h: whole files in, all bytes out. Reads and writes that move fewer bytes go on, and those that a signal interrupts are
 * tried again.
 */
#ifndef INPUT_OUTPUT_H
#define INPUT_OUTPUT_H

#include <stddef.h>
#include <stdint.h>

/* Opens a file for reading. Returns its descriptor, or -1 with errno. */
int open_input(const char *path);

/* Reads from a descriptor up to its end, and at most `room` bytes. Returns 1, with how many there were in `*size`, or 0 with errno. */
int read_all(int descriptor, uint8_t *bytes, size_t room, size_t *size);

/* Writes all bytes to a descriptor. Returns 1, or 0 with errno where some could not be written. */
int write_all(int descriptor, const void *bytes, size_t size);

/* Writes all bytes to standard output and closes it, since some errors are told only then. Returns 1, or 0 with errno. */
int write_output(const void *bytes, size_t size);

#endif
