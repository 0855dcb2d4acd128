/* A check of one step line in plain C, written from the grammar in the scope (section "Journal and driver") and nothing else. */
#ifndef PLAIN_CHECK_H
#define PLAIN_CHECK_H

#include <stddef.h>
#include <stdint.h>

/* 0 for a step line of a `fabric=1` journal; else 10, 11, 12 or 13. */
uint32_t plain_check_line(const uint8_t *line, size_t len);

#endif
