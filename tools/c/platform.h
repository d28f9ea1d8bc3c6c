/*
 * What the C programs of tools/ need of the place they run in. Three files have it: hosted.c by a C library, linux.c by Linux's calls with no C
 * library, board.c on the bare Cortex-M4 board of examples/gateway.
 */
#ifndef PLATFORM_H
#define PLATFORM_H

#include <stddef.h>
#include <stdint.h>

/* Reads so many bytes of standard input, or up to its end; says how many. */
size_t platform_read(uint8_t *to, size_t bytes);

/* Writes to standard output, and to standard error. */
void platform_write(const char *text, size_t bytes);
void platform_say(const char *text, size_t bytes);

/* How many bytes of stack the program has used so far; 0 where the place cannot tell. */
size_t platform_stack_used(void);

#endif
