/*
 * The board: a bare Cortex-M4 (mps2-an386, which qemu-system-arm has) whose outside world is the debugger's, by semihosting. On a board of
 * your own, board.c and board.ld are what you replace.
 */
#ifndef BOARD_H
#define BOARD_H

#include <stddef.h>
#include <stdint.h>

/* Reads so many bytes of the debugger's standard input, or up to its end; says how many. */
size_t board_read(void *to, size_t bytes);

/* Writes to the debugger's standard output, and to its standard error. */
void board_write(const void *from, size_t bytes);
void board_say(const void *from, size_t bytes);

/* How many bytes of stack have been used since the start: the stack is painted before main is called. */
size_t board_stack_used(void);

#endif
