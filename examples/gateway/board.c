/* The start of a program on the board, and its outside world (board.h). The memory is laid out by board.ld. */
#include "board.h"

extern uint32_t stack_low[], stack_top[], data_low[], data_high[], data_kept[], bss_low[], bss_high[];
int main(void);
void reset(void);

enum { PAINT = 0x5AA55AA5 };

/* ---- Semihosting: an operation and a word, or the address of its words, handed to the debugger. */
enum { OPEN = 0x01, WRITE = 0x05, READ = 0x06, EXIT_EXTENDED = 0x20 };

static uintptr_t ask(uintptr_t operation, const void *words)
{
    register uintptr_t r0 __asm__("r0") = operation;
    register const void *r1 __asm__("r1") = words;
    __asm__ volatile("bkpt 0xAB" : "+r"(r0) : "r"(r1) : "memory");
    return r0;
}

/* Standard input, output and error are the file ":tt" opened for reading, writing and appending. */
enum { INPUT = 0, OUTPUT = 4, ERROR = 8 };
static uintptr_t input, output, error;

static uintptr_t opened(uintptr_t how)
{
    static const char terminal[] = ":tt";
    uintptr_t words[] = {(uintptr_t)terminal, how, sizeof terminal - 1};
    return ask(OPEN, words);
}

__attribute__((noreturn)) static void leave(int status)
{
    uintptr_t words[] = {0x20026, (uintptr_t)status}; /* the program ended by itself */
    for (;;)
        ask(EXIT_EXTENDED, words);
}

size_t board_read(void *to, size_t bytes)
{
    size_t got = 0;
    while (got < bytes) {
        uintptr_t words[] = {input, (uintptr_t)to + got, bytes - got};
        size_t left = ask(READ, words);
        if (left >= bytes - got)
            break;
        got = bytes - left;
    }
    return got;
}

static void put_out(uintptr_t file, const void *from, size_t bytes)
{
    uintptr_t words[] = {file, (uintptr_t)from, bytes};
    if (ask(WRITE, words) != 0)
        leave(1);
}

void board_write(const void *from, size_t bytes) { put_out(output, from, bytes); }
void board_say(const void *from, size_t bytes) { put_out(error, from, bytes); }

size_t board_stack_used(void)
{
    const volatile uint32_t *at = stack_low;
    while (at < stack_top && *at == PAINT)
        at++;
    return (uintptr_t)stack_top - (uintptr_t)at;
}

/* ---- The start. */
__attribute__((noreturn)) void reset(void)
{
#ifdef __ARM_FP
    *(volatile uint32_t *)0xE000ED88 |= 0xFu << 20; /* the floating point unit, whose registers a compiler may use to copy */
    __asm__ volatile("dsb\n isb" ::: "memory");
#endif
    volatile uint32_t *to = data_low;
    for (const uint32_t *from = data_kept; to < data_high;)
        *to++ = *from++;
    for (to = bss_low; to < bss_high;)
        *to++ = 0;
    /* Painted but for a little at the top, which this function may hold. */
    for (to = stack_low; (uintptr_t)to < (uintptr_t)stack_top - 256;)
        *to++ = PAINT;
    input = opened(INPUT), output = opened(OUTPUT), error = opened(ERROR);
    leave(main());
}

/* A fault of any kind ends the program with status 99. */
__attribute__((noreturn)) static void fault(void) { leave(99); }

typedef void (*handler)(void);
__attribute__((section(".vectors"), used)) static const struct {
    uint32_t *stack;
    handler handlers[15];
} vectors = {stack_top, {reset, fault, fault, fault, fault, fault}};
