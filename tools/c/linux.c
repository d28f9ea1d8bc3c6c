/*
 * platform.h by Linux's own calls, and the start of a program that is linked with no C library: aarch64, ARMv7, RISC-V 32 and x86-64, on the
 * machine or under qemu-user. The program runs on a stack of its own, painted before it starts.
 */
#include "platform.h"

enum { STACK = 64 * 1024, PAINT = 0xA5 };

__attribute__((used, aligned(16))) static uint8_t stack[STACK];

#if defined __aarch64__
enum { READ = 63, WRITE = 64, EXIT = 93 };
static long call(long number, long a, long b, long c)
{
    register long x8 __asm__("x8") = number, x0 __asm__("x0") = a, x1 __asm__("x1") = b, x2 __asm__("x2") = c;
    __asm__ volatile("svc 0" : "+r"(x0) : "r"(x8), "r"(x1), "r"(x2) : "memory");
    return x0;
}
__asm__(".globl _start\n_start:\n adrp x0, stack\n add x0, x0, :lo12:stack\n add sp, x0, #65536\n bl begin\n");
#elif defined __arm__
enum { READ = 3, WRITE = 4, EXIT = 1 };
static long call(long number, long a, long b, long c)
{
    register long r7 __asm__("r7") = number, r0 __asm__("r0") = a, r1 __asm__("r1") = b, r2 __asm__("r2") = c;
    __asm__ volatile("svc 0" : "+r"(r0) : "r"(r7), "r"(r1), "r"(r2) : "memory");
    return r0;
}
__asm__(".globl _start\n_start:\n ldr r0, =stack + 65536\n mov sp, r0\n bl begin\n .ltorg\n");
#elif defined __riscv
enum { READ = 63, WRITE = 64, EXIT = 93 };
static long call(long number, long a, long b, long c)
{
    register long a7 __asm__("a7") = number, a0 __asm__("a0") = a, a1 __asm__("a1") = b, a2 __asm__("a2") = c;
    __asm__ volatile("ecall" : "+r"(a0) : "r"(a7), "r"(a1), "r"(a2) : "memory");
    return a0;
}
__asm__(".globl _start\n_start:\n la sp, stack + 65536\n call begin\n");
#elif defined __x86_64__
enum { READ = 0, WRITE = 1, EXIT = 60 };
static long call(long number, long a, long b, long c)
{
    register long rax __asm__("rax") = number, rdi __asm__("rdi") = a, rsi __asm__("rsi") = b, rdx __asm__("rdx") = c;
    __asm__ volatile("syscall" : "+r"(rax) : "r"(rdi), "r"(rsi), "r"(rdx) : "rcx", "r11", "memory");
    return rax;
}
__asm__(".globl _start\n_start:\n lea stack + 65536(%rip), %rsp\n call begin\n");
#else
#error "Linux's calls on this processor are not known here"
#endif

int main(void);

/* Paints the stack but for a little that this function and its caller may hold, and runs the program. */
__attribute__((used, noreturn)) static void begin(void)
{
    for (volatile uint8_t *at = stack; at < stack + STACK - 512; at++)
        *at = PAINT;
    int status = main();
    for (;;)
        call(EXIT, status, 0, 0);
}

/* Fetched and put out in large pieces, as each call costs much under an emulator. */
static uint8_t fetched[65536];
static size_t taken, held;

size_t platform_read(uint8_t *to, size_t bytes)
{
    size_t got = 0;
    while (got < bytes) {
        if (taken == held) {
            long n = call(READ, 0, (long)fetched, sizeof fetched);
            if (n <= 0)
                break;
            taken = 0, held = (size_t)n;
        }
        to[got++] = fetched[taken++];
    }
    return got;
}

static void put_out(int to, const char *text, size_t bytes)
{
    while (bytes > 0) {
        long n = call(WRITE, to, (long)text, (long)bytes);
        if (n <= 0)
            for (;;)
                call(EXIT, 1, 0, 0);
        text += n, bytes -= (size_t)n;
    }
}

void platform_write(const char *text, size_t bytes) { put_out(1, text, bytes); }
void platform_say(const char *text, size_t bytes) { put_out(2, text, bytes); }

size_t platform_stack_used(void)
{
    size_t unused = 0;
    while (unused < STACK && ((volatile uint8_t *)stack)[unused] == PAINT)
        unused++;
    return STACK - unused;
}
