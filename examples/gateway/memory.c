/*
 * memset, memcpy, memmove and memcmp for a program that is linked with no C library, and on Arm the names of its run-time ABI for them, by which
 * the compiler calls the first three. Leave this file out where a C library is linked. Compiled with -fno-builtin, so that no loop here
 * becomes a call of itself.
 */
#include <stddef.h>
#include <stdint.h>

/* Words may lie over bytes of any type. */
typedef uint32_t __attribute__((may_alias)) word;

static int at_word(const void *place) { return ((uintptr_t)place & 3) == 0; }

void *memset(void *to, int value, size_t bytes)
{
    uint8_t *at = to, byte = (uint8_t)value;
    for (; bytes > 0 && !at_word(at); bytes--)
        *at++ = byte;
    word four = byte * 0x01010101u;
    for (; bytes >= 32; bytes -= 32, at += 32) {
        word *w = (word *)(void *)at;
        w[0] = w[1] = w[2] = w[3] = w[4] = w[5] = w[6] = w[7] = four;
    }
    for (; bytes >= 4; bytes -= 4, at += 4)
        *(word *)(void *)at = four;
    for (; bytes > 0; bytes--)
        *at++ = byte;
    return to;
}

/* Copies from the first byte to the last, so `to` may lie in what is copied only if it lies before it. */
static void copy(uint8_t *to, const uint8_t *from, size_t bytes)
{
    if (at_word(to) && at_word(from))
        for (; bytes >= 4; bytes -= 4, to += 4, from += 4)
            *(word *)(void *)to = *(const word *)(const void *)from;
    for (; bytes > 0; bytes--)
        *to++ = *from++;
}

void *memcpy(void *restrict to, const void *restrict from, size_t bytes)
{
    copy(to, from, bytes);
    return to;
}

void *memmove(void *to, const void *from, size_t bytes)
{
    uint8_t *last = to;
    const uint8_t *source = from;
    if ((uintptr_t)to - (uintptr_t)from >= bytes)
        copy(to, from, bytes);
    else
        while (bytes > 0) {
            bytes--;
            last[bytes] = source[bytes];
        }
    return to;
}

int memcmp(const void *one, const void *other, size_t bytes)
{
    const uint8_t *a = one, *b = other;
    for (; bytes > 0; bytes--, a++, b++)
        if (*a != *b)
            return *a < *b ? -1 : 1;
    return 0;
}

#ifdef __ARM_EABI__
/* The run-time ABI has the value of memset last. */
void __aeabi_memset(void *to, size_t bytes, int value) { memset(to, value, bytes); }
void __aeabi_memset4(void *to, size_t bytes, int value) { memset(to, value, bytes); }
void __aeabi_memset8(void *to, size_t bytes, int value) { memset(to, value, bytes); }
void __aeabi_memclr(void *to, size_t bytes) { memset(to, 0, bytes); }
void __aeabi_memclr4(void *to, size_t bytes) { memset(to, 0, bytes); }
void __aeabi_memclr8(void *to, size_t bytes) { memset(to, 0, bytes); }
void __aeabi_memcpy(void *to, const void *from, size_t bytes) { memcpy(to, from, bytes); }
void __aeabi_memcpy4(void *to, const void *from, size_t bytes) { memcpy(to, from, bytes); }
void __aeabi_memcpy8(void *to, const void *from, size_t bytes) { memcpy(to, from, bytes); }
void __aeabi_memmove(void *to, const void *from, size_t bytes) { memmove(to, from, bytes); }
void __aeabi_memmove4(void *to, const void *from, size_t bytes) { memmove(to, from, bytes); }
void __aeabi_memmove8(void *to, const void *from, size_t bytes) { memmove(to, from, bytes); }
#endif
