/* platform.h by a C library. */
#include <stdio.h>

#include "platform.h"

size_t platform_read(uint8_t *to, size_t bytes) { return fread(to, 1, bytes, stdin); }
void platform_write(const char *text, size_t bytes) { fwrite(text, 1, bytes, stdout); }
void platform_say(const char *text, size_t bytes) { fwrite(text, 1, bytes, stderr); }
size_t platform_stack_used(void) { return 0; }
