/* platform.h on the bare Cortex-M4 board of examples/gateway. */
#include "board.h"
#include "platform.h"

/* Fetched in large pieces, as each question to the debugger costs much. */
static uint8_t fetched[65536];
static size_t taken, held;

size_t platform_read(uint8_t *to, size_t bytes)
{
    size_t got = 0;
    while (got < bytes) {
        if (taken == held) {
            taken = 0, held = board_read(fetched, sizeof fetched);
            if (held == 0)
                break;
        }
        to[got++] = fetched[taken++];
    }
    return got;
}

void platform_write(const char *text, size_t bytes) { board_write(text, bytes); }
void platform_say(const char *text, size_t bytes) { board_say(text, bytes); }
size_t platform_stack_used(void) { return board_stack_used(); }
