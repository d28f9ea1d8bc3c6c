/*
 * A gateway's firmware, to start from: a table of routes comes in over the CAN line, is shrunk by the proved library, and goes out again. A
 * table that is refused is not passed on. README.md says how to build and run it and what memory it needs.
 */
#include "board.h"
#include "can.h"
#include "suovvamet.h"

#define MODE SUOVVAMET_MAP_DROP
#define DEFAULT_HOP 0 /* read in mode 5 alone */
#define NODES 5153u   /* the room, 640 bytes a node: this many serve any table; with fewer, a table that needs more is refused by number 10 */

static uint8_t table[SUOVVAMET_MOST_OUTPUT]; /* a record more than a table may have, so that a longer one is refused by number 4 */
static uint8_t output[SUOVVAMET_MOST_OUTPUT];
static uint32_t work[160 * NODES];

/* The bytes of the frames, one after another. What does not fit any more makes no difference: the table is too long already. */
static uint32_t receive_table(void)
{
    uint32_t length = 0;
    struct can_frame frame;
    while (can_receive(&frame))
        for (uint32_t i = 0; i < frame.size && length < sizeof table; i++)
            table[length++] = frame.bytes[i];
    return length;
}

static void send_table(uint32_t records)
{
    for (uint32_t i = 0; i < records; i++) {
        struct can_frame frame = {.size = 8};
        for (uint32_t k = 0; k < 8; k++)
            frame.bytes[k] = output[8 * i + k];
        can_send(&frame);
    }
}

/* ---- What the gateway tells the debugger. */
static void say(const char *text)
{
    uint32_t length = 0;
    while (text[length] != 0)
        length++;
    board_say(text, length);
}

static void say_number(uint32_t number)
{
    char digits[11];
    char *first = digits + sizeof digits - 1;
    *first = 0;
    do {
        *--first = (char)('0' + number % 10);
        number /= 10;
    } while (number > 0);
    say(first);
}

int main(void)
{
    uint32_t length = receive_table();
    static const uint16_t no_ranks[1]; /* the smallest of equally good hops is taken */
    uint64_t words, count, index;
    int64_t change;
    /* A rewrite clears all that it is lent, so it is lent what the table needs, where there is as much. */
    uint32_t refusal = suovvamet_work_words(table, length, 0, MODE == SUOVVAMET_SET, &words, &index);
    if (refusal == SUOVVAMET_ANSWERED) {
        if (words > 160 * NODES)
            words = 160 * NODES;
        refusal = suovvamet_rewrite(table, length, 0, MODE, DEFAULT_HOP, no_ranks, 0, output, sizeof output, work, words, &count, &change, &index);
    }
    if (refusal != SUOVVAMET_ANSWERED) {
        say("gateway: refused ");
        say_number(refusal);
        say(" at record ");
        say_number((uint32_t)index);
        say(": ");
        say(suovvamet_refusal_text(refusal));
        say("\n");
        return 1;
    }
    send_table((uint32_t)count);
    say("gateway: records in ");
    say_number(length / 8);
    say(", out ");
    say_number((uint32_t)count);
    say("; bytes of work room ");
    say_number(4 * (uint32_t)words);
    say(", of stack ");
    say_number((uint32_t)board_stack_used());
    say("\n");
    return 0;
}
