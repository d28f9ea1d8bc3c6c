/*
 * The library's side of tools/bench, by C: rewrites one table again and again, by either engine, or lists what has no route in it. Reads and prints
 * what the program bench does (crates/bench/src/main.rt), on this machine or on the bare Cortex-M4 board. Beside that, calls on a live map of the
 * table's records: a lookup, a put of a prefix that is present, and a put of a new one in front of all with its take.
 */
#include "platform.h"
#include "suovvamet.h"

/* What byte 3 holds for a list of what has no route, and what is added to the mode for records of 16 bytes and for the plain engine. */
enum { LIST = 0, LONG = 32, LIVE_LOOKUP = 64, LIVE_OLD = 65, LIVE_NEW = 66, PLAIN = 128 };

/* No ranks are lent. */
static const uint16_t no_ranks[1];

static uint8_t table[SUOVVAMET_MOST_LONG_OUTPUT], output[SUOVVAMET_MOST_UNROUTED];
static uint32_t work[SUOVVAMET_MOST_LONG_WORK];

static void print(const char *text)
{
    size_t length = 0;
    while (text[length] != 0)
        length++;
    platform_write(text, length);
}

static void print_number(uint32_t number)
{
    char digits[11];
    char *first = digits + sizeof digits - 1;
    *first = 0;
    do {
        *--first = (char)('0' + number % 10);
        number /= 10;
    } while (number > 0);
    print(first);
}

static uint32_t join3(const uint8_t *bytes) { return (uint32_t)bytes[0] << 16 | (uint32_t)bytes[1] << 8 | bytes[2]; }

static uint32_t address_of(const uint8_t *record)
{
    return (uint32_t)record[0] << 24 | (uint32_t)record[1] << 16 | (uint32_t)record[2] << 8 | record[3];
}

/* So many calls on a live map of the table's records: the last refusal. The prefix is that of the record in the middle. */
static uint32_t live(int kind, uint32_t times, size_t length, size_t words)
{
    uint32_t refusal = suovvamet_live_make(work, words), found, hop, matched;
    for (size_t i = 0; i < length && refusal == SUOVVAMET_ANSWERED; i += 8)
        refusal = suovvamet_live_put(work, words, 0, address_of(table + i), table[i + 4], table[i + 5]);
    const uint8_t *middle = table + length / 16 * 8;
    for (; times > 0 && refusal == SUOVVAMET_ANSWERED; times--)
        if (kind == LIVE_LOOKUP)
            refusal = suovvamet_live_lookup(work, words, address_of(middle), &found, &hop, &matched);
        else if (kind == LIVE_OLD)
            refusal = suovvamet_live_put(work, words, 0, address_of(middle), middle[4], middle[5]);
        else {
            refusal = suovvamet_live_put(work, words, 0, 0, 32, 1);
            if (refusal == SUOVVAMET_ANSWERED)
                refusal = suovvamet_live_take(work, words, 0, 0, 32, &found);
        }
    return refusal;
}

int main(void)
{
    uint8_t head[8] = {0};
    platform_read(head, sizeof head);
    size_t length = platform_read(table, sizeof table);
    uint32_t times = join3(head), words = join3(head + 5);
    if (words > SUOVVAMET_MOST_LONG_WORK)
        words = SUOVVAMET_MOST_LONG_WORK;
    if (times == 0) {
        print("not run\n");
        return 0;
    }
    uint32_t refusal = 0;
    uint64_t count = 0, index = 0;
    int64_t change = 0;
    uint32_t mode = head[3] % LONG;
    if (head[3] >= LIVE_LOOKUP && head[3] <= LIVE_NEW) {
        refusal = live(head[3], times, length, words);
        count = length / 8;
        times = 0;
    }
    uint32_t flags = head[3] & LONG ? SUOVVAMET_LONG : 0;
    for (; times > 0; times--)
        if (head[3] == LIST)
            refusal = suovvamet_unrouted(table, length, 0, output, SUOVVAMET_MOST_UNROUTED, &count, &index);
        else if (head[3] >= PLAIN)
            refusal = suovvamet_rewrite_plain(table, length, flags, mode, head[4], no_ranks, 0, output, sizeof table, &count, &change, &index);
        else
            refusal =
                suovvamet_rewrite(table, length, flags, mode, head[4], no_ranks, 0, output, sizeof table, work, words, &count, &change, &index);
    if (refusal != SUOVVAMET_ANSWERED) {
        print("refused ");
        print_number(refusal);
        print(" at ");
        print_number((uint32_t)index);
    } else if (head[3] == LIST) {
        print("unrouted ");
        print_number((uint32_t)count);
    } else {
        print("records ");
        print_number((uint32_t)count);
        print(change < 0 ? " change -" : " change ");
        print_number((uint32_t)(change < 0 ? -change : change));
    }
    print("\n");
    return 0;
}
