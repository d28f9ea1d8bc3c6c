/*
 * Answers cases (docs/CASES.md) from standard input by the C library, and checks what include/suovvamet.h promises beside the answer: every
 * number that is set, the rooms, and what lies before and after each of them. A broken promise is a line of its own, which no expected answer
 * has. Tables and outputs stand at any address, work rooms at any word. Where the place can tell, the depth of the stack is said at the end.
 */
#include "platform.h"
#include "suovvamet.h"

/* A case's first byte is its call, so much more where addresses have 64 bits, where it lends ranks, and under the strict choice. */
enum { LONG_CASE = 32, RANKS_CASE = 64, STRICT_CASE = 128 };

enum { HEADER = 16, MOST_BYTES = 65535, MOST_LIST = 262144, MOST_LONG_LIST = 1048576, MOST_RANKS = 255, MOST_STEPS = 65535, MOST_LIVE = 412240, CHECKED_STEPS = 32768, EDGE = 64, SHIFTS = 4 };

static uint8_t table_room[EDGE + SHIFTS + MOST_BYTES + EDGE], kept[sizeof table_room], output_room[EDGE + SHIFTS + MOST_LONG_LIST + EDGE];
static uint32_t work_room[EDGE + SHIFTS + SUOVVAMET_MOST_LONG_WORK + EDGE];
static uint16_t rank_room[EDGE + SHIFTS + MOST_RANKS + EDGE], kept_ranks[sizeof rank_room / sizeof rank_room[0]];

/* What stood in the room of a live map before a call. */
static uint32_t room_before[MOST_LIVE];

static uint8_t new_room[MOST_BYTES], step_bytes[8];
static struct suovvamet_step step_room[MOST_STEPS];

/* The bytes of a record of this case. */
static size_t size;

/* Where the rooms of this case begin. */
static uint8_t *table, *output;
static uint32_t *work;
static uint16_t *ranks;

/* ---- Printing, gathered into large pieces. */
static char printed[4096];
static size_t filled;

static void flush(void)
{
    platform_write(printed, filled);
    filled = 0;
}

static void print(const char *text)
{
    for (; *text != 0; text++) {
        if (filled == sizeof printed)
            flush();
        printed[filled++] = *text;
    }
}

/* The digits of a number and a 0 after them, from the end of the text. No division: a 32-bit processor may have none of 64 bits. */
static const char *digits(uint64_t number, char text[21])
{
    static const uint64_t powers[] = {
        10000000000000000000u, 1000000000000000000u, 100000000000000000u, 10000000000000000u, 1000000000000000u, 100000000000000u,
        10000000000000u, 1000000000000u, 100000000000u, 10000000000u, 1000000000u, 100000000u, 10000000u, 1000000u, 100000u, 10000u, 1000u,
        100u, 10u, 1u,
    };
    size_t first = 19;
    for (size_t i = 0; i < 20; i++) {
        text[i] = '0';
        for (; number >= powers[i]; number -= powers[i])
            text[i]++;
        if (text[i] != '0' && i < first)
            first = i;
    }
    text[20] = 0;
    return text + first;
}

static void print_number(uint64_t number)
{
    char text[21];
    print(digits(number, text));
}

static void promise(int held, const char *else_line)
{
    if (!held) {
        print(else_line);
        print("\n");
    }
}

/* ---- What stands in and round the rooms before a call: no word is zero. */
static uint8_t pattern(size_t i) { return (uint8_t)(i * 7 + 165); }
static uint32_t filler(size_t i) { return (uint32_t)i * 2654435761u | 1; }

/* A number that a call sets, with a number on either side. */
struct guarded {
    uint64_t before, value, after;
};
enum { GUARD = 0x5EED };
static const struct guarded unset = {GUARD, 77, GUARD};

/* The same of 32 bits. */
struct guarded32 {
    uint32_t before, value, after;
};
static const struct guarded32 unset32 = {GUARD, 77, GUARD};

static void promise_guards(const struct guarded *n) { promise(n->before == GUARD && n->after == GUARD, "beside a number touched"); }
static void promise_guards32(const struct guarded32 *n) { promise(n->before == GUARD && n->after == GUARD, "beside a number touched"); }

/* Prints the refusal, which carries no other value, or says that the call was answered, and then the index is 0. */
static int answered(uint32_t refusal, const struct guarded *index, int values_zero)
{
    promise_guards(index);
    if (refusal == SUOVVAMET_ANSWERED) {
        promise(index->value == 0, "index of an answer");
        return 1;
    }
    print("refused ");
    print_number(refusal);
    print(" at ");
    print_number(index->value);
    print("\n");
    promise(values_zero, "value in a refusal");
    return 0;
}

static uint32_t most_work(void) { return size == 8 ? SUOVVAMET_MOST_WORK : SUOVVAMET_MOST_LONG_WORK; }

/*
 * Holds the words that the library says the table needs to what a call said that was lent so many: number 10 is due below them alone, and a
 * refused table is refused alike.
 */
static void promise_words(size_t length, uint32_t flags, int is_set, size_t words, uint32_t refusal, uint64_t at)
{
    struct guarded needed = unset, index = unset;
    uint32_t own = suovvamet_work_words(table, length, flags, is_set ? 0x100 : 0, &needed.value, &index.value);
    promise_guards(&needed);
    promise_guards(&index);
    if (own != SUOVVAMET_ANSWERED) {
        promise(needed.value == 0, "words in a refusal");
        promise(own >= SUOVVAMET_TABLE_LENGTH && own <= SUOVVAMET_ORDER, "words refused by no number of a table");
        int sooner = refusal == SUOVVAMET_MODE || refusal == SUOVVAMET_RETIRED || refusal == SUOVVAMET_DEFAULT || refusal == SUOVVAMET_RANKS;
        promise(sooner || (refusal == own && at == index.value), "words refused otherwise");
        return;
    }
    promise(index.value == 0, "index of an answer");
    promise(needed.value >= 160 && needed.value <= most_work() && (uint32_t)needed.value % 160 == 0, "words that no table needs");
    promise(refusal < SUOVVAMET_TABLE_LENGTH || refusal > SUOVVAMET_ORDER, "words of a refused table");
    if (refusal == SUOVVAMET_WORK_ROOM)
        promise(words < needed.value, "fewer words needed than were too few");
    else if (refusal == SUOVVAMET_ANSWERED || refusal == SUOVVAMET_OUTPUT)
        promise(words >= needed.value, "more words needed than were enough");
}

/* ---- The output: its bytes and those round it before a call, its records, and what stays as it was. */
static void fill_output(size_t room)
{
    size_t all = (size_t)(output - output_room) + room + EDGE;
    for (size_t i = 0; i < all; i++)
        output_room[i] = pattern(i);
}

/* Four octets are printed as decimal numbers, eight as hex digits. */
static void print_address(const uint8_t *octets)
{
    static const char hex[] = "0123456789abcdef";
    for (size_t i = 0; i < size / 2; i++)
        if (size == 8) {
            print_number(octets[i]);
            print(i < 3 ? "." : "");
        } else {
            char two[3] = {hex[octets[i] / 16], hex[octets[i] % 16], 0};
            print(two);
        }
}

static void print_records(size_t count, int hops)
{
    for (size_t i = 0; i < count; i++) {
        const uint8_t *record = output + size * i, *behind = record + size / 2;
        print_address(record);
        print("/");
        print_number(behind[0]);
        if (hops) {
            print(" ");
            print_number(behind[1]);
        } else
            promise(behind[1] == 0, " and a hop");
        int clear = 1;
        for (const uint8_t *byte = behind + 2; byte < record + size; byte++)
            clear &= *byte == 0;
        print(clear ? "\n" : " and bytes that are not zero\n");
    }
}

static void promise_output(size_t count, size_t room)
{
    int touched = 0;
    const uint8_t *end = output + size * count;
    size_t all = (size_t)(output - output_room) + room + EDGE;
    for (size_t i = 0; i < all; i++)
        if (output_room + i < output || output_room + i >= end)
            touched |= output_room[i] != pattern(i);
    promise(!touched, "output touched");
}

/* By the engine over nodes, or by the plain one, which is lent no room. */
static void rewrite(int plain, size_t length, uint32_t flags, uint32_t mode, uint32_t default_hop, size_t lent, size_t room, size_t words)
{
    struct guarded count = unset, index = unset, change_room = unset;
    int64_t *change = (int64_t *)&change_room.value;
    fill_output(room);
    uint32_t refusal =
        plain ? suovvamet_rewrite_plain(table, length, flags, mode, default_hop, ranks, lent, output, room, &count.value, change, &index.value)
              : suovvamet_rewrite(table, length, flags, mode, default_hop, ranks, lent, output, room, work, words, &count.value, change,
                                  &index.value);
    promise_guards(&count);
    promise_guards(&change_room);
    if (!plain)
        promise_words(length, flags, mode == SUOVVAMET_SET, words, refusal, index.value);
    if (answered(refusal, &index, count.value == 0 && *change == 0)) {
        print_records((size_t)count.value, mode != SUOVVAMET_SET);
        print(*change < 0 ? "change -" : "change ");
        print_number(*change < 0 ? 0 - (uint64_t)*change : (uint64_t)*change);
        print("\n");
    }
    promise_output((size_t)count.value, room);
}

static void covers(size_t length, uint32_t flags, uint64_t address, uint32_t query, size_t words)
{
    struct guarded32 covered = unset32;
    struct guarded index = unset;
    uint32_t refusal = suovvamet_covers(table, length, flags, address, query, work, words, &covered.value, &index.value);
    promise_guards32(&covered);
    promise_words(length, flags, 1, words, refusal, index.value);
    if (answered(refusal, &index, covered.value == 0)) {
        print(covered.value ? "covered\n" : "uncovered\n");
        promise(covered.value <= 1, "covered is no 0 or 1");
    }
}

static void lookup(size_t length, uint32_t flags, uint64_t address)
{
    struct guarded32 found = unset32, hop = unset32, matched = unset32;
    struct guarded index = unset;
    uint32_t refusal = suovvamet_lookup(table, length, flags, address, &found.value, &hop.value, &matched.value, &index.value);
    promise_guards32(&found);
    promise_guards32(&hop);
    promise_guards32(&matched);
    int zero = found.value == 0 && hop.value == 0 && matched.value == 0;
    if (!answered(refusal, &index, zero))
        return;
    if (found.value == 1) {
        print("hop ");
        print_number(hop.value);
        print(" length ");
        print_number(matched.value);
        print("\n");
    } else {
        print("no route\n");
        promise(zero, "value without a route");
    }
}

static void addresses_held(size_t length, uint32_t flags)
{
    struct guarded addresses = unset, index = unset;
    uint32_t refusal = suovvamet_addresses_held(table, length, flags, &addresses.value, &index.value);
    promise_guards(&addresses);
    if (answered(refusal, &index, addresses.value == 0)) {
        print("addresses ");
        print_number(addresses.value);
        print("\n");
    }
}

static void unrouted(size_t length, uint32_t flags, size_t room)
{
    struct guarded count = unset, index = unset;
    fill_output(room);
    uint32_t refusal = suovvamet_unrouted(table, length, flags, output, room, &count.value, &index.value);
    promise_guards(&count);
    if (answered(refusal, &index, count.value == 0)) {
        print_records((size_t)count.value, 0);
        print("unrouted ");
        print_number(count.value);
        print("\n");
    }
    promise_output((size_t)count.value, room);
}

/* The image is lent as the output is. */
static void chip_image(size_t length, uint32_t flags, size_t room)
{
    struct guarded slots = unset, index = unset;
    fill_output(room);
    uint32_t refusal = suovvamet_chip_image(table, length, flags, output, room, &slots.value, &index.value);
    promise_guards(&slots);
    if (!answered(refusal, &index, slots.value == 0)) {
        promise_output(0, room);
        return;
    }
    promise(room == SUOVVAMET_IMAGE_SIZE && slots.value <= SUOVVAMET_IMAGE_SIZE / 8, "image of another size");
    print_records((size_t)slots.value, 1);
    print("slots ");
    print_number(slots.value);
    print("\n");
    int clear = 1;
    for (size_t i = 8 * (size_t)slots.value; i < room; i++)
        clear &= output[i] == 255;
    promise(clear, "slots not clear");
    promise_output(room / 8, room);
}

static void special_use(size_t length, uint32_t flags, uint32_t edition)
{
    struct guarded32 found = unset32;
    struct guarded record = unset, index = unset;
    uint32_t refusal = suovvamet_special_use(table, length, flags, edition, &found.value, &record.value, &index.value);
    promise_guards32(&found);
    promise_guards(&record);
    if (!answered(refusal, &index, found.value == 0 && record.value == 0))
        return;
    if (found.value == 1) {
        print("special at ");
        print_number(record.value);
        print("\n");
    } else {
        print("none special\n");
        promise(found.value == 0 && record.value == 0, "value without a record");
    }
}

/* ---- The live map: commands on one room, which is filled with a pattern that is none. */
enum { COMMAND = 8 };
static const uint32_t LIVE_FILLER = 2779096485u;

/* Prints a refusal, or says that there is none. */
static int done(uint32_t refusal)
{
    if (refusal == SUOVVAMET_ANSWERED)
        return 1;
    print("refused ");
    print_number(refusal);
    print(" at 0\n");
    return 0;
}

static void live_command(const uint8_t *command, uint32_t ignored, size_t words)
{
    uint32_t flags = (command[0] < STRICT_CASE ? 0 : SUOVVAMET_STRICT) | ignored;
    uint32_t hop = (uint32_t)command[1] << 8 | command[2], length = command[3], address = 0;
    for (int i = 4; i < COMMAND; i++)
        address = address << 8 | command[i];
    struct guarded32 present = unset32, found = unset32, matched = unset32, by = unset32;
    int stays = 1;
    for (size_t i = 0; i < words; i++)
        room_before[i] = work[i];
    switch (command[0] % STRICT_CASE) {
    case 0:
    case 1: {
        uint32_t refusal =
            command[0] % STRICT_CASE == 0 ? suovvamet_live_make(work, words) : suovvamet_live_put(work, words, flags, address, length, hop);
        if (done(refusal)) {
            print("done\n");
            stays = 0;
        }
        break;
    }
    case 2:
        if (done(suovvamet_live_take(work, words, flags, address, length, &present.value))) {
            print(present.value ? "done\n" : "absent\n");
            promise(present.value <= 1, "present is no 0 or 1");
            stays = present.value == 0;
        } else
            promise(present.value == 0, "value in a refusal");
        promise_guards32(&present);
        break;
    case 3: {
        int zero;
        uint32_t refusal = suovvamet_live_lookup(work, words, address, &found.value, &by.value, &matched.value);
        zero = found.value == 0 && by.value == 0 && matched.value == 0;
        promise_guards32(&found);
        promise_guards32(&by);
        promise_guards32(&matched);
        if (!done(refusal))
            promise(zero, "value in a refusal");
        else if (found.value == 1) {
            print("hop ");
            print_number(by.value);
            print(" length ");
            print_number(matched.value);
            print("\n");
        } else {
            print("no route\n");
            promise(zero, "value without a route");
        }
        break;
    }
    case 4:
        if (address < words)
            work[address] ^= (uint32_t)1 << length % 32;
        print("flipped\n");
        stays = 0;
        break;
    default: print("no such command\n");
    }
    uint32_t changed = 0;
    for (size_t i = 0; stays && i < words; i++)
        changed |= work[i] ^ room_before[i];
    promise(changed == 0, "room touched");
}

static void live_map(size_t length, uint32_t ignored, size_t words)
{
    for (size_t i = 0; i < words; i++)
        work[i] = LIVE_FILLER;
    for (size_t at = 0; at + COMMAND <= length; at += COMMAND)
        live_command(table + at, ignored, words);
}

/* ---- Plans: the new table and the steps stand behind the installed table. */
static int read_new(size_t new_length)
{
    return platform_read(new_room, new_length) == new_length;
}

static int read_steps(size_t steps)
{
    for (size_t i = 0; i < steps; i++) {
        if (platform_read(step_bytes, 8) < 8)
            return 0;
        step_room[i].address = (uint32_t)step_bytes[0] << 24 | (uint32_t)step_bytes[1] << 16 | (uint32_t)step_bytes[2] << 8 | step_bytes[3];
        step_room[i].length = step_bytes[4];
        step_room[i].hop = step_bytes[5];
        step_room[i].put = step_bytes[6];
        step_room[i].unread = step_bytes[7];
    }
    return 1;
}

static void check_plan(size_t length, size_t new_length, uint32_t flags, size_t steps)
{
    struct guarded32 yes = unset32;
    struct guarded index = unset;
    uint32_t refusal = suovvamet_check_plan(table, length, new_room, new_length, flags, step_room, steps, &yes.value, &index.value);
    promise_guards32(&yes);
    if (answered(refusal, &index, yes.value == 0)) {
        print(yes.value == 1 ? "yes\n" : "no\n");
        promise(yes.value <= 1, "a third word");
    }
}

static void plan(size_t length, size_t new_length, uint32_t flags, size_t room)
{
    static const struct suovvamet_step filled = {0xA5A5A5A5u, 165, 165, 165, 165};
    struct guarded32 given = unset32;
    struct guarded count = unset, index = unset;
    for (size_t i = 0; i < room; i++)
        step_room[i] = filled;
    uint32_t refusal = suovvamet_plan(table, length, new_room, new_length, flags, step_room, room, &given.value, &count.value, &index.value);
    promise_guards32(&given);
    promise_guards(&count);
    if (answered(refusal, &index, given.value == 0 && count.value == 0)) {
        if (given.value == 1) {
            for (size_t i = 0; i < (size_t)count.value; i++) {
                const struct suovvamet_step *s = &step_room[i];
                print(s->put != 0 ? "put " : "take ");
                for (int shift = 24; shift >= 0; shift -= 8) {
                    print_number(s->address >> shift & 255);
                    print(shift > 0 ? "." : "/");
                }
                print_number(s->length);
                if (s->put != 0) {
                    print(" ");
                    print_number(s->hop);
                }
                print("\n");
            }
            print("steps ");
            print_number(count.value);
            print("\n");
        } else {
            print("gave up\n");
            promise(given.value == 0 && count.value == 0, "value in giving up");
        }
    }
    int touched = 0;
    for (size_t i = (size_t)count.value; i < room; i++)
        touched |= step_room[i].address != filled.address || step_room[i].length != 165 || step_room[i].hop != 165 || step_room[i].put != 165 || step_room[i].unread != 165;
    promise(!touched, "steps touched");
}

/* ---- The cases. */
static uint32_t number(const uint8_t *bytes, int count)
{
    uint32_t n = 0;
    for (int i = 0; i < count; i++)
        n = n << 8 | bytes[i];
    return n;
}

/* ---- The ranks of a case: a byte that says how many they are, and a byte each. Where it lends none the room stands there with length 0. */
static int read_ranks(uint8_t first, size_t *lent)
{
    for (size_t i = 0; i < sizeof rank_room / sizeof rank_room[0]; i++)
        rank_room[i] = (uint16_t)(pattern(i) << 8 | pattern(i + 1));
    uint8_t count = 0, bytes[MOST_RANKS];
    if (first % STRICT_CASE >= RANKS_CASE && (platform_read(&count, 1) < 1 || platform_read(bytes, count) < count))
        return 0;
    for (size_t i = 0; i < count; i++)
        ranks[i] = bytes[i];
    for (size_t i = 0; i < sizeof rank_room / sizeof rank_room[0]; i++)
        kept_ranks[i] = rank_room[i];
    *lent = count;
    return 1;
}

static int ranks_kept(void)
{
    int same = 1;
    for (size_t i = 0; i < sizeof rank_room / sizeof rank_room[0]; i++)
        same &= kept_ranks[i] == rank_room[i];
    return same;
}

/* The line that ends the run, NULL after the last whole case. */
static const char *run(void)
{
    for (size_t at = 0;; at++) {
        uint8_t header[HEADER], query[8];
        size_t got = platform_read(header, HEADER);
        if (got == 0)
            return NULL;
        table = table_room + EDGE + at % SHIFTS;
        output = output_room + EDGE + (at + 1) % SHIFTS;
        work = work_room + EDGE + at % SHIFTS;
        ranks = rank_room + EDGE + at % SHIFTS;
        uint32_t call = header[0] % LONG_CASE;
        int is_long = header[0] % RANKS_CASE >= LONG_CASE;
        size_t lent = 0;
        if (got < HEADER || (is_long && platform_read(query, sizeof query) < sizeof query) || !read_ranks(header[0], &lent))
            return "case cut short";
        size = is_long ? 16 : 8;
        size_t length = call == 10 ? COMMAND * (size_t)number(header + 12, 2) : number(header + 14, 2);
        if (length > MOST_BYTES)
            return "too many commands";
        if (call == 7 && number(header + 10, 2) > CHECKED_STEPS)
            return "too many steps";
        size_t around = (size_t)(table - table_room) + length + EDGE;
        for (size_t i = 0; i < around; i++)
            table_room[i] = pattern(i);
        if (platform_read(table, length) < length)
            return "case cut short";
        int widths = call <= 2 || call == 4 || call == 5; /* both are taken */
        if (call > 10 || (is_long && !widths))
            return "no such call";
        size_t new_length = number(header + 8, 2), steps = number(header + 10, 2);
        if ((call == 7 || call == 8) && (!read_new(new_length) || (call == 7 && !read_steps(steps))))
            return "case cut short";
        uint32_t flags = header[0] < STRICT_CASE ? 0 : SUOVVAMET_STRICT;
        flags |= is_long ? SUOVVAMET_LONG : 0;
        /* Bits that are ignored, and of an address of 32 bits those above them. */
        flags |= filler(at) & ~(uint32_t)(widths ? SUOVVAMET_STRICT | SUOVVAMET_LONG : SUOVVAMET_STRICT);
        uint64_t address = is_long ? (uint64_t)number(query, 4) << 32 | number(query + 4, 4) : (uint64_t)filler(at) << 32 | number(header + 4, 4);
        size_t words = number(header + 8, 4), room = number(header + 12, 2);
        if (call == 4 && words > (is_long ? MOST_LONG_LIST : MOST_LIST))
            return "output too large";
        if ((call < 4 && words > most_work()) || (call == 10 && words > MOST_LIVE))
            return "work room too large";
        for (size_t i = 0; i < around; i++)
            kept[i] = table_room[i];
        int borrows = call <= 1 || call == 10;
        size_t before = (size_t)(work - work_room), all = before + words + EDGE;
        for (size_t i = 0; borrows && i < all; i++)
            work_room[i] = filler(i);
        switch (call) {
        case 0: rewrite(0, length, flags, header[1], header[2], lent, room, words); break;
        case 1: covers(length, flags, address, header[3], words); break;
        case 2: lookup(length, flags, address); break;
        case 3: addresses_held(length, flags); break;
        case 4: unrouted(length, flags, words); break;
        case 5: rewrite(1, length, flags, header[1], header[2], lent, room, 0); break;
        case 6: chip_image(length, flags, room); break;
        case 7: check_plan(length, new_length, flags, steps); break;
        case 8: plan(length, new_length, flags, steps); break;
        case 9: special_use(length, flags, number(header + 4, 4)); break;
        case 10: live_map(length, filler(at) & ~(uint32_t)SUOVVAMET_STRICT, words); break;
        }
        uint32_t left = 0, round = 0;
        for (size_t i = 0; borrows && i < all; i++)
            if (i < before || i >= before + words)
                round |= work_room[i] ^ filler(i);
            else if (call != 10)
                left |= work_room[i];
        promise(left == 0, "work not zero");
        promise(round == 0, "beside the work room touched");
        int touched = 0;
        for (size_t i = 0; i < around; i++)
            touched |= kept[i] != table_room[i];
        promise(!touched, "table touched");
        promise(ranks_kept(), "ranks touched");
    }
}

int main(void)
{
    const char *line = run();
    if (line != NULL) {
        print(line);
        print("\n");
    }
    flush();
    size_t depth = platform_stack_used();
    if (depth > 0) {
        print("stack ");
        print_number(depth);
        print("\n");
        platform_say(printed, filled);
    }
    return 0;
}
