/*
 * Suovvamet for C: a table of IPv4 or IPv6 routes made shorter without changing where any routed address is sent.
 *
 * What is said here of the functions of the library is proved of them for every input (crates/suovvamet; docs/C.md has the theorems' names
 * and how to build and link). They take no memory of their own but stack, keep nothing between calls and never fail to return. The header is
 * the same for every processor (docs/CORES.md).
 *
 * A table is records of 8 bytes (docs/WIRE.md): four octets of the address, the first one first, then the length (0 to 32), the next hop (0 to
 * 63 in a map, 0 in a set), and two bytes 0; strictly ascending by address, then length; at most 1,024 records. Bits of an address past the
 * length are masked: 10.1.2.3/8 is 10.0.0.0/8, and the order is that of the masked addresses. Under the strict choice (SUOVVAMET_STRICT) a
 * record that has such bits is refused instead.
 *
 * A long table (SUOVVAMET_LONG) has records of 16 bytes: eight octets, the upper half of an IPv6 address, then the length (0 to 64), the hop, and six
 * bytes 0; all else is as above. The rewrites, the cover query, the lookup, the list of what has no route and the work words take both; every other
 * call reads records of 8 bytes, whatever this flag says.
 *
 * What the caller owes, in every call:
 *   - a pointer that is followed by a length points to that many elements (bytes of a table, an output or an image, ranks, 32-bit words of a
 *     work room), whatever they hold, and is not NULL even where the length is 0: any object of its type serves there;
 *   - each other pointer points to one number, whatever it holds;
 *   - a table, an output and an image may stand at any address; ranks, a work room and a number stand at that of their type, as C has them anyway;
 *   - no two of what the pointers of a call point to overlap, and nothing else writes there until the call returns.
 * Nothing else is asked: any bytes and any numbers are answered or refused. Lengths are numbers of 64 bits on every processor; a size_t passes
 * as it is.
 *
 * What every function gives:
 *   - its result is 0 exactly when the call is answered; else it is the number of the first refusal, in the order below, that is due;
 *   - *index is the index of the record that a refusal 5 to 8 or 25 to 28 names, or of the step that 13 names, counted from 0; it is 0 for the other
 *     refusals and for an answer;
 *   - every number that is set through a pointer is set in every case, and a refusal sets all but *index to 0;
 *   - a table and ranks are only read; a work room is 0 throughout afterwards, answered or refused, but for the room of a live map; nothing past a
 *     length is read or written.
 *
 * A call clears the whole room that it is lent, so it costs by that room too: lend what the table needs, which suovvamet_work_words tells, and
 * not all that there is.
 */
#ifndef SUOVVAMET_H
#define SUOVVAMET_H

#include <stdint.h>

#ifdef __cplusplus
extern "C" {
#endif

/* One more whenever something that is declared or promised here changes. */
#define SUOVVAMET_VERSION 11

/*
 * How a table is read, in every call: 0, or the sum of SUOVVAMET_STRICT for the strict choice and SUOVVAMET_LONG for a long table. The other bits of
 * the flags are kept for later and ignored; leave them 0. What is not refused by SUOVVAMET_HOST_BITS under the strict choice is answered, set and written
 * as without it.
 */
#define SUOVVAMET_STRICT 1u
#define SUOVVAMET_LONG 2u

/* The refusals, in the order in which they are checked, but that 5 to 8 go record by record: the first bad record, its lowest number. */
enum suovvamet_refusal {
    SUOVVAMET_ANSWERED = 0,       /* no refusal */
    SUOVVAMET_NO_LIVE_MAP = 18,   /* the room holds no live map */
    SUOVVAMET_EDITION = 14,       /* the edition is not 5735 or 6890 */
    SUOVVAMET_MODE = 1,           /* the mode is not 1 to 5; by the plain engine: not 1, 4 or 5, nor 2 */
    SUOVVAMET_RETIRED = 16,       /* the mode is 2, which is retired: use SUOVVAMET_SET, which serves the tables that it wrote */
    SUOVVAMET_DEFAULT = 2,        /* the mode is 5 and the default is above 63 */
    SUOVVAMET_RANKS = 15,         /* the mode is 4 or 5, and ranks are lent that are not the numbers 0 to 63 each once */
    SUOVVAMET_TABLE_LENGTH = 3,   /* the table's length is not a multiple of 8; of a long table, of 16 */
    SUOVVAMET_RECORDS = 4,        /* the table has more than 1,024 records */
    SUOVVAMET_PREFIX_LENGTH = 5,  /* a record's length is above 32; of a long table, above 64 */
    SUOVVAMET_HOST_BITS = 6,      /* a record has bits of the address set past its length, and the choice is strict */
    SUOVVAMET_HOP = 7,            /* a record's hop is above 63, or not 0 in a set, or a byte behind it is not 0 */
    SUOVVAMET_ORDER = 8,          /* a record is not strictly after the one before it, both masked */
    SUOVVAMET_QUERY_LENGTH = 9,   /* the cover query's length is above 32; of a long table, above 64 */
    SUOVVAMET_MAP_RECORDS = 17,   /* the live map would have more than 1,024 records */
    SUOVVAMET_WORK_ROOM = 10,     /* the room has fewer than 160 words for each node of the table, or of the live map as it would be */
    SUOVVAMET_OUTPUT = 11,        /* the output has fewer than 8 bytes, or 16, for each record of the result or the list */
    SUOVVAMET_IMAGE = 12,         /* the chip's image has not 8,192 bytes */
    SUOVVAMET_NEW_TABLE = 20,     /* 23 to 28: the faults 3 to 8 in the new table of a plan, each by 20 higher */
    SUOVVAMET_STEP = 13           /* a step's length is above 32, its host bits are set under the strict choice, or a put's hop is above 63 */
};

/* The modes of a rewrite. The first takes a set, the others a map. 2 is retired, and never given to another mode. */
enum suovvamet_mode {
    SUOVVAMET_SET = 1,            /* the widest prefixes that the members cover whole */
    SUOVVAMET_CONSISTENT_MAP = 3, /* the entries whose hop differs from that of the nearest entry above, or with none above */
    SUOVVAMET_MAP_DROP = 4,       /* the same hop at every address, by ORTC; what has no route keeps none */
    SUOVVAMET_MAP_FILL = 5        /* the same, what has no route given the default hop */
};

/*
 * Rooms for every table. A table has the root as a node and, for each record of length L, one at depths 5, 10, up to 5 * (L / 5), which two
 * records share where their address bits up to that depth agree: 1 for an empty table, 5,153 at most, so this work room is never refused.
 * No result has more records than its table, but one more in mode 5, so that this output is never refused either.
 */
#define SUOVVAMET_MOST_WORK 824480u /* words: 160 for each of 5,153 nodes */
#define SUOVVAMET_MOST_OUTPUT 8200u /* bytes: 8 for each of 1,025 records */

/* The same for long tables, which have 11,297 nodes at most. */
#define SUOVVAMET_MOST_LONG_WORK 1807520u  /* words: 160 for each of 11,297 nodes */
#define SUOVVAMET_MOST_LONG_OUTPUT 16400u  /* bytes: 16 for each of 1,025 records */

/* An output for every list of what has no route: of a table of n records it has at most 21 * n + 1,024 prefixes, of a long one 53 * n + 1,024. */
#define SUOVVAMET_MOST_UNROUTED 180224u      /* bytes: 8 for each of 22,528 prefixes */
#define SUOVVAMET_MOST_LONG_UNROUTED 884736u /* bytes: 16 for each of 55,296 prefixes */

/* The image of a chip of 1,024 slots of 8 bytes. */
#define SUOVVAMET_IMAGE_SIZE 8192u /* bytes */

/*
 * Rewrites the table in a mode: the records of the mode's result stand in the output from its start, *count is their number and *change is
 * that number less the number of the table's records. The bytes of the output after these records stay as they were, and after a refusal
 * all of them. default_hop is read in mode 5 alone. No table that answers every address alike has fewer records than mode 4's result, nor than mode
 * 5's once unrouted addresses have the default; *change is never above 0 in modes 1, 3 and 4 and never above 1 in mode 5. Refusals 1 or 16, 2, 15,
 * 3 to 8, 10 and 11.
 *
 * Where several hops are equally good, modes 4 and 5 take the one of lowest rank. ranks[h] is the rank of hop h: 64 numbers, 0 to 63 each once; or
 * ranks_length is 0, and then the smallest hop is taken, as by ranks that are the hop numbers. How many records there are does not depend on the
 * ranks. The other modes do not read them.
 */
uint32_t suovvamet_rewrite(const uint8_t *table, uint64_t table_length, uint32_t flags, uint32_t mode, uint32_t default_hop,
                           const uint16_t *ranks, uint64_t ranks_length, uint8_t *output, uint64_t output_length, uint32_t *work,
                           uint64_t work_length, uint64_t *count, int64_t *change, uint64_t *index);

/*
 * The same in modes 1, 4 and 5 by the plain engine, which needs no work room: mode 3 is refused by 1, and it never refuses by 10. Wherever
 * suovvamet_rewrite, lent any work room, does not refuse by 10, both give the same numbers and the same output but in mode 3. It takes no
 * memory but stack and, on large tables, more time (docs/PERFORMANCE.md). Refusals 1 or 16, 2, 15, 3 to 8 and 11.
 */
uint32_t suovvamet_rewrite_plain(const uint8_t *table, uint64_t table_length, uint32_t flags, uint32_t mode, uint32_t default_hop,
                                 const uint16_t *ranks, uint64_t ranks_length, uint8_t *output, uint64_t output_length, uint64_t *count,
                                 int64_t *change, uint64_t *index);

/*
 * Does the set cover the prefix of this address and length, each of its addresses lying under some member? Then *covered is 1, else 0.
 * The first octet of the address is the most significant, of the lower 32 bits where the table is not long, and then the upper ones are ignored; so are
 * bits past the length. Refusals 3 to 10.
 */
uint32_t suovvamet_covers(const uint8_t *table, uint64_t table_length, uint32_t flags, uint64_t address, uint32_t length, uint32_t *work,
                          uint64_t work_length, uint32_t *covered, uint64_t *index);

/*
 * The longest match of the address in a map: *found is 1 and *hop and *length are those of the record, or, where no record matches, all
 * three are 0. The address is as in the cover query. Refusals 3 to 8.
 */
uint32_t suovvamet_lookup(const uint8_t *table, uint64_t table_length, uint32_t flags, uint64_t address, uint32_t *found, uint32_t *hop,
                          uint32_t *length, uint64_t *index);

/* The number of addresses with a longest match in a map, 0 to 4294967296, in *addresses. Refusals 3 to 8. */
uint32_t suovvamet_addresses_held(const uint8_t *table, uint64_t table_length, uint32_t flags, uint64_t *addresses, uint64_t *index);

/*
 * The words of work room that a rewrite of the table or a cover query needs, in *words: with as many no call refuses by number 10, with one less
 * each does. The table is read as a set where is_set is not 0, else as a map. Refusals 3 to 8.
 */
uint32_t suovvamet_work_words(const uint8_t *table, uint64_t table_length, uint32_t flags, uint32_t is_set, uint64_t *words, uint64_t *index);

/*
 * Lists what has no route in a map: the widest prefixes none of whose addresses has one, as records with hop 0 in the order of a table, in the
 * output from its start; *count is their number. The bytes of the output after these records stay as they were, and after a refusal all of
 * them. Refusals 3 to 8 and 11.
 */
uint32_t suovvamet_unrouted(const uint8_t *table, uint64_t table_length, uint32_t flags, uint8_t *output, uint64_t output_length,
                            uint64_t *count, uint64_t *index);

/*
 * The special-use ranges, by the edition of their list: RFC 5735 (section 4) or RFC 6890 (section 2.2.2), named by the RFC's number. Is there a record
 * of a map all of whose addresses lie in one range of the list? Then *found is 1 and *record is the index of the first such record, else both are
 * 0. A record that is wider than a range does not lie in it. Refusals 14, then 3 to 8.
 */
uint32_t suovvamet_special_use(const uint8_t *table, uint64_t table_length, uint32_t flags, uint32_t edition, uint32_t *found, uint64_t *record,
                               uint64_t *index);

/*
 * The slot image of a map for a chip that has 1,024 slots and answers with the first slot that matches: all SUOVVAMET_IMAGE_SIZE bytes of the image are
 * written. The records, without host bits, stand by falling length, within a length by rising address, one a slot from the first slot on; *slots is
 * their number. Each other slot is eight bytes of 255, and the chip passes it over by its length. The first slot that matches an address answers as
 * the longest match in the table, no route included. After a refusal the image is as it was. Refusals 3 to 8 and 12.
 */
uint32_t suovvamet_chip_image(const uint8_t *table, uint64_t table_length, uint32_t flags, uint8_t *image, uint64_t image_length, uint64_t *slots,
                              uint64_t *index);

/*
 * A live map: a map that stays in a room of 32-bit words between calls (docs/LIVE-MAP.md). suovvamet_live_make makes an empty one in a room, whatever
 * is in it; the others refuse a room that holds none (18). The room is never cleared; after a refusal, a lookup and a take of an absent prefix it is as
 * it was, word for word. No refusal names a record, so there is no index. Nothing is kept outside the room: it may be copied, and used where the
 * copy stands. The flags say how the prefix is read, as that of a record.
 *
 * The room needs 160 words for each node, as document 01 counts those of a table with the map's records: 160 for an empty map,
 * SUOVVAMET_MOST_WORK for any. A call costs by the records that the map has, not by the room.
 */

/* Makes an empty map. Refusal 10, under 160 words. */
uint32_t suovvamet_live_make(uint32_t *room, uint64_t room_words);

/* Puts a route: a prefix that is present gets the new hop. Refusals 18, 5, 6, 7, 17, 10, in this order. */
uint32_t suovvamet_live_put(uint32_t *room, uint64_t room_words, uint32_t flags, uint32_t address, uint32_t length, uint32_t hop);

/* Takes a prefix: *present is 1, or 0 where it was not there, and then nothing changes. Refusals 18, 5, 6, in this order. */
uint32_t suovvamet_live_take(uint32_t *room, uint64_t room_words, uint32_t flags, uint32_t address, uint32_t length, uint32_t *present);

/* The longest match of an address: *found is 1 with its *hop and *length, or all three are 0. Refusal 18. */
uint32_t suovvamet_live_lookup(const uint32_t *room, uint64_t room_words, uint32_t address, uint32_t *found, uint32_t *hop, uint32_t *length);

/*
 * A step of a plan, 8 bytes without padding, as one CAN frame carries it: put the record of this prefix and hop, a present prefix gets the new hop; or
 * take the prefix away. The address is a number, its first octet the most significant.
 */
struct suovvamet_step {
    uint32_t address;
    uint8_t length, hop, put, unread; /* put: 0 for a take, anything else for a put; a take's hop is not read, and unread never */
};

/*
 * Do the steps change the installed map to the new one without a detour? Then *yes is 1, else 0: each step can be done (a prefix that is taken is
 * present), the table never has more than 1,024 records, after every step each address has its old or its new answer, no route included, and the table
 * at the end is the new one. So a cut after any step leaves every address an old or a new answer (docs/PLANS.md). Any number of steps. By default a
 * step's address is masked. Refusals 3 to 8 for the installed map, 23 to 28 for the new one, then 13.
 */
uint32_t suovvamet_check_plan(const uint8_t *installed, uint64_t installed_length, const uint8_t *new_table, uint64_t new_length, uint32_t flags,
                              const struct suovvamet_step *steps, uint64_t steps_length, uint32_t *yes, uint64_t *index);

/*
 * Proposes a plan from the installed map to the new one: *given is 1, *count is the number of its steps, and they stand in the room of steps from its
 * start; the steps behind them are as they were. Or it gives up, which claims nothing: *given and *count are 0 and the room is as it was, as after a
 * refusal. It gives up exactly when the prefixes of both are together more than 1,024 or the room is too short for its steps; else suovvamet_check_plan
 * says yes to them. A room of 1,024 steps is never too short. Refusals 3 to 8 and 23 to 28.
 */
uint32_t suovvamet_plan(const uint8_t *installed, uint64_t installed_length, const uint8_t *new_table, uint64_t new_length, uint32_t flags,
                        struct suovvamet_step *steps, uint64_t steps_length, uint32_t *given, uint64_t *count, uint64_t *index);

/* A refusal in words, for a person to read. It is C, no function of the library, and proved by nothing. */
static inline const char *suovvamet_refusal_text(uint32_t refusal)
{
    switch (refusal) {
    case SUOVVAMET_ANSWERED: return "answered";
    case SUOVVAMET_MODE: return "the mode is not 1 to 5, or not 1, 4 or 5 by the plain engine";
    case SUOVVAMET_RETIRED: return "mode 2 is retired; mode 1 serves its tables";
    case SUOVVAMET_DEFAULT: return "the default hop is above 63";
    case SUOVVAMET_RANKS: return "the ranks are not the numbers 0 to 63 each once";
    case SUOVVAMET_TABLE_LENGTH: return "the table is not made of whole records of 8 bytes, or of 16 where it is long";
    case SUOVVAMET_RECORDS: return "the table has more than 1,024 records";
    case SUOVVAMET_PREFIX_LENGTH: return "the record's length is above 32, or above 64 in a long table";
    case SUOVVAMET_HOST_BITS: return "the record's address has bits set past its length";
    case SUOVVAMET_HOP: return "the record's hop is above 63, or not 0 in a set, or a byte behind it is not 0";
    case SUOVVAMET_ORDER: return "the record does not stand strictly after the one before it";
    case SUOVVAMET_QUERY_LENGTH: return "the query's length is above 32, or above 64 of a long table";
    case SUOVVAMET_WORK_ROOM: return "the work room is shorter than the table needs";
    case SUOVVAMET_OUTPUT: return "the output is shorter than the result or the list";
    case SUOVVAMET_IMAGE: return "the image has not 8,192 bytes";
    case SUOVVAMET_MAP_RECORDS: return "the live map would have more than 1,024 records";
    case SUOVVAMET_NO_LIVE_MAP: return "the room holds no live map";
    case SUOVVAMET_STEP: return "a step's length is above 32, its address has bits set past it, or a put's hop is above 63";
    case SUOVVAMET_NEW_TABLE + SUOVVAMET_TABLE_LENGTH: return "the new table is not made of whole records of 8 bytes";
    case SUOVVAMET_NEW_TABLE + SUOVVAMET_RECORDS: return "the new table has more than 1,024 records";
    case SUOVVAMET_NEW_TABLE + SUOVVAMET_PREFIX_LENGTH: return "a length in the new table is above 32";
    case SUOVVAMET_NEW_TABLE + SUOVVAMET_HOST_BITS: return "an address in the new table has bits set past its length";
    case SUOVVAMET_NEW_TABLE + SUOVVAMET_HOP: return "a hop in the new table is above 63, or one of a record's last two bytes is not 0";
    case SUOVVAMET_NEW_TABLE + SUOVVAMET_ORDER: return "a record of the new table does not stand strictly after the one before it";
    case SUOVVAMET_EDITION: return "the edition is not 5735 or 6890";
    default: return "no call gives this number";
    }
}

#ifdef __cplusplus
}
#endif

#endif
