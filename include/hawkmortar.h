/*
 * Route tables for access routers: the C interface of the proved library libhawkmortar.a.
 *
 * Every call answers one outcome. With refusal 0 the value is the answer; otherwise the refusal is a
 * number of the table in docs/SPECIFICATION.md and the value is its place. A refused call leaves all
 * the memory it was lent as it was.
 *
 * A row is a pointer, then its length in elements. The pointer is to at least so many elements, is
 * aligned for them, and is not null, also where the length is 0. A row that a call writes shares no
 * element with its other rows.
 */
#ifndef HAWKMORTAR_H
#define HAWKMORTAR_H

#include <stddef.h>
#include <stdint.h>

#ifdef __cplusplus
extern "C" {
#endif

/* The most entries of a list. */
#define HAWKMORTAR_MAX_ROUTES 4096

/* The largest next hop; the least is 1, and 0 in an answer is none. */
#define HAWKMORTAR_MAX_HOP 65535

/* The most slots of a table; the least is 1. */
#define HAWKMORTAR_MAX_SLOTS 4096

/* The most ranges of a table; the least is 1. */
#define HAWKMORTAR_MAX_RANGES 8193

/* The words of a DXR table's main table, one for each chunk of 65,536 addresses. */
#define HAWKMORTAR_MAIN_WORDS 65536

/* The most range words of a DXR table that is built: enough room for any list. */
#define HAWKMORTAR_MAX_RANGE_WORDS 12288

/* The most writes of a plan that sets a prefix, and of one that removes it or mends a table; a write is three numbers. */
#define HAWKMORTAR_MAX_SET_WRITES 17
#define HAWKMORTAR_MAX_REMOVE_WRITES 18

/* Refusals. */
enum {
    HAWKMORTAR_LENGTH = 1,   /* a length over 32 */
    HAWKMORTAR_ADDRESS = 2,  /* an address that is not a multiple of 2^(32-n); in a record, 2^n or more */
    HAWKMORTAR_HOP = 3,      /* a hop of 0 or over 65,535 */
    HAWKMORTAR_TWICE = 4,    /* an earlier entry of the list has this prefix */
    HAWKMORTAR_FULL = 5,     /* an absent prefix is to be set and no slot is free */
    HAWKMORTAR_ABSENT = 6,   /* the prefix to be removed is not there */
    HAWKMORTAR_IMAGE = 7,    /* a rule of the slots, the ranges or the chunk is broken */
    HAWKMORTAR_SIZE = 8,     /* rows of unequal length, a size outside its limits, or a place past the input */
    HAWKMORTAR_ROOM = 9,     /* an output is shorter than the answer needs */
    HAWKMORTAR_PLAN = 10,    /* a plan too short, or a write that cannot be made */
    HAWKMORTAR_NUMBER = 11,  /* a number longer than needed, or over 2^32 - 1 */
    HAWKMORTAR_CUT = 12,     /* the bytes end inside a record */
    HAWKMORTAR_KIND = 13     /* a record's kind over 1 */
};

struct hawkmortar_outcome {
    uint64_t refusal; /* 0, or the refusal's number */
    uint64_t value;   /* the answer, or the refusal's place */
};

/*
 * Tests a list of prefixes with their next hops, in any order.
 * Value: the number of entries.
 * Refusals: 8 for rows of unequal length or more than 4,096 entries; then entry by entry 1, 2, 3, 4,
 * the place being the entry.
 */
struct hawkmortar_outcome hawkmortar_list_check(
    const uint32_t *addresses, size_t addresses_len,
    const uint32_t *lengths, size_t lengths_len,
    const uint32_t *hops, size_t hops_len);

/*
 * Looks the address q up in a list.
 * Value: the next hop of the longest prefix that matches q, 0 where none matches.
 * Refusals: as of hawkmortar_list_check.
 */
struct hawkmortar_outcome hawkmortar_list_lookup(
    const uint32_t *addresses, size_t addresses_len,
    const uint32_t *lengths, size_t lengths_len,
    const uint32_t *hops, size_t hops_len,
    uint32_t q);

/* A prefix with its next hop. */
struct hawkmortar_prefix {
    uint32_t address;
    uint32_t length;
    uint32_t hop;
};

/*
 * Tests a list that is one row of prefixes with their next hops, in any order.
 * Value: the number of entries.
 * Refusals: 8 for more than 4,096 entries; then entry by entry 1, 2, 3, 4, the place being the entry.
 */
struct hawkmortar_outcome hawkmortar_prefixes_check(
    const struct hawkmortar_prefix *list, size_t list_len);

/*
 * Looks the address q up in a list that is one row of prefixes.
 * Value: the next hop of the longest prefix that matches q, 0 where none matches.
 * Refusals: as of hawkmortar_prefixes_check.
 */
struct hawkmortar_outcome hawkmortar_prefixes_lookup(
    const struct hawkmortar_prefix *list, size_t list_len,
    uint32_t q);

/*
 * Slots: two rows, of addresses and tags, where a tag is length x 65,536 + hop and a free slot is 0 in
 * both. Each call refuses with 8 rows of unequal length, no slots and more than 4,096 slots.
 */

/*
 * Tests the image of a table against the rules S1 to S5 of docs/SPECIFICATION.md.
 * Value: the number of used slots.
 * Refusals: 8; 7, the place being the first slot that breaks a rule.
 */
struct hawkmortar_outcome hawkmortar_slot_check(
    const uint32_t *addresses, size_t addresses_len,
    const uint32_t *tags, size_t tags_len);

/*
 * Looks the address q up in a table.
 * Value: the next hop of the first used slot that matches q, 0 where none matches.
 * Refusals: 8; 7, the place being the first slot that breaks S1.
 */
struct hawkmortar_outcome hawkmortar_slot_lookup(
    const uint32_t *addresses, size_t addresses_len,
    const uint32_t *tags, size_t tags_len,
    uint32_t q);

/*
 * Plans to set a prefix's next hop.
 * Value: the number of writes. They stand at the front of the plan, three numbers each: slot, address,
 * tag. The rest of the plan is left as it was.
 * Refusals: 8; 7 as of hawkmortar_slot_check; 1, 2, 3 of the prefix and its hop; 5; 9 where the plan
 * has fewer numbers than three times the writes.
 */
struct hawkmortar_outcome hawkmortar_plan_set(
    const uint32_t *addresses, size_t addresses_len,
    const uint32_t *tags, size_t tags_len,
    uint32_t address, uint32_t length, uint32_t hop,
    uint32_t *plan, size_t plan_len);

/*
 * Plans to remove a prefix.
 * Value: the number of writes, which stand in the plan as those of hawkmortar_plan_set.
 * Refusals: 8; 7 as of hawkmortar_slot_check; 1, 2 of the prefix; 6; 9 as of hawkmortar_plan_set.
 */
struct hawkmortar_outcome hawkmortar_plan_remove(
    const uint32_t *addresses, size_t addresses_len,
    const uint32_t *tags, size_t tags_len,
    uint32_t address, uint32_t length,
    uint32_t *plan, size_t plan_len);

/*
 * Plans to mend a table that an update left half-written: one that keeps S1 to S4 and has exactly one
 * prefix in two slots, with equal tags. The plan removes the later copy. Every number of its writes leaves
 * a table that answers as this one does, and the whole leaves one that keeps S1 to S5. A mend that was cut
 * short can be planned again.
 * Value: the number of writes, which stand in the plan as those of hawkmortar_plan_set: at most
 * HAWKMORTAR_MAX_REMOVE_WRITES, and 0 for a table that keeps S1 to S5, whatever the plan's room.
 * Refusals: 8; 7, the place being the first slot of the whole table that breaks one of S1 to S4, or else
 * the first that repeats an earlier prefix with another tag or is the second slot to repeat any; 9 as of
 * hawkmortar_plan_set.
 */
struct hawkmortar_outcome hawkmortar_plan_mend(
    const uint32_t *addresses, size_t addresses_len,
    const uint32_t *tags, size_t tags_len,
    uint32_t *plan, size_t plan_len);

/*
 * Makes the first k writes of a plan. Its whole writes are plan_len / 3, rounded down. The image is not
 * tested, so that a plan can be applied in parts.
 * Value: k.
 * Refusals: 8; 10, the place being the plan's whole writes where k is more, else the first of the k
 * writes whose slot is not in the table or whose address and tag break S1.
 */
struct hawkmortar_outcome hawkmortar_apply(
    uint32_t *addresses, size_t addresses_len,
    uint32_t *tags, size_t tags_len,
    const uint32_t *plan, size_t plan_len,
    size_t k);

/*
 * The download: a table's entries, one to a call, in order of address, then length. Nothing is kept between two
 * calls and nothing is locked: a program that makes calls and single slot writes in turn may write what it likes
 * of accepted plans between two calls. The prefixes given then rise; a prefix in the table at every call of a walk
 * that comes to its end is given exactly once, one that is there at none is never given, and one that comes or
 * goes meanwhile may be given or not. A call that runs while a slot is being written may read an image that no
 * plan leaves; keep calls and writes apart.
 */

/*
 * The first entry of a table. The pointer entry is to three numbers, no part of the rows: address, length and tag.
 * Value: 1 where there is an entry; 0 where there is none, which leaves entry as it was. Of a prefix in several
 * slots the first slot's tag is given.
 * Refusals: 8; 7, the place being the first slot that breaks S1, wherever it lies.
 */
struct hawkmortar_outcome hawkmortar_download_first(
    const uint32_t *addresses, size_t addresses_len,
    const uint32_t *tags, size_t tags_len,
    uint32_t *entry);

/*
 * The next entry past a prefix, which is the one given last or any other: it need not be in the table.
 * Value: as of hawkmortar_download_first; 0 is the end.
 * Refusals: as of hawkmortar_download_first; then 1, 2 of the prefix.
 */
struct hawkmortar_outcome hawkmortar_download_next(
    const uint32_t *addresses, size_t addresses_len,
    const uint32_t *tags, size_t tags_len,
    uint32_t address, uint32_t length,
    uint32_t *entry);

/*
 * Ranges: two rows, of starts and next hops, hop 0 being none. The first range starts at 0, each range ends
 * just before the next start, the last at 255.255.255.255, and neighbouring ranges have different hops.
 */

/*
 * Builds the range table of a list.
 * Value: the number of ranges, at most twice the entries plus 1. They stand at the front of starts and
 * range_hops, which may differ in length. The rest of both is left as it was.
 * Refusals: as of hawkmortar_list_check; 9 where starts or range_hops has fewer numbers than there are
 * ranges.
 */
struct hawkmortar_outcome hawkmortar_ranges_build(
    const uint32_t *addresses, size_t addresses_len,
    const uint32_t *lengths, size_t lengths_len,
    const uint32_t *hops, size_t hops_len,
    uint32_t *starts, size_t starts_len,
    uint32_t *range_hops, size_t range_hops_len);

/*
 * Looks the address q up in a range table.
 * Value: the next hop of the last range that starts at or below q, 0 where that is none.
 * Refusals: 8 for rows of unequal length or more than 8,193 ranges; 7, the place being the first range that
 * breaks a rule: a start that is not 0 for the first range or not above the start before for another, the
 * hop of the range before, or a hop over 65,535. No ranges at all are refused with 7 at place 0.
 */
struct hawkmortar_outcome hawkmortar_range_lookup(
    const uint32_t *starts, size_t starts_len,
    const uint32_t *range_hops, size_t range_hops_len,
    uint32_t q);

/*
 * DXR: a main table of 65,536 words, one for each chunk of 65,536 addresses, and a row of range words. A
 * chunk's entries are the merged ranges inside it, with starts counted from its first address; the first
 * starts at 0, and hop 0 is none. The main word of one entry is its hop. Otherwise it is kind x 2^30 +
 * count x 65,536 + position, position being the index of the chunk's first range word. Kind 1 is long: each
 * range word is start x 65,536 + hop. Kind 2 is short, used exactly where every start is a multiple of 256
 * and every hop is at most 255: 16 bits an entry, (start / 256) x 256 + hop, two to a word, the earlier in
 * the upper half, an odd last half 0. Chunks are stored in rising order with no gap.
 */

/*
 * Builds the DXR table of a list.
 * Value: the number of range words, at most 12,288. They stand at the front of words, the rest of which is
 * left as it was. All of main is written.
 * Refusals: 8 for a main table that has not 65,536 words; as of hawkmortar_list_check; 9 where words has
 * fewer numbers than there are range words.
 */
struct hawkmortar_outcome hawkmortar_dxr_build(
    const uint32_t *addresses, size_t addresses_len,
    const uint32_t *lengths, size_t lengths_len,
    const uint32_t *hops, size_t hops_len,
    uint32_t *main, size_t main_len,
    uint32_t *words, size_t words_len);

/*
 * Looks the address q up in a DXR table.
 * Value: the next hop of the last entry of its chunk that starts at or below q, 0 where that is none.
 * Refusals: 8 for a main table that has not 65,536 words; 7, the place being the chunk, q / 65,536, where
 * that breaks a rule: a word of kind 0 over 65,535; kind 3; a count below 2; entries that are not inside
 * words; a start that is not 0 for the first entry or not above the start before for another. The other
 * chunks are not tested, nor is the half of a word behind an odd number of short entries.
 */
struct hawkmortar_outcome hawkmortar_dxr_lookup(
    const uint32_t *main, size_t main_len,
    const uint32_t *words, size_t words_len,
    uint32_t q);

/*
 * Update records: bytes that say which prefixes are set and removed. A record is up to four numbers: its kind,
 * 0 for a removal and 1 for a set; the prefix's length n; its address divided by 2^(32-n); and for a set the
 * next hop. A number is at most 2^32 - 1 and stands in groups of seven bits, one to a byte, the low group first,
 * with the top bit set on all bytes but the last. Its form is the shortest, so no byte behind its first is 0.
 */

/*
 * Reads the record whose first byte has the index at. The pointer record is to four numbers, no part of bytes:
 * kind, length, address and next hop, the hop 0 for a removal.
 * Value: the place behind the record, where the next one starts, and always more than at; or at itself where that
 * is bytes_len, the end of the input, which leaves record as it was.
 * Refusals: 8 for a place past the input; then number by number, in the record's order: 11 for a number that is
 * longer than needed or over 2^32 - 1, at once where a fifth byte is over 15; 12 where the bytes end inside the
 * record; 13 for a kind over 1, 1 for a length over 32, 2 for an address, divided as above, of 2^n or more, 3 for
 * a hop of 0 or over 65,535. The place is 0 of 8, bytes_len of 12, else the first byte of the number at fault.
 */
struct hawkmortar_outcome hawkmortar_record_at(
    const uint8_t *bytes, size_t bytes_len,
    size_t at,
    uint32_t *record);

#ifdef __cplusplus
}
#endif

#endif
