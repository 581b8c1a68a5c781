/*
 * The board's set P from C. First the list: each answer on a line, then the outcome of a list with a repeated prefix.
 * Then the list as one row of prefixes: the outcome of its test, each answer on a line, case e, and the outcomes of
 * lists with a repeated prefix, a length too large, a hop of 0 and no entry. Then case f, sets in 8 slots: each plan's
 * outcome, and the image. Then case g, a removal: the plan's outcome; after each number of its writes the answer for
 * 10.20.4.10, the outcome of a mend with no room, that of one with room, and its writes; and the image. Then its
 * download: the outcome of each call up to the end and of one past no prefix, with the three numbers after it. Then
 * case h, ranges: the outcome of a build with a cell of room too few, that of a build with room for all, the ranges,
 * and each answer on a line. Then cases i and j, the DXR table with and without the /32: the outcome of the build, the
 * main word of chunk 2580, its range words, which are all there are, and each answer on a line. Then the report's
 * records: the outcome of each call up to the end of the input, of one past it and of one on cut bytes, with the four
 * numbers after it.
 */
#include <inttypes.h>
#include <stdio.h>

#include "hawkmortar.h"

#define ENTRIES 5
#define SLOTS 8
#define KEYS 4
#define RANGES 9
#define CHUNK 2580

static uint32_t slot_addresses[SLOTS];
static uint32_t slot_tags[SLOTS];
static uint32_t plan[3 * HAWKMORTAR_MAX_REMOVE_WRITES];
static uint32_t mend[3 * HAWKMORTAR_MAX_REMOVE_WRITES];
static uint32_t starts[RANGES];
static uint32_t range_hops[HAWKMORTAR_MAX_RANGES];
static uint32_t main_words[HAWKMORTAR_MAIN_WORDS];
static uint32_t range_words[HAWKMORTAR_MAX_RANGE_WORDS];

static const uint32_t lengths[ENTRIES] = {8, 16, 24, 32, 0};
static const uint32_t hops[ENTRIES] = {1, 2, 3, 2, 7};

static const uint8_t bytes[12] = {0x01, 0x08, 0x0a, 0x01, 0x01, 0x10, 0x94, 0x14, 0x02, 0x00, 0x08, 0x0a};

static uint32_t ip(uint32_t a, uint32_t b, uint32_t c, uint32_t d)
{
    return a << 24 | b << 16 | c << 8 | d;
}

static void show(struct hawkmortar_outcome outcome)
{
    printf("%" PRIu64 " %" PRIu64 "\n", outcome.refusal, outcome.value);
}

static void show_prefixes(const uint32_t *addresses, const uint32_t *keys)
{
    struct hawkmortar_prefix list[ENTRIES];
    for (size_t i = 0; i < ENTRIES; i++)
        list[i] = (struct hawkmortar_prefix){.address = addresses[i], .length = lengths[i], .hop = hops[i]};
    show(hawkmortar_prefixes_check(list, ENTRIES));
    for (size_t i = 0; i < KEYS; i++)
        show(hawkmortar_prefixes_lookup(list, ENTRIES, keys[i]));
    show(hawkmortar_prefixes_lookup(list, ENTRIES - 1, ip(11, 0, 0, 0)));

    list[3] = list[1];
    show(hawkmortar_prefixes_check(list, ENTRIES));
    list[2].length = 33;
    show(hawkmortar_prefixes_lookup(list, ENTRIES, keys[0]));
    list[0].hop = 0;
    show(hawkmortar_prefixes_check(list, ENTRIES));
    show(hawkmortar_prefixes_check(list, 0));
}

static void show_image(void)
{
    show(hawkmortar_slot_check(slot_addresses, SLOTS, slot_tags, SLOTS));
    for (size_t slot = 0; slot < SLOTS; slot++)
        printf("%zu %08" PRIx32 " %08" PRIx32 "\n", slot, slot_addresses[slot], slot_tags[slot]);
}

static void show_mend(void)
{
    show(hawkmortar_plan_mend(slot_addresses, SLOTS, slot_tags, SLOTS, mend, 0));
    struct hawkmortar_outcome planned =
        hawkmortar_plan_mend(slot_addresses, SLOTS, slot_tags, SLOTS, mend, sizeof mend / sizeof mend[0]);
    show(planned);
    if (planned.refusal != 0)
        return;
    for (const uint32_t *write = mend; write < mend + 3 * planned.value; write += 3)
        printf("%" PRIu32 " %08" PRIx32 " %08" PRIx32 "\n", write[0], write[1], write[2]);
}

static void show_entry(struct hawkmortar_outcome given, const uint32_t *entry)
{
    show(given);
    printf("%08" PRIx32 " %" PRIu32 " %08" PRIx32 "\n", entry[0], entry[1], entry[2]);
}

static int show_download(void)
{
    uint32_t entry[3] = {0, 0, 0};
    struct hawkmortar_outcome given =
        hawkmortar_download_first(slot_addresses, SLOTS, slot_tags, SLOTS, entry);
    while (given.refusal == 0 && given.value == 1) {
        show_entry(given, entry);
        given = hawkmortar_download_next(slot_addresses, SLOTS, slot_tags, SLOTS, entry[0], entry[1], entry);
    }
    show_entry(given, entry);
    if (given.refusal != 0)
        return 1;
    show_entry(hawkmortar_download_next(slot_addresses, SLOTS, slot_tags, SLOTS, 1, 8, entry), entry);
    return 0;
}

static struct hawkmortar_outcome build(const uint32_t *addresses, size_t room)
{
    return hawkmortar_ranges_build(addresses, ENTRIES, lengths, ENTRIES, hops, ENTRIES, starts, room, range_hops,
                                   HAWKMORTAR_MAX_RANGES);
}

static int show_ranges(const uint32_t *addresses, const uint32_t *keys)
{
    show(build(addresses, RANGES - 1));
    struct hawkmortar_outcome built = build(addresses, RANGES);
    show(built);
    if (built.refusal != 0)
        return 1;
    size_t ranges = (size_t)built.value;
    for (size_t i = 0; i < ranges; i++)
        printf("%08" PRIx32 " %" PRIu32 "\n", starts[i], range_hops[i]);
    for (size_t i = 0; i < KEYS; i++)
        show(hawkmortar_range_lookup(starts, ranges, range_hops, ranges, keys[i]));
    return 0;
}

static int show_dxr(const uint32_t *addresses, const uint32_t *ns, const uint32_t *hs, size_t entries,
                    const uint32_t *keys)
{
    struct hawkmortar_outcome built =
        hawkmortar_dxr_build(addresses, entries, ns, entries, hs, entries, main_words, HAWKMORTAR_MAIN_WORDS,
                             range_words, HAWKMORTAR_MAX_RANGE_WORDS);
    show(built);
    if (built.refusal != 0)
        return 1;
    size_t words = (size_t)built.value;
    printf("%" PRIu32 "\n", main_words[CHUNK]);
    for (size_t i = 0; i < words; i++)
        printf("%" PRIu32 "\n", range_words[i]);
    for (size_t i = 0; i < KEYS; i++)
        show(hawkmortar_dxr_lookup(main_words, HAWKMORTAR_MAIN_WORDS, range_words, words, keys[i]));
    return 0;
}

static struct hawkmortar_outcome show_record(size_t bytes_len, size_t at, uint32_t *record)
{
    struct hawkmortar_outcome read = hawkmortar_record_at(bytes, bytes_len, at, record);
    show(read);
    printf("%" PRIu32 " %" PRIu32 " %08" PRIx32 " %" PRIu32 "\n", record[0], record[1], record[2], record[3]);
    return read;
}

static int show_records(void)
{
    uint32_t record[4] = {0, 0, 0, 0};
    size_t at = 0, before;
    do {
        struct hawkmortar_outcome read = show_record(sizeof bytes, at, record);
        if (read.refusal != 0)
            return 1;
        before = at;
        at = (size_t)read.value;
    } while (at != before);
    show_record(sizeof bytes, sizeof bytes + 1, record);
    show_record(sizeof bytes - 4, 4, record);
    return 0;
}

int main(void)
{
    const uint32_t addresses[ENTRIES] = {ip(10, 0, 0, 0), ip(10, 20, 0, 0), ip(10, 20, 4, 0), ip(10, 20, 4, 9), 0};
    const uint32_t keys[KEYS] = {ip(10, 20, 4, 9), ip(10, 20, 4, 10), ip(10, 20, 5, 0), ip(255, 255, 255, 255)};
    const uint32_t twice[2] = {0, 0};

    for (size_t i = 0; i < KEYS; i++) {
        show(hawkmortar_list_lookup(addresses, ENTRIES, lengths, ENTRIES, hops, ENTRIES, keys[i]));
    }
    show(hawkmortar_list_check(twice, 2, twice, 2, hops, 2));
    show_prefixes(addresses, keys);

    for (size_t i = 0; i < ENTRIES; i++) {
        struct hawkmortar_outcome planned = hawkmortar_plan_set(
            slot_addresses, SLOTS, slot_tags, SLOTS, addresses[i], lengths[i], hops[i], plan, sizeof plan / sizeof plan[0]);
        show(planned);
        if (planned.refusal != 0)
            return 1;
        size_t writes = (size_t)planned.value;
        hawkmortar_apply(slot_addresses, SLOTS, slot_tags, SLOTS, plan, 3 * writes, writes);
    }
    show_image();

    struct hawkmortar_outcome planned = hawkmortar_plan_remove(
        slot_addresses, SLOTS, slot_tags, SLOTS, addresses[2], lengths[2], plan, sizeof plan / sizeof plan[0]);
    show(planned);
    if (planned.refusal != 0)
        return 1;
    size_t writes = (size_t)planned.value;
    for (size_t k = 0; k <= writes; k++) {
        hawkmortar_apply(slot_addresses, SLOTS, slot_tags, SLOTS, plan, 3 * writes, k);
        show(hawkmortar_slot_lookup(slot_addresses, SLOTS, slot_tags, SLOTS, ip(10, 20, 4, 10)));
        show_mend();
    }
    show_image();
    if (show_download() != 0)
        return 1;
    if (show_ranges(addresses, keys) != 0)
        return 1;

    const uint32_t others[3][ENTRIES - 1] = {
        {addresses[0], addresses[1], addresses[2], addresses[4]},
        {lengths[0], lengths[1], lengths[2], lengths[4]},
        {hops[0], hops[1], hops[2], hops[4]},
    };
    if (show_dxr(addresses, lengths, hops, ENTRIES, keys) != 0)
        return 1;
    if (show_dxr(others[0], others[1], others[2], ENTRIES - 1, keys) != 0)
        return 1;
    return show_records();
}
