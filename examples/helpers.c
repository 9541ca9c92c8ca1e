/* The helpers of zorpedi.h that give more than a call's arguments, each held to what the header says of it. It prints what differs, and its exit
 * status is 1 if anything does. It is C11 and C++17.
 *
 * In the repository's root:
 *
 *   tools/archive
 *   cc -std=c11 -Wall -Wextra -Iinclude examples/helpers.c target/staticlib/libzorpedi.a -o target/helpers && target/helpers
 */
#include <stdio.h>
#include <string.h>

#include "zorpedi.h"

#if ZORPEDI_VERSION != ZORPEDI_VERSION_MAJOR * 1000 + ZORPEDI_VERSION_MINOR
#error "the version's number"
#endif

static zorpedi_map map;

static int differences = 0;

static void expect(const char *what, int is_so)
{
    if (!is_so) {
        printf("not so: %s\n", what);
        differences++;
    }
}

static void try_versions(void)
{
    const uint32_t here = ZORPEDI_VERSION;
    expect("header and archive are of one version", zorpedi_version() == here);
    expect("this archive serves", zorpedi_version_serves(zorpedi_version()));
    expect("an archive with more serves", zorpedi_version_serves(here + 1));
    expect("an archive with less does not", !zorpedi_version_serves(here - 1));
    expect("the next major number does not", !zorpedi_version_serves(here + 1000));
    expect("the major number before does not", !zorpedi_version_serves(here - 1000));
}

static void try_words(void)
{
    static const char *const words[] = {"", "short", "spoilt", "apart", "absent", "taken", "lonely", "unsorted", "unknown", "garbled",
                                        "nobody", "overfull", "bare", "itself", "linked", "too few"};
    for (unsigned number = 0; number < 600; number++) {
        const char *expected = number < sizeof words / sizeof words[0] ? words[number] : "";
        expect("each refusal has its word, other numbers none", strcmp(zorpedi_refusal_word(number), expected) == 0);
    }
}

/* An accepted and a refused opening, and all 256 depots linked with each other. */
static void try_openings(void)
{
    uint8_t before[256];
    zorpedi_map_empty(&map);
    for (unsigned code = 0; code < 256; code++) {
        zorpedi_opened opened = zorpedi_map_opened(&map, (uint8_t)code, before, code);
        expect("the second depot makes the chain grow", opened.answer == (code == 1 ? ZORPEDI_GREW : ZORPEDI_KEPT));
        expect("one search", opened.searches == 1);
        opened = zorpedi_map_opened(&map, (uint8_t)code, NULL, 0);
        expect("the code is taken", opened.answer == ZORPEDI_TAKEN);
        expect("no search", opened.searches == 0);
        before[code] = (uint8_t)code;
    }
}

/* The path of seven: what is near depot 3, and an empty list, whose pointer may be null. */
static void try_near(void)
{
    uint8_t codes[ZORPEDI_CODES_SIZE], found = 77;
    const uint8_t listed[] = {9, 5, 1, 0, 5};
    uint16_t count = 0, distance = 77;
    zorpedi_map_empty(&map);
    for (uint8_t code = 0, before = 0; code < 7; before = code++) {
        zorpedi_map_opened(&map, code, &before, code == 0 ? 0 : 1);
    }
    memset(codes, 99, sizeof codes);
    expect("depots within 2", zorpedi_map_within(&map, codes, &count, 3, 2) == ZORPEDI_DONE);
    expect("1 to 5, and no place behind", count == 5 && codes[0] == 1 && codes[4] == 5 && codes[5] == 99);
    expect("hops are those of a search", map.hops[0] == 3 && map.hops[6] == 3 && map.hops[7] == ZORPEDI_FAR);
    expect("depots within 0", zorpedi_map_within(&map, codes, &count, 3, 0) == ZORPEDI_DONE && count == 1 && codes[0] == 3);
    expect("all of them", zorpedi_map_within(&map, codes, &count, 3, UINT32_MAX) == ZORPEDI_DONE && count == 7);
    expect("nobody in an empty list", zorpedi_map_nearest(&map, &found, &distance, 3, NULL, 0) == ZORPEDI_NOBODY);
    expect("a refused call leaves both numbers", found == 77 && distance == 77);
    expect("the nearest", zorpedi_map_nearest(&map, &found, &distance, 3, listed, sizeof listed) == ZORPEDI_DONE);
    expect("the lower of two as near", found == 1 && distance == 2);
}

/* The path of seven once more: 56 over 21 pairs, which is 2 and 14 over. A single depot has no pair. */
static void try_summary(void)
{
    uint16_t counts[ZORPEDI_CODES_SIZE];
    uint64_t sum = 77, pairs = 77, quotient = 77, remainder = 77;
    memset(counts, 99, sizeof counts);
    zorpedi_map_empty(&map);
    zorpedi_map_opened(&map, 0, NULL, 0);
    expect("too few", zorpedi_map_summary(&map, counts, &sum, &pairs, &quotient, &remainder) == ZORPEDI_TOO_FEW);
    expect("a refused call leaves the four numbers", sum == 77 && pairs == 77 && quotient == 77 && remainder == 77);
    expect("and the counts", counts[0] == 99 * 257 && counts[255] == 99 * 257);
    for (uint8_t code = 1; code < 7; code++) {
        uint8_t before = (uint8_t)(code - 1);
        zorpedi_map_opened(&map, code, &before, 1);
    }
    expect("a summary", zorpedi_map_summary(&map, counts, &sum, &pairs, &quotient, &remainder) == ZORPEDI_DONE);
    expect("sum and pairs", sum == 56 && pairs == 21);
    expect("the mean", quotient == 2 && remainder == 14);
    expect("eccentricities", counts[3] == 1 && counts[4] == 2 && counts[5] == 2 && counts[6] == 2);
    expect("no others", counts[0] == 0 && counts[2] == 0 && counts[7] == 0 && counts[255] == 0);
    expect("hops are those from the highest code", map.hops[6] == 0 && map.hops[0] == 6 && map.hops[7] == ZORPEDI_FAR);
}

/* Batches of two lines, of none, whose pointer may be null, and on a map without a depot. */
static void try_batches(void)
{
    static const char lines[] = "01020101\n01010100\n";
    uint8_t left[ZORPEDI_BATCH_SIZE], count = 77;
    zorpedi_map_empty(&map);
    memset(left, 99, sizeof left);
    expect("no depot is open", zorpedi_map_open_batch(&map, left, &count, NULL, 0) == ZORPEDI_BARE);
    expect("a refused batch leaves the count", count == 77 && left[0] == 99);
    zorpedi_map_opened(&map, 0, NULL, 0);
    expect("a batch", zorpedi_map_open_batch(&map, left, &count, (const uint8_t *)lines, sizeof lines - 1) == ZORPEDI_DONE);
    expect("both are opened", count == 0 && map.record[ZORPEDI_CHAIN] == 2 && map.skips[2] == ZORPEDI_SEARCHED);
    expect("again", zorpedi_map_open_batch(&map, left, &count, (const uint8_t *)lines, sizeof lines - 1) == ZORPEDI_DONE);
    expect("both are left over, and no place behind", count == 2 && left[0] == 0 && left[1] == 1 && left[2] == 99);
    expect("no lines", zorpedi_map_open_batch(&map, left, &count, NULL, 0) == ZORPEDI_DONE && count == 0);
}

/* The path of five, whose ends are linked: the chain shrinks; a further link keeps it; and each refusal leaves the number of searches. */
static void try_links(void)
{
    static const uint8_t line[] = "020105\n";
    uint8_t frame[ZORPEDI_FRAME_SIZE], left[ZORPEDI_BATCH_SIZE], count = 77;
    uint16_t searches = 77;
    size_t length = 0, used = 0;
    zorpedi_map_empty(&map);
    expect("no depot is open", zorpedi_map_link(&map, 0, 0, &searches) == ZORPEDI_ABSENT && searches == 77);
    for (uint8_t code = 0, before = 0; code < 5; before = code++) {
        zorpedi_map_opened(&map, code, &before, code == 0 ? 0 : 1);
    }
    expect("a closed code", zorpedi_map_link(&map, 9, 0, &searches) == ZORPEDI_ABSENT);
    expect("a closed code with itself", zorpedi_map_link(&map, 9, 9, &searches) == ZORPEDI_ABSENT);
    expect("itself", zorpedi_map_link(&map, 2, 2, &searches) == ZORPEDI_ITSELF);
    expect("linked", zorpedi_map_link(&map, 2, 1, &searches) == ZORPEDI_LINKED);
    expect("a refused link leaves the number", searches == 77 && map.record[ZORPEDI_CHAIN] == 4);
    expect("the ends", zorpedi_map_link(&map, 4, 0, &searches) == ZORPEDI_SHRANK && searches == 5);
    expect("a ring of five", map.record[ZORPEDI_CHAIN] == 2 && map.record[ZORPEDI_PAIR_COUNT] == 5 && map.record[ZORPEDI_NUMBER] == 5);
    expect("both ways round", zorpedi_map_are_linked(&map, 0, 4) && zorpedi_map_are_linked(&map, 4, 0));
    expect("a link across", zorpedi_map_link(&map, 1, 3, &searches) == ZORPEDI_KEPT && searches == 2);
    expect("its pair goes", map.record[ZORPEDI_PAIR_COUNT] == 4 && !zorpedi_map_is_farthest(&map, 1, 3));
    expect("both ends are searched", map.skips[1] == ZORPEDI_SEARCHED && map.skips[3] == ZORPEDI_SEARCHED && map.skips[2] == ZORPEDI_UNMARKED);
    expect("hops are those from the higher code", map.hops[3] == 0 && map.hops[1] == 1 && map.hops[0] == 2);
    expect("its line", zorpedi_read_notice(frame, sizeof frame, &length, &used, line, sizeof line - 1) == ZORPEDI_DONE);
    expect("a frame of three bytes", length == 3 && used == 7 && frame[0] == 2 && frame[1] == 1 && frame[2] == 5);
    expect("no line of a batch", zorpedi_map_open_batch(&map, left, &count, line, sizeof line - 1) == ZORPEDI_GARBLED && count == 77);
}

/* A yard opens first; a depot, a yard and a depot behind it; a yard that is a shorter way. Each refusal leaves the number of searches. */
static void try_yards(void)
{
    static const uint8_t line[] = "04070105\n";
    const uint8_t one[] = {1}, two[] = {2}, three[] = {3}, both[] = {1, 4};
    uint8_t frame[ZORPEDI_FRAME_SIZE], left[ZORPEDI_BATCH_SIZE], count = 77;
    uint16_t searches = 77, eccentricity = 77, depth = 77, counts[ZORPEDI_CODES_SIZE];
    uint64_t sum = 77, pairs = 77, quotient = 77, remainder = 77;
    size_t length = 0, used = 0;
    zorpedi_map_empty(&map);
    zorpedi_opened opened = zorpedi_map_opened_yard(&map, 200, NULL, 0);
    expect("a yard opens first", opened.answer == ZORPEDI_KEPT && opened.searches == 1);
    expect("it is a yard", zorpedi_map_is_open(&map, 200) && zorpedi_map_is_yard(&map, 200) && !zorpedi_map_delivers(&map, 200));
    expect("its place", map.record[ZORPEDI_YARDS + 3] == (uint64_t)1 << 8 && map.record[ZORPEDI_NUMBER] == 1);
    zorpedi_map_empty(&map);
    expect("no yard is left", map.record[ZORPEDI_YARDS + 3] == 0 && !zorpedi_map_is_yard(&map, 200));
    zorpedi_map_opened(&map, 1, NULL, 0);
    expect("taken", zorpedi_map_open_yard(&map, 1, NULL, 0, &searches) == ZORPEDI_TAKEN && searches == 77);
    expect("lonely", zorpedi_map_open_yard(&map, 2, NULL, 0, &searches) == ZORPEDI_LONELY && searches == 77);
    expect("unknown", zorpedi_map_open_yard(&map, 2, three, 1, &searches) == ZORPEDI_UNKNOWN && searches == 77);
    expect("a refused yard by value", zorpedi_map_opened_yard(&map, 2, two, 1).searches == 0);
    expect("a yard", zorpedi_map_open_yard(&map, 2, one, 1, &searches) == ZORPEDI_KEPT && searches == 1);
    expect("and another", zorpedi_map_open_yard(&map, 3, two, 1, &searches) == ZORPEDI_KEPT);
    expect("nobody to deliver to", map.record[ZORPEDI_CHAIN] == 0 && map.record[ZORPEDI_NUMBER] == 3);
    expect("too few", zorpedi_map_summary(&map, counts, &sum, &pairs, &quotient, &remainder) == ZORPEDI_TOO_FEW && sum == 77);
    expect("a search", zorpedi_map_search(&map, 1, &eccentricity, &depth) == ZORPEDI_DONE);
    expect("its last layer is a yard", eccentricity == 0 && depth == 2 && zorpedi_row_has(zorpedi_map_last_layer(&map, depth), 3));
    expect("a depot behind the yards", zorpedi_map_open(&map, 4, three, 1, &searches) == ZORPEDI_GREW);
    expect("through them", map.record[ZORPEDI_CHAIN] == 3 && zorpedi_map_is_farthest(&map, 4, 1) && zorpedi_map_delivers(&map, 4));
    expect("a shorter way", zorpedi_map_open_yard(&map, 5, both, 2, &searches) == ZORPEDI_SHRANK && searches == 5);
    expect("by a yard", map.record[ZORPEDI_CHAIN] == 2 && map.record[ZORPEDI_PAIR_COUNT] == 1 && map.skips[5] == ZORPEDI_SEARCHED);
    expect("a summary", zorpedi_map_summary(&map, counts, &sum, &pairs, &quotient, &remainder) == ZORPEDI_DONE);
    expect("of two depots", sum == 2 && pairs == 1 && quotient == 2 && remainder == 0 && counts[2] == 2 && counts[1] == 0);
    expect("its line", zorpedi_read_notice(frame, sizeof frame, &length, &used, line, sizeof line - 1) == ZORPEDI_DONE);
    expect("a frame of four bytes", length == 4 && used == 9 && frame[0] == 4 && frame[1] == 7 && frame[2] == 1 && frame[3] == 5);
    expect("a line of a batch", zorpedi_map_open_batch(&map, left, &count, line, sizeof line - 1) == ZORPEDI_DONE && count == 0);
    expect("which opens a yard", zorpedi_map_is_yard(&map, 7) && map.record[ZORPEDI_NUMBER] == 6);
}

/* Whether the walk has each bit of the pair table once, in rising order, and then none. */
static int walks_all(void)
{
    zorpedi_pairs pairs = zorpedi_map_pairs(&map);
    for (unsigned place = 0; place < 65536; place++) {
        uint8_t u = (uint8_t)(place / 256), v = (uint8_t)(place % 256);
        if (zorpedi_row_has(map.pairs + 4 * u, v) && !(zorpedi_pairs_next(&pairs) && pairs.u == u && pairs.v == v)) {
            return 0;
        }
    }
    uint8_t u = pairs.u, v = pairs.v;
    return !zorpedi_pairs_next(&pairs) && !zorpedi_pairs_next(&pairs) && pairs.u == u && pairs.v == v;
}

static void try_pairs(void)
{
    unsigned number = 0;
    zorpedi_pairs pairs = zorpedi_map_pairs(&map);
    while (zorpedi_pairs_next(&pairs)) {
        number += zorpedi_map_is_farthest(&map, pairs.u, pairs.v) && pairs.u < pairs.v;
    }
    expect("every two of 256 depots are a pair", number == 32640 && map.record[ZORPEDI_PAIR_COUNT] == 32640);
    expect("the pairs of 256 depots", walks_all());
    memset(map.pairs, 255, sizeof map.pairs);
    expect("all bits", walks_all());
    zorpedi_map_empty(&map);
    expect("no bit", walks_all());
    for (unsigned place = 0; place < 65536; place += 255) {
        map.pairs[place / 64] = (uint64_t)1 << (place % 64);
        expect("a bit alone, and with others", walks_all());
        map.pairs[place / 64] = place % 2 == 0 ? 0 : map.pairs[place / 64];
    }
}

int main(void)
{
    try_versions();
    try_words();
    try_near();
    try_summary();
    try_batches();
    try_links();
    try_yards();
    try_openings();
    try_pairs();
    puts(differences == 0 ? "the helpers are as the header says" : "the helpers DIFFER from the header");
    return differences == 0 ? 0 : 1;
}
