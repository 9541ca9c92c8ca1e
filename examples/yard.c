/* Transit yards: a chain that runs through two of them, a search whose last layer is a yard, a yard that is a shorter way, and what two depots with yards
 * between them sum up to; first as calls, then as lines of a stream. It prints what it does, and its exit status is 1 if anything differs from what is
 * expected.
 *
 * In the repository's root:
 *
 *   tools/archive
 *   cc -std=c11 -Wall -Wextra -Iinclude examples/yard.c target/staticlib/libzorpedi.a -o target/yard && target/yard
 */
#include <stdio.h>
#include <string.h>

#include "zorpedi.h"

static zorpedi_stream stream;

static int differences = 0;

static void expect(const char *what, unsigned got, unsigned expected)
{
    printf("%s: %u\n", what, got);
    if (got != expected) {
        printf("  expected %u\n", expected);
        differences++;
    }
}

int main(void)
{
    static const char lines[] = "010000\n04010100\n04020101\n01030102\n0404020003\n04040100\n020104\n";
    static const char expected[] = "1 K 1 0 0 1\n2 K 2 0 0 1\n3 K 3 0 0 1\n4 G 4 3 1 1\n5 S 5 2 1 5\n6 R5 5 2 1 0\n7 K 5 2 1 2\n";
    const uint8_t zero[] = {0}, one[] = {1}, two[] = {2}, ends[] = {0, 3};
    uint8_t out[1024];
    uint16_t eccentricity = 0, depth = 0, counts[ZORPEDI_CODES_SIZE];
    uint64_t sum = 0, pairs = 0, quotient = 0, remainder = 0;
    size_t used, written;
    zorpedi_map *map = &stream.map;

    /* A depot, and two yards behind it: nobody is there to deliver to, however far the yards are. */
    zorpedi_map_empty(map);
    zorpedi_map_opened(map, 0, NULL, 0);
    expect("yard 1 beside 0", zorpedi_map_opened_yard(map, 1, zero, 1).answer, ZORPEDI_KEPT);
    expect("yard 2 beside 1", zorpedi_map_opened_yard(map, 2, one, 1).answer, ZORPEDI_KEPT);
    expect("depots open, yards with them", (unsigned)map->record[ZORPEDI_NUMBER], 3);
    expect("longest chain", (unsigned)map->record[ZORPEDI_CHAIN], 0);
    expect("search refused", zorpedi_map_search(map, 0, &eccentricity, &depth), ZORPEDI_DONE);
    expect("eccentricity of 0", eccentricity, 0);
    expect("depth of its last layer", depth, 2);
    expect("yard 2 is in it", (unsigned)zorpedi_row_has(zorpedi_map_last_layer(map, depth), 2), 1);

    /* A depot behind them: the chain runs through both yards. */
    expect("depot 3 beside 2", zorpedi_map_opened(map, 3, two, 1).answer, ZORPEDI_GREW);
    expect("longest chain", (unsigned)map->record[ZORPEDI_CHAIN], 3);
    expect("(0,3) is a farthest pair", (unsigned)zorpedi_map_is_farthest(map, 0, 3), 1);

    /* A yard beside both depots is a shorter way. It is searched first, and its own distances make no chain. */
    zorpedi_opened opened = zorpedi_map_opened_yard(map, 4, ends, 2);
    expect("yard 4 beside 0 and 3", opened.answer, ZORPEDI_SHRANK);
    expect("searches", opened.searches, 5);
    expect("longest chain", (unsigned)map->record[ZORPEDI_CHAIN], 2);
    expect("farthest pairs", (unsigned)map->record[ZORPEDI_PAIR_COUNT], 1);
    expect("4 is a yard", (unsigned)zorpedi_map_is_yard(map, 4), 1);
    expect("3 delivers", (unsigned)zorpedi_map_delivers(map, 3), 1);

    /* Two depots deliver: one pair, two handovers apart. The yards are not counted. */
    expect("summary refused", zorpedi_map_summary(map, counts, &sum, &pairs, &quotient, &remainder), ZORPEDI_DONE);
    expect("pairs", (unsigned)pairs, 1);
    expect("sum of distances", (unsigned)sum, 2);
    expect("depots of eccentricity 2", counts[2], 2);

    /* The same as lines: a yard's has kind 04. A code is taken whatever opened it, and yards are linked as depots are. */
    zorpedi_stream_begin(&stream);
    zorpedi_stream_feed(&stream, (const uint8_t *)lines, sizeof lines - 1, out, sizeof out, &used, &written);
    fwrite(out, 1, written, stdout);
    if (written != sizeof expected - 1 || memcmp(out, expected, written) != 0) {
        printf("  expected\n%s", expected);
        differences++;
    }
    return differences == 0 ? 0 : 1;
}
