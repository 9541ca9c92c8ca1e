/* The path of seven (rule 5.6 of docs/RULES.md): openings from code, the whole reckoning, a search, and a notice line written. It prints what it
 * finds, and its exit status is 1 if a figure differs from the rule's.
 *
 * In the repository's root:
 *
 *   tools/archive
 *   cc -std=c11 -Wall -Wextra -Iinclude examples/path.c target/staticlib/libzorpedi.a -o target/path && target/path
 */
#include <stdio.h>
#include <string.h>

#include "zorpedi.h"

static zorpedi_map map;

static int differences = 0;

static void expect(const char *what, unsigned got, unsigned expected)
{
    printf("%s: %u\n", what, got);
    if (got != expected) {
        printf("  expected %u\n", expected);
        differences++;
    }
}

int main(void)
{
    uint16_t searches = 0, eccentricity = 0, depth = 0;

    zorpedi_map_empty(&map);
    zorpedi_map_open(&map, 0, NULL, 0, &searches);
    for (uint8_t code = 1; code < 7; code++) {
        uint8_t neighbour = (uint8_t)(code - 1);
        zorpedi_map_open(&map, code, &neighbour, 1, &searches);
    }
    expect("depots open", (unsigned)map.record[ZORPEDI_NUMBER], 7);
    expect("4 and 5 are linked", (unsigned)zorpedi_map_are_linked(&map, 5, 4), 1);

    /* Every depot but 4 is searched. */
    expect("reckoning refused", zorpedi_map_reckon(&map, &searches), ZORPEDI_DONE);
    expect("depots searched", searches, 6);
    expect("depot 4 is skipped by", map.skips[4], 3);
    expect("at the bound", map.bounds[4], 4);
    expect("depot 3 is marked", map.skips[3], ZORPEDI_SEARCHED);
    expect("longest chain", (unsigned)map.record[ZORPEDI_CHAIN], 6);
    expect("farthest pairs", (unsigned)map.record[ZORPEDI_PAIR_COUNT], 1);
    expect("(0,6) is one", (unsigned)zorpedi_map_is_farthest(&map, 0, 6), 1);

    expect("search refused", zorpedi_map_search(&map, 2, &eccentricity, &depth), ZORPEDI_DONE);
    expect("eccentricity of 2", eccentricity, 4);
    expect("depth of its last layer, there being no yard", depth, 4);
    expect("distance from 2 to 0", map.hops[0], 2);
    expect("6 is in its last layer", (unsigned)zorpedi_row_has(zorpedi_map_last_layer(&map, depth), 6), 1);
    expect("search from a closed code refused", zorpedi_map_search(&map, 7, &eccentricity, &depth), ZORPEDI_ABSENT);
    expect("7 is open", (unsigned)zorpedi_map_is_open(&map, 7), 0);

    const uint8_t frame[] = {1, 5, 3, 0, 2, 4};
    uint8_t line[ZORPEDI_LINE_SIZE];
    size_t length = 0;
    expect("writing refused", zorpedi_write_notice(line, sizeof line, &length, frame, sizeof frame), ZORPEDI_DONE);
    printf("%.*s", (int)length, (const char *)line);
    if (length != 13 || memcmp(line, "010503000204\n", 13) != 0) {
        puts("  expected 010503000204");
        differences++;
    }
    return differences == 0 ? 0 : 1;
}
