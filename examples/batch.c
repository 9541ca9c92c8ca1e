/* A batch of notice lines that come in the wrong order: most name a depot that a later line opens. One line is left over for good, and one because
 * another opened its code. It prints what it does, and its exit status is 1 if anything differs from what is expected.
 *
 * In the repository's root:
 *
 *   tools/archive
 *   cc -std=c11 -Wall -Wextra -Iinclude examples/batch.c target/staticlib/libzorpedi.a -o target/batch && target/batch
 */
#include <stdio.h>
#include <string.h>

#include "zorpedi.h"

#define LINES 6

static const char *const notices[LINES] = {
    "01040103\n", /* 0: 4 beside 3, which line 1 opens */
    "01030102\n", /* 1: 3 beside 2, which line 3 opens */
    "01090108\n", /* 2: 9 beside 8, which no line opens */
    "01020101\n", /* 3: 2 beside 1, which line 4 opens */
    "01010100\n", /* 4: 1 beside 0 */
    "01040100\n", /* 5: 4 again, beside 0: by the time that it is looked at, line 0 has opened 4 */
};

static zorpedi_map map;

static int differences = 0;

static void expect(const char *what, unsigned got, unsigned expected)
{
    printf("%s: %u\n", what, got);
    if (got != expected) {
        printf("  expected %u\n", expected);
        differences++;
    }
}

static uint8_t open_lines(const char *lines, uint8_t left[ZORPEDI_BATCH_SIZE], uint8_t *count)
{
    return zorpedi_map_open_batch(&map, left, count, (const uint8_t *)lines, strlen(lines));
}

int main(void)
{
    char lines[256] = "";
    uint8_t left[ZORPEDI_BATCH_SIZE], count = 0;
    for (int i = 0; i < LINES; i++) {
        strcat(lines, notices[i]);
    }

    /* The first depot of a map opens by itself. */
    zorpedi_map_empty(&map);
    expect("a batch on the empty map is refused with", open_lines(lines, left, &count), ZORPEDI_BARE);
    zorpedi_map_opened(&map, 0, NULL, 0);

    expect("the batch refused", open_lines(lines, left, &count), ZORPEDI_DONE);
    expect("lines left over", count, 2);
    for (unsigned i = 0; i < count; i++) {
        printf("  line %u: %s", left[i], notices[left[i]]);
    }
    expect("the first of them", left[0], 2);
    expect("the second", left[1], 5);
    expect("depots open", (unsigned)map.record[ZORPEDI_NUMBER], 5);
    expect("4 stands beside 3", (unsigned)zorpedi_map_are_linked(&map, 3, 4), 1);
    expect("4 stands beside 0", (unsigned)zorpedi_map_are_linked(&map, 0, 4), 0);
    expect("longest chain", (unsigned)map.record[ZORPEDI_CHAIN], 4);
    expect("(0,4) is a farthest pair", (unsigned)zorpedi_map_is_farthest(&map, 0, 4), 1);

    /* 8 comes with the next batch, and the line left over is handed in again, before it. One garbled line would refuse both. */
    expect("a batch with a garbled line is refused with", open_lines("01090108\n01080104\n010\n", left, &count), ZORPEDI_GARBLED);
    expect("depots open", (unsigned)map.record[ZORPEDI_NUMBER], 5);
    expect("the next batch refused", open_lines("01090108\n01080104\n", left, &count), ZORPEDI_DONE);
    expect("lines left over", count, 0);
    expect("longest chain", (unsigned)map.record[ZORPEDI_CHAIN], 6);
    return differences == 0 ? 0 : 1;
}
