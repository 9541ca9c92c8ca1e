/* Links between open depots: a path whose ends start to exchange parcels, a link that keeps the chain, and the links that are refused; first as calls,
 * then as lines of a stream. It prints what it does, and its exit status is 1 if anything differs from what is expected.
 *
 * In the repository's root:
 *
 *   tools/archive
 *   cc -std=c11 -Wall -Wextra -Iinclude examples/link.c target/staticlib/libzorpedi.a -o target/link && target/link
 */
#include <stdio.h>
#include <string.h>

#include "zorpedi.h"

static zorpedi_stream stream;

static int differences = 0;

static void expect(const char *what, unsigned got, unsigned expected)
{
    printf("%s: %u\n", what, got);
    if (got != expected) {
        printf("  expected %u\n", expected);
        differences++;
    }
}

/* Links two depots of the stream's map, and says what came of it. */
static void try_link(uint8_t first, uint8_t second, unsigned expected)
{
    uint16_t searches = 0; /* a refused call leaves it */
    uint8_t answer = zorpedi_map_link(&stream.map, first, second, &searches);
    if (answer == ZORPEDI_KEPT || answer == ZORPEDI_SHRANK) {
        printf("%u and %u: '%c', %u searches\n", first, second, answer, searches);
    } else {
        printf("%u and %u: refused, %s\n", first, second, zorpedi_refusal_word(answer));
    }
    expect("  answer", answer, expected);
}

int main(void)
{
    static const char lines[] = "020400\n020004\n020303\n02000400\n020103\n";
    static const char expected[] = "6 S 5 2 5 5\n7 R14 5 2 5 0\n8 R13 5 2 5 0\n9 R9 5 2 5 0\n10 K 5 2 4 2\n";
    static const char path[] = "010000\n01010100\n01020101\n01030102\n01040103\n";
    uint8_t out[1024];
    size_t used, written;
    const zorpedi_map *map = &stream.map;

    /* The path 0-1-2-3-4: its ends are four handovers apart. */
    zorpedi_stream_begin(&stream);
    zorpedi_stream_feed(&stream, (const uint8_t *)path, sizeof path - 1, out, sizeof out, &used, &written);
    expect("longest chain of the path", (unsigned)map->record[ZORPEDI_CHAIN], 4);

    /* 0 and 4 start to exchange parcels: of a ring of five no two are more than two handovers apart. Which code comes first is no matter. */
    try_link(4, 0, ZORPEDI_SHRANK);
    expect("longest chain of the ring", (unsigned)map->record[ZORPEDI_CHAIN], 2);
    expect("farthest pairs", (unsigned)map->record[ZORPEDI_PAIR_COUNT], 5);

    /* 1 and 3 were a farthest pair; the four others stay. A link that keeps the chain takes two searches, the last from the higher code. */
    try_link(1, 3, ZORPEDI_KEPT);
    expect("farthest pairs", (unsigned)map->record[ZORPEDI_PAIR_COUNT], 4);
    expect("handovers from 3 to 0", map->hops[0], 2);

    try_link(0, 4, ZORPEDI_LINKED);
    try_link(2, 2, ZORPEDI_ITSELF);
    try_link(2, 9, ZORPEDI_ABSENT);
    expect("depots open", (unsigned)map->record[ZORPEDI_NUMBER], 5);

    /* The same as lines: 02 and two codes. A link has no count, so that the fourth is garbled. */
    zorpedi_stream_begin(&stream);
    zorpedi_stream_feed(&stream, (const uint8_t *)path, sizeof path - 1, out, sizeof out, &used, &written);
    zorpedi_stream_feed(&stream, (const uint8_t *)lines, sizeof lines - 1, out, sizeof out, &used, &written);
    fwrite(out, 1, written, stdout);
    if (written != sizeof expected - 1 || memcmp(out, expected, written) != 0) {
        printf("  expected\n%s", expected);
        differences++;
    }
    return differences == 0 ? 0 : 1;
}
