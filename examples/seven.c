/* Seven lines (rule 10.5 of docs/RULES.md), two ways: notice by notice, then as a stream. It prints what it does, and its exit status is 1 if a
 * line differs from the rule's.
 *
 * In the repository's root:
 *
 *   tools/archive
 *   cc -std=c11 -Wall -Wextra -Iinclude examples/seven.c target/staticlib/libzorpedi.a -o target/seven && target/seven
 */
#include <stdio.h>
#include <string.h>

#include "zorpedi.h"

#define LINES 7

static const char *const notices[LINES] = {
    "010000\n", "01010100\n", "01020101\n", "01030102\n", "01040103\n", "010503000204\n", "010503000204\n",
};

static const char *const reports[LINES] = {
    "1 K 1 0 0 1\n", "2 G 2 1 1 1\n", "3 G 3 2 1 1\n", "4 G 4 3 1 1\n", "5 G 5 4 1 1\n", "6 S 6 3 2 6\n", "7 R5 6 3 2 0\n",
};

/* All memory of a map. It is too large for some stacks. */
static zorpedi_map map;
static zorpedi_stream stream;

/* 1 if the bytes are the text, else 0 and a word about it. */
static int is_text(const uint8_t *bytes, size_t length, const char *text)
{
    if (length == strlen(text) && memcmp(bytes, text, length) == 0) {
        return 1;
    }
    printf("expected %s", text);
    return 0;
}

/* Reads a notice line, opens its depot and prints the report. */
static int follow_line(uint32_t number, const char *text, const char *expected)
{
    uint8_t frame[ZORPEDI_FRAME_SIZE], line[ZORPEDI_REPORT_SIZE];
    size_t length = 0, used = 0;
    zorpedi_opened opened = {0, 0};
    opened.answer = zorpedi_read_notice(frame, sizeof frame, &length, &used, (const uint8_t *)text, strlen(text));
    if (opened.answer == ZORPEDI_DONE) {
        opened = zorpedi_map_opened(&map, frame[1], frame + 3, length - 3);
    }
    zorpedi_map_report(&map, line, sizeof line, &length, number, opened.answer, opened.searches);
    printf("%.*s", (int)length, (const char *)line);
    return is_text(line, length, expected);
}

/* Prints the farthest pairs; 1 if they are (0,3) and (1,4), as rule 10.5 has them after line 6. */
static int show_pairs(void)
{
    static const uint8_t expected[2][2] = {{0, 3}, {1, 4}};
    zorpedi_pairs pairs = zorpedi_map_pairs(&map);
    int good = 1, seen = 0;
    while (zorpedi_pairs_next(&pairs)) {
        printf("  farthest pair (%u,%u)\n", pairs.u, pairs.v);
        good = good && seen < 2 && pairs.u == expected[seen][0] && pairs.v == expected[seen][1];
        seen++;
    }
    return good && seen == 2 && map.record[ZORPEDI_PAIR_COUNT] == 2;
}

static int follow_lines(void)
{
    int good = zorpedi_map_empty(&map) == ZORPEDI_DONE;
    for (uint32_t i = 0; i < LINES; i++) {
        good &= follow_line(i + 1, notices[i], reports[i]);
        if (i + 1 == 6) {
            good &= show_pairs();
        }
    }
    return good;
}

/* The same as one stream: the input in pieces of five bytes, all reports in one buffer. */
static int follow_stream(void)
{
    char input[256] = "", expected[512] = "";
    uint8_t out[512];
    for (int i = 0; i < LINES; i++) {
        strcat(input, notices[i]);
        strcat(expected, reports[i]);
    }
    size_t total = strlen(input), at = 0, end = 0, used = 0, written = 0;
    int good = zorpedi_stream_begin(&stream) == ZORPEDI_DONE;
    while (at < total) {
        size_t piece = total - at < 5 ? total - at : 5;
        good &= zorpedi_stream_feed(&stream, (const uint8_t *)input + at, piece, out + end, sizeof out - end, &used, &written) == ZORPEDI_DONE;
        if (!good || used == 0) {
            break;
        }
        at += used;
        end += written;
    }
    good &= zorpedi_stream_finish(&stream, out + end, sizeof out - end, &written) == ZORPEDI_DONE;
    end += good ? written : 0;
    return good && is_text(out, end, expected);
}

int main(void)
{
    int lines = follow_lines();
    int streamed = follow_stream();
    printf("notice by notice: %s; as a stream: %s\n", lines ? "as the rule has it" : "DIFFERS", streamed ? "the same" : "DIFFERS");
    return lines && streamed ? 0 : 1;
}
