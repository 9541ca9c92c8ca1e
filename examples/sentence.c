/* Outcomes as sentences, for screens in the hall: what some calls on a map came to, some outcomes that no call of this version has, and each of them read
 * back from its sentence alone. It prints the sentences, and its exit status is 1 if anything differs from what is expected.
 *
 * In the repository's root:
 *
 *   tools/archive
 *   cc -std=c11 -Wall -Wextra -Iinclude examples/sentence.c target/staticlib/libzorpedi.a -o target/sentence && target/sentence
 */
#include <stdio.h>
#include <string.h>

#include "zorpedi.h"

enum kind { DEPOT = 1, LINK = 2, CLOSING = 3, YARD = 4 };

/* What zorpedi_sentence takes and zorpedi_read_sentence lends, in their order. */
typedef struct outcome {
    uint8_t kind;
    uint16_t code, other;
    uint8_t letter, refusal;
    uint16_t depots, chain;
    uint32_t pairs;
    uint16_t searches;
} outcome;

static zorpedi_map map;

static int differences = 0;

static void expect(const char *what, int is_so)
{
    if (!is_so) {
        printf("  not so: %s\n", what);
        differences++;
    }
}

static uint8_t write_outcome(uint8_t *line, size_t size, size_t *length, const outcome *o)
{
    return zorpedi_sentence(line, size, length, o->kind, o->code, o->other, o->letter, o->refusal, o->depots, o->chain, o->pairs,
                            o->searches);
}

static uint8_t read_outcome(outcome *o, const uint8_t *text, size_t size)
{
    return zorpedi_read_sentence(&o->kind, &o->code, &o->other, &o->letter, &o->refusal, &o->depots, &o->chain, &o->pairs, &o->searches,
                                 text, size);
}

static int is_same(const outcome *a, const outcome *b)
{
    return a->kind == b->kind && a->code == b->code && a->other == b->other && a->letter == b->letter && a->refusal == b->refusal
           && a->depots == b->depots && a->chain == b->chain && a->pairs == b->pairs && a->searches == b->searches;
}

/* Prints the sentence of an outcome, and reads it back. */
static void tell(outcome said, const char *expected)
{
    uint8_t line[ZORPEDI_SENTENCE_SIZE];
    size_t length = 0;
    outcome back = {0, 0, 0, 0, 0, 0, 0, 0, 0};
    expect("it is written", write_outcome(line, sizeof line, &length, &said) == ZORPEDI_DONE);
    printf("%.*s\n", (int)length, (const char *)line);
    expect(expected, length == strlen(expected) && memcmp(line, expected, length) == 0);
    expect("it is read", read_outcome(&back, line, length) == ZORPEDI_DONE);
    expect("the outcome is the one written", is_same(&back, &said));
    expect("without its full stop it is garbled", read_outcome(&back, line, length - 1) == ZORPEDI_GARBLED);
    expect("a refused call leaves the numbers", is_same(&back, &said));
}

/* Tells what a call on the map answered, with the map's figures. */
static void tell_call(uint8_t kind, uint8_t code, uint8_t other, uint8_t answer, uint16_t searches, const char *expected)
{
    const int is_letter = answer == ZORPEDI_GREW || answer == ZORPEDI_KEPT || answer == ZORPEDI_SHRANK;
    outcome said;
    said.kind = kind;
    said.code = code;
    said.other = other;
    said.letter = is_letter ? answer : 0;
    said.refusal = is_letter ? 0 : answer;
    said.depots = (uint16_t)map.record[ZORPEDI_NUMBER];
    said.chain = (uint16_t)map.record[ZORPEDI_CHAIN];
    said.pairs = (uint32_t)map.record[ZORPEDI_PAIR_COUNT];
    said.searches = searches;
    tell(said, expected);
}

static void open_depot(uint8_t code, const uint8_t *neighbours, size_t count, const char *expected)
{
    zorpedi_opened opened = zorpedi_map_opened(&map, code, neighbours, count);
    tell_call(DEPOT, code, 0, opened.answer, opened.searches, expected);
}

static void link_depots(uint8_t first, uint8_t second, const char *expected)
{
    uint16_t searches = 0; /* a refused call leaves it */
    uint8_t answer = zorpedi_map_link(&map, first, second, &searches);
    tell_call(LINK, first, second, answer, searches, expected);
}

int main(void)
{
    const uint8_t path[] = {0, 1, 2, 3}, beside[] = {0, 2, 4};
    zorpedi_opened yard;
    uint8_t line[ZORPEDI_SENTENCE_SIZE];
    size_t length = 0;
    outcome wrong = {DEPOT, 5, 0, 'S', 0, 6, 3, 2, 6};

    zorpedi_map_empty(&map);
    open_depot(0, NULL, 0, "Opening depot 0 kept the chain: 1 open, chain 0, pairs 0, searches 1.");
    open_depot(1, path, 1, "Opening depot 1 grew the chain: 2 open, chain 1, pairs 1, searches 1.");
    open_depot(2, path + 1, 1, "Opening depot 2 grew the chain: 3 open, chain 2, pairs 1, searches 1.");
    open_depot(3, path + 2, 1, "Opening depot 3 grew the chain: 4 open, chain 3, pairs 1, searches 1.");
    open_depot(4, path + 3, 1, "Opening depot 4 grew the chain: 5 open, chain 4, pairs 1, searches 1.");
    open_depot(5, beside, 3, "Opening depot 5 shrank the chain: 6 open, chain 3, pairs 2, searches 6.");
    open_depot(5, beside, 3, "Opening depot 5 was refused with 5: 6 open, chain 3, pairs 2, searches 0.");
    yard = zorpedi_map_opened_yard(&map, 6, path + 3, 1);
    tell_call(YARD, 6, 0, yard.answer, yard.searches, "Opening yard 6 kept the chain: 7 open, chain 3, pairs 2, searches 1.");
    link_depots(4, 1, "Linking 4 and 1 kept the chain: 7 open, chain 3, pairs 1, searches 2.");
    link_depots(1, 4, "Linking 1 and 4 was refused with 14: 7 open, chain 3, pairs 1, searches 0.");

    /* Numbers are free within their widths. A refusal may have a letter's number: 71 is G. */
    tell((outcome){CLOSING, 5, 0, 'G', 0, 6, 3, 2, 6}, "Closing 5 grew the chain: 6 open, chain 3, pairs 2, searches 6.");
    tell((outcome){DEPOT, 300, 0, 0, 71, 0, 9, 0, 1}, "Opening depot 300 was refused with 71: 0 open, chain 9, pairs 0, searches 1.");
    tell((outcome){LINK, 65535, 65535, 0, 255, 65535, 65535, 4294967295, 65535},
         "Linking 65535 and 65535 was refused with 255: 65535 open, chain 65535, pairs 4294967295, searches 65535.");

    /* Numbers that are no outcome's, and a buffer that is too small. */
    wrong.refusal = 5;
    expect("a letter with a refusal", write_outcome(line, sizeof line, &length, &wrong) == ZORPEDI_GARBLED);
    expect("159 bytes come first", write_outcome(line, ZORPEDI_SENTENCE_SIZE - 1, &length, &wrong) == ZORPEDI_SHORT);
    wrong.refusal = 0;
    wrong.other = 1;
    expect("a second code of a depot", write_outcome(line, sizeof line, &length, &wrong) == ZORPEDI_GARBLED);
    return differences == 0 ? 0 : 1;
}
