/* Zorpedi, the handover map, for C and C++.
 *
 * A map of depots and the links between them. It takes notices one by one, of depots and yards that open and of links between open ones, and keeps
 * the longest chain (the network's diameter) and the set of farthest pairs. Link with target/staticlib/libzorpedi.a (`tools/archive` makes
 * it). examples/seven.c shows its use. Rules cited by number are those of docs/RULES.md.
 *
 * YARDS
 * A transit yard is an open depot that only hands parcels on, none being bound for it; every other open depot delivers. A yard has a code, links
 * and distances as any depot, and chains may run through it, but none begins or ends there: an eccentricity is the greatest distance to a depot that
 * delivers, the longest chain the greatest distance of two depots that deliver, and both depots of a pair deliver. Where a promise below says depot
 * it means yards too, unless it says that the depot delivers. A depot stays what it opened as. Section 17 of the rules has all of it, and
 * examples/yard.c shows its use.
 *
 * WHAT IS PROMISED
 * Each promise below holds for every value of every argument, and is proved. It settles the answer and every element lent: what is not named
 * as written keeps its value. Each function returns, allocates nothing, keeps nothing between calls, and touches no memory but what is lent.
 * What is said here in words is exact in the contracts of crates/c_maps/src, crates/c_updates/src, crates/c_streams/src and crates/c_sentences/src,
 * whose definitions stand in the crates' specs folders.
 *
 * WHAT IS ASSUMED OF THE CALLER
 * - Every pointer is valid for its length, aligned for its type and not null, also where the length is 0.
 * - No memory that a call may write overlaps any other memory lent to that call. `const` memory may overlap other `const` memory.
 * - No other thread uses the lent memory during the call, except to read what is lent as `const`.
 * - The program is a 64-bit one for x86-64.
 *
 * HOW MEMORY IS LENT
 * A buffer is a pointer and its length in elements, in this order. Most buffers have a named size. A longer one is allowed: only its first part
 * is used, and the rest keeps its value. A shorter one is refused with 1, even where the call would not have filled it. `neighbours`, `input`,
 * `piece`, `listed`, `lines`, `text` and the frame that is written as a line have no named size; the `out` of a stream is used as far as it goes.
 * Every function takes what it is lent in one order: record, links, pairs, hops, bounds, skips, even, odd, then other buffers, then single numbers;
 * then what it is asked.
 *
 * REFUSALS
 * A refused call answers a number from 1 to 15: the first of its own that applies, in rising order, but that a batch looks for 11 and 12 before 9. It
 * changes nothing that was lent, scratch memory and single numbers included.
 *
 * VERSIONS
 * ZORPEDI_VERSION is the version of this header, zorpedi_version() that of the archive: a thousand times the major number, and the minor number.
 * - The minor number rises when something is added, and all that was there stays: a function, a helper, a macro, a field of a helper's struct, a
 *   further number that a call can be refused with, though never a call that this header says is done; a further kind of frame, whose lines
 *   were garbled before (since 3.0: up to 2.2 every kind but 01 was promised to be garbled).
 * - The major number rises, and the minor number begins at 0 again, when something that was there changes: the arguments of a function, a size,
 *   what a number or a place of memory means, a promise.
 * - Neither rises for what a program cannot tell: other code behind the same promises, other words for them.
 * So an archive serves a program if its major number is the header's and its minor number not below: zorpedi_version_serves(zorpedi_version()).
 * A program that takes every answer but those named below as a refusal is ready for further ones, and one that looks at the kind of a frame,
 * and leaves those that it does not know, for further kinds.
 */
#ifndef ZORPEDI_H
#define ZORPEDI_H

#include <stddef.h>
#include <stdint.h>

#ifdef __cplusplus
extern "C" {
#endif

/* ---- the version of the interface */

#define ZORPEDI_VERSION_MAJOR 4
#define ZORPEDI_VERSION_MINOR 1
#define ZORPEDI_VERSION (ZORPEDI_VERSION_MAJOR * 1000 + ZORPEDI_VERSION_MINOR)

/* The version of the archive. Where both are of one delivery it is ZORPEDI_VERSION. */
uint32_t zorpedi_version(void);

/* 1 if an archive of this version serves a program that was compiled with this header, else 0. */
static inline int zorpedi_version_serves(uint32_t version)
{
    return version / 1000 == ZORPEDI_VERSION_MAJOR && version >= ZORPEDI_VERSION;
}

/* ---- sizes, in elements */

#define ZORPEDI_RECORD_SIZE 11   /* uint64_t: the record */
#define ZORPEDI_TABLE_SIZE 1024  /* uint64_t: the link table; the pair table */
#define ZORPEDI_CODES_SIZE 256   /* uint16_t: the hop table; the bound table; the skip table; the counts of a summary. uint8_t: the places for
                                    listed codes */
#define ZORPEDI_ROW_SIZE 4       /* uint64_t: a layer row, even or odd */
#define ZORPEDI_FRAME_SIZE 258   /* uint8_t: the frame of a notice */
#define ZORPEDI_LINE_SIZE 517    /* uint8_t: a notice line; the line buffer of a stream */
#define ZORPEDI_REPORT_SIZE 48   /* uint8_t: a report line; the least room for the reports of a stream */
#define ZORPEDI_SENTENCE_SIZE 160 /* uint8_t: a sentence of an outcome */
#define ZORPEDI_BATCH_SIZE 64    /* uint8_t: the places for the lines left over of a batch; the most lines of one */
#define ZORPEDI_LINES_LIMIT 1000000 /* the most lines of one stream */

/* ---- the record: eleven words */

#define ZORPEDI_OPEN_SET 0   /* words 0 to 3: the open set, one row; yards are in it */
#define ZORPEDI_NUMBER 4     /* the number of depots open, yards with them, 0 to 256 */
#define ZORPEDI_CHAIN 5      /* the longest chain, 0 to 255 */
#define ZORPEDI_PAIR_COUNT 6 /* the number of farthest pairs, 0 to 32,640 */
#define ZORPEDI_YARDS 7      /* words 7 to 10: the yard set, one row */

/* ---- marks in the tables */

#define ZORPEDI_FAR 65535     /* hop table: a closed code. Bound table: a code neither searched nor skipped, closed ones included */
#define ZORPEDI_SEARCHED 256  /* skip table: a searched depot; its bound is its eccentricity */
#define ZORPEDI_UNMARKED 257  /* skip table: a code neither searched nor skipped, closed ones included. 0 to 255: skipped, by this reference */

/* ---- the numbers that a call answers */

enum zorpedi_answer {
    ZORPEDI_DONE = 0,     /* done, for every call but zorpedi_open, zorpedi_open_yard and zorpedi_link */
    ZORPEDI_SHORT = 1,    /* short: a lent buffer is shorter than its size */
    ZORPEDI_SPOILT = 2,   /* spoilt: links are not sound; for an opening, a link, a batch and the stream, links or figures */
    ZORPEDI_APART = 3,    /* apart: the links are sound, but no walk leads from the lowest open code to some open depot */
    ZORPEDI_ABSENT = 4,   /* absent: the depot to be searched from, or whose near depots are asked, or one to be linked, is not open */
    ZORPEDI_TAKEN = 5,    /* taken: the depot to be opened is open already */
    ZORPEDI_LONELY = 6,   /* lonely: an opening has no neighbours, and the map has a depot */
    ZORPEDI_UNSORTED = 7, /* unsorted: some neighbour is not above the one before it */
    ZORPEDI_UNKNOWN = 8,  /* unknown: some neighbour is not open; the new depot itself is not */
    ZORPEDI_GARBLED = 9,  /* garbled: a line has no 0A among its first 517 bytes, or what stands before it does not spell a frame of kind 01, 02
                             or 04 in the digits 0-9 and A-F; for the writer, the bytes are no such frame; for a batch, a frame of kind 02 is
                             none either. Of sentences: the text is none, or the numbers are no outcome's */
    ZORPEDI_NOBODY = 10,  /* nobody: no depot of a list is open */
    ZORPEDI_OVERFULL = 11, /* overfull: a batch has more than 64 lines */
    ZORPEDI_BARE = 12,    /* bare: a batch, and no depot is open */
    ZORPEDI_ITSELF = 13,  /* itself: a depot is to be linked with itself */
    ZORPEDI_LINKED = 14,  /* linked: the depots to be linked are linked already */
    ZORPEDI_TOO_FEW = 15, /* too few: a summary, and fewer than two open depots deliver */
    ZORPEDI_GREW = 71,    /* 'G', grew, zorpedi_open only: accepted, and the longest chain is greater than before */
    ZORPEDI_KEPT = 75,    /* 'K', kept, zorpedi_open, zorpedi_open_yard and zorpedi_link only: accepted, and it is the same */
    ZORPEDI_SHRANK = 83   /* 'S', shrank, zorpedi_open, zorpedi_open_yard and zorpedi_link only: accepted, and it is neither; where the figures
                             were true it is smaller */
};

/* The trade's word for a refusal, as above: "short" for 1 to "too few" for 15, and "" for every number that is no refusal of this header. The
 * text stays for as long as the program runs. */
static inline const char *zorpedi_refusal_word(unsigned number)
{
    switch (number) {
    case ZORPEDI_SHORT:
        return "short";
    case ZORPEDI_SPOILT:
        return "spoilt";
    case ZORPEDI_APART:
        return "apart";
    case ZORPEDI_ABSENT:
        return "absent";
    case ZORPEDI_TAKEN:
        return "taken";
    case ZORPEDI_LONELY:
        return "lonely";
    case ZORPEDI_UNSORTED:
        return "unsorted";
    case ZORPEDI_UNKNOWN:
        return "unknown";
    case ZORPEDI_GARBLED:
        return "garbled";
    case ZORPEDI_NOBODY:
        return "nobody";
    case ZORPEDI_OVERFULL:
        return "overfull";
    case ZORPEDI_BARE:
        return "bare";
    case ZORPEDI_ITSELF:
        return "itself";
    case ZORPEDI_LINKED:
        return "linked";
    case ZORPEDI_TOO_FEW:
        return "too few";
    default:
        return "";
    }
}

/* ---- what the memory means
 *
 * A depot's code is one byte. A row is a set of codes in four words (rule 1.2): bit c % 64 of word c / 64 is one if c is a member, bit 0 being
 * the least. A table has a row for each code, row c beginning at word 4 c. Code v in row u of the link table: u and v are linked. Code v in
 * row u of the pair table, only for u < v: (u, v) is a farthest pair.
 *
 * Links are sound (rule 1.8) if the open set has as many codes as the record says, every yard is open, every code in a row is open and not the
 * row's own, the rows of closed codes are empty, and v is in row u exactly if u is in row v. Figures are sound if every code v in row u of the pair
 * table has u < v and both are open and deliver, the pair table has as many bits as the record counts pairs, and the chain is 255 or less. A record
 * word beyond these is spoilt (2) in every call that looks at it: search, the calls on near depots, summary, reckoning, opening, link, batch and
 * stream look at the open set, the number and the yard set; opening, link, batch and stream at chain and pair count too.
 *
 * The map of a program is the record, the link table and the pair table. All zero is the empty map. A map that only zorpedi_open, zorpedi_open_yard,
 * zorpedi_link, zorpedi_open_batch and the stream have written since it was emptied is never spoilt or apart, and its figures are true: those of its
 * links and yards. A reckoning leaves links and yards as they are and writes true figures.
 */

/* ---- the map */

/* Empties a map.
 * 0: the record's eleven words and the first 1,024 words of both tables are 0.
 * Refused: 1 (record below 11, links or pairs below 1,024). */
uint8_t zorpedi_empty(uint64_t *record, size_t record_size, uint64_t *links, size_t links_size, uint64_t *pairs, size_t pairs_size);

/* Searches from the depot `code`, which may be a yard.
 * 0: hops[c] is the distance from `code` to c, 65,535 for a closed c, for c from 0 to 255. *eccentricity is the greatest distance to a depot that
 * delivers, 0 if there is none; *depth is the greatest to any open depot, a yard or not. Of the two layer rows, `even` if the depth is even, else
 * `odd`, is the set of depots at that distance; the other is the set at the distance before it, and is zero if the depth is 0 (section 3 of the
 * rules). Yards are in both rows; where only yards are that far away, the depth is above the eccentricity.
 * Refused: 1 (record below 11, links below 1,024, hops below 256, even or odd below 4), 2 (links only), 3, 4. */
uint8_t zorpedi_search(const uint64_t *record, size_t record_size, const uint64_t *links, size_t links_size, uint16_t *hops,
                       size_t hops_size, uint64_t *even, size_t even_size, uint64_t *odd, size_t odd_size, uint16_t *eccentricity,
                       uint16_t *depth, uint8_t code);

/* Lists the depots at most `k` handovers from the depot `code`.
 * 0: the first *count bytes of `codes` are the codes of the open depots, yards too, whose distance from `code` is at most k, each once, rising; the
 * bytes behind them keep their values. `code` is one of them, and the only one if k is 0. A closed code is none of them, however great k is. hops,
 * even and odd are as zorpedi_search leaves them (rule 13.1).
 * Refused: 1 (record below 11, links below 1,024, hops below 256, even or odd below 4, codes below 256), 2 (links only), 3, 4. */
uint8_t zorpedi_within(const uint64_t *record, size_t record_size, const uint64_t *links, size_t links_size, uint16_t *hops,
                       size_t hops_size, uint64_t *even, size_t even_size, uint64_t *odd, size_t odd_size, uint8_t *codes,
                       size_t codes_size, uint16_t *count, uint8_t code, uint32_t k);

/* Finds the open depot of a list, a yard or not, that is nearest to the depot `code`.
 * 0: *found is the open code in `listed` whose distance from `code` is least, the lowest such code if there are several, and *distance is that
 * distance. The list may have any length, a code more than once, closed codes, which are passed over, and `code` itself, whose distance is 0.
 * hops, even and odd are as zorpedi_search leaves them (rule 13.2).
 * Refused: 1 (record below 11, links below 1,024, hops below 256, even or odd below 4; the list has no size), 2 (links only), 3, 4, 10. */
uint8_t zorpedi_nearest(const uint64_t *record, size_t record_size, const uint64_t *links, size_t links_size, uint16_t *hops,
                        size_t hops_size, uint64_t *even, size_t even_size, uint64_t *odd, size_t odd_size, uint8_t *found,
                        uint16_t *distance, uint8_t code, const uint8_t *listed, size_t listed_size);

/* Sums a network up: how far apart the depots are that deliver, two by two, and how many of them have each eccentricity. Ways may lead through yards,
 * which are not counted otherwise.
 * 0: *sum is the sum of the distances of all pairs of open depots that deliver, each pair once; *pair_number is the number of these pairs, with n
 * such depots n (n - 1) / 2. The mean distance is *quotient and *remainder / *pair_number: *sum is *quotient times *pair_number and *remainder added,
 * and *remainder is below *pair_number. counts[e] is the number of them whose eccentricity is e, for e from 0 to 255, so that all 256 places are
 * written, and these add up to n. Every depot that delivers is searched from, by rising code, and no yard; hops, even and odd are as zorpedi_search
 * leaves them from the last, the highest code that delivers.
 * Refused: 1 (record below 11, links below 1,024, hops below 256, even or odd below 4, counts below 256), 2 (links only), 3, 15. */
uint8_t zorpedi_summary(const uint64_t *record, size_t record_size, const uint64_t *links, size_t links_size, uint16_t *hops,
                        size_t hops_size, uint64_t *even, size_t even_size, uint64_t *odd, size_t odd_size, uint16_t *counts,
                        size_t counts_size, uint64_t *sum, uint64_t *pair_number, uint64_t *quotient, uint64_t *remainder);

/* Reckons longest chain and farthest pairs afresh from links and yards; chain, pair count and pair table may hold anything before.
 * 0: record words 5 and 6 and the pair table are those of the links and the yards; *searches is the number of depots searched, the references. Of
 * the remaining depots the next reference is one with the highest degree, the one of lowest code among several (rule 5.4). After the search from
 * r, unless r is a yard: if e(r) is the longest chain found so far, and not 0, r with each depot at that distance that delivers joins the pairs; if
 * it is greater, it is that chain, and the pairs are r's own. Then, r being a yard or not, each remaining depot v has the bound e(r) + d(r,v) if its
 * own is greater, and leaves as skipped if its bound is below that chain (rule 5.3). Yards remain, are picked and are skipped as any depot.
 * For c from 0 to 255: skips[c] is the earliest reference that gave the bound at which c was skipped (0 to 255), 256 if c was searched, else 257;
 * bounds[c] is that bound, the eccentricity if c was searched, else 65,535. hops, even and odd are as the last search leaves them (see
 * zorpedi_search), and unchanged if no depot is open.
 * Refused: 1 (record below 11, links or pairs below 1,024, hops, bounds or skips below 256, even or odd below 4), 2 (links only), 3. */
uint8_t zorpedi_reckon(uint64_t *record, size_t record_size, const uint64_t *links, size_t links_size, uint64_t *pairs, size_t pairs_size,
                       uint16_t *hops, size_t hops_size, uint16_t *bounds, size_t bounds_size, uint16_t *skips, size_t skips_size,
                       uint64_t *even, size_t even_size, uint64_t *odd, size_t odd_size, uint16_t *searches);

/* Opens the depot `code`, which delivers, beside `neighbours`, yards or not.
 * 71 'G', 75 'K' or 83 'S': the code joins the open set, the links to its neighbours join the link table, and the new depot a is searched
 * from. With D the stored chain (rules 4.2 to 4.4): if e(a) is above D, 'G', the chain is e(a), and the pairs are those of a with the depots
 * that far away that deliver. Else the stored pairs go whose way through a, the distances of both from a added, is below D, and if e(a) is D, the
 * pairs of a with every other depot at that distance that delivers come; if e(a) is D or a stored pair is left, 'K', and the chain stays. Else 'S':
 * the rounds of zorpedi_reckon follow, without pairs, a being the first reference; the chain found so far is, of each pair stored before, the lesser
 * of D and its way through a, and of these the greatest, 0 without pairs. The pair count is that of the pair table; the yard set stays. *searches is
 * the number of depots searched: 1 for 'G' and 'K', at most the number open for 'S'. skips and bounds mark the depots of this call as zorpedi_reckon
 * says, all 256 places of both; hops, even and odd are as the last search leaves them. If the figures were true, they are so again, and the answer
 * compares the new chain with the old. On sound but false figures the same steps are taken.
 * Refused: 1 (sizes as for zorpedi_reckon; the neighbours have none), 2 (links or figures), 3, 5, 6, 7, 8. */
uint8_t zorpedi_open(uint64_t *record, size_t record_size, uint64_t *links, size_t links_size, uint64_t *pairs, size_t pairs_size,
                     uint16_t *hops, size_t hops_size, uint16_t *bounds, size_t bounds_size, uint16_t *skips, size_t skips_size,
                     uint64_t *even, size_t even_size, uint64_t *odd, size_t odd_size, uint16_t *searches, uint8_t code,
                     const uint8_t *neighbours, size_t neighbours_size);

/* Opens the yard `code` beside `neighbours`, yards or not.
 * 75 'K' or 83 'S': the code joins the open set and the yard set, the links to its neighbours join the link table, and the new yard a is searched
 * from. With D the stored chain: the stored pairs go whose way through a is below D. If one is left, or D is 0, 'K', and the chain stays; how great
 * e(a) is does not matter, and a joins no pair. Else 'S': the rounds of zorpedi_reckon follow as they do for zorpedi_open, the yard being the first
 * reference, whose search gives bounds and nothing else. A yard never makes the chain grow. All else is as zorpedi_open has it.
 * Refused: as zorpedi_open. */
uint8_t zorpedi_open_yard(uint64_t *record, size_t record_size, uint64_t *links, size_t links_size, uint64_t *pairs, size_t pairs_size,
                          uint16_t *hops, size_t hops_size, uint16_t *bounds, size_t bounds_size, uint16_t *skips, size_t skips_size,
                          uint64_t *even, size_t even_size, uint64_t *odd, size_t odd_size, uint16_t *searches, uint8_t code,
                          const uint8_t *neighbours, size_t neighbours_size);

/* Links two open depots, yards or not, whichever of them is named first.
 * 75 'K' or 83 'S': each of the two codes joins the other's row of the link table, and both depots are searched from, the link being in place:
 * first a, the one of lower code, then b. With D the stored chain (rules 15.2 to 15.4), and the way of a pair the lesser of its ways through a and
 * through b, the distances of both its depots from a added, and from b: the stored pairs whose way is below D go. If one is left, or D is 0, 'K',
 * and the chain stays. Else 'S': the rounds of zorpedi_reckon follow, without pairs, a and b being the first references, and nothing is skipped
 * before both are searched; the chain found so far is, of each pair stored before, the lesser of D and its way, and of these the greatest, 0
 * without pairs. The pair count is that of the pair table; open set, number and yard set stay. *searches is the number of depots searched: 2 for
 * 'K', at most the number open for 'S'. skips and bounds mark the depots of this call as zorpedi_reckon says, all 256 places of both; hops, even
 * and odd are as the last search leaves them, for 'K' that from b. If the figures were true, they are so again, and the chain is smaller for 'S'.
 * On sound but false figures the same steps are taken.
 * Refused: 1 (sizes as for zorpedi_reckon), 2 (links or figures), 3, 4 (either of the two), 13, 14. */
uint8_t zorpedi_link(uint64_t *record, size_t record_size, uint64_t *links, size_t links_size, uint64_t *pairs, size_t pairs_size,
                     uint16_t *hops, size_t hops_size, uint16_t *bounds, size_t bounds_size, uint16_t *skips, size_t skips_size,
                     uint64_t *even, size_t even_size, uint64_t *odd, size_t odd_size, uint16_t *searches, uint8_t first,
                     uint8_t second);

/* Opens depots and yards by up to 64 notice lines, which may come in any order. `lines` is one line after the other, each with its 0A; bytes
 * behind the last 0A are a line too, a garbled one.
 * 0: again and again, seen from the first line every time, the first line that zorpedi_open or, for kind 04, zorpedi_open_yard would accept by
 * then is opened as that call opens it, until none would be accepted. No order of these lines opens a code that is not open then. The first *count
 * bytes of `left` are the numbers of the lines not opened, from 0, rising; the bytes behind them keep their values. hops, bounds, skips, even and
 * odd are as the last opening leaves them, and unchanged if no line was opened. No lines at all are a batch that opens nothing.
 * Refused: 1 (sizes as for zorpedi_reckon, left below 64; the lines have none), 2 (links or figures), 3, 11, 12, 9 (some line is one that
 * zorpedi_read_notice refuses, or is of kind 02: a batch opens depots and yards and nothing else), looked for in this order. The number of a
 * refusal stands for the whole batch (section 14 of the rules). */
uint8_t zorpedi_open_batch(uint64_t *record, size_t record_size, uint64_t *links, size_t links_size, uint64_t *pairs, size_t pairs_size,
                           uint16_t *hops, size_t hops_size, uint16_t *bounds, size_t bounds_size, uint16_t *skips, size_t skips_size,
                           uint64_t *even, size_t even_size, uint64_t *odd, size_t odd_size, uint8_t *left, size_t left_size,
                           uint8_t *count, const uint8_t *lines, size_t lines_size);

/* ---- lines
 *
 * A notice line (section 7 of the rules) is upper-case hexadecimal, ended by byte 0A. It spells a frame, whose first byte is its kind:
 * - 01, an opening: kind, code, neighbour count, neighbours. 010503000204 opens depot 5 beside 0, 2 and 4. The code is byte 1, and the neighbours
 *   begin at byte 3.
 * - 02, a link: kind and two codes, three bytes. 020105 links depots 1 and 5. The codes are bytes 1 and 2.
 * - 04, the opening of a yard, laid out as 01. 040503000204 opens yard 5 beside 0, 2 and 4.
 */

/* Reads the notice line at the start of `input`.
 * 0: the first *length bytes of `frame` are the frame; *used is the number of bytes that the line has, 0A included.
 * Refused: 1 (frame below 258), 9. The neighbours may stand in any order: that is for the opening to judge; so may the two codes of a link. */
uint8_t zorpedi_read_notice(uint8_t *frame, size_t frame_size, size_t *length, size_t *used, const uint8_t *input, size_t input_size);

/* Writes the notice line of a frame; the frame is the whole of `frame`: of kind 01 or 04 three bytes more than its count, of kind 02 three bytes.
 * 0: the first *length bytes of `line` are the line, 0A included.
 * Refused: 1 (line below 517), 9. */
uint8_t zorpedi_write_notice(uint8_t *line, size_t line_size, size_t *length, const uint8_t *frame, size_t frame_size);

/* Writes a report line (rule 10.2): number, answer, depots, chain, pairs, searches, as decimals with a space between, and 0A. The answer is the
 * number that zorpedi_open, zorpedi_open_yard, zorpedi_link or zorpedi_read_notice gave: 71, 75 and 83 are written G, K and S, any other n is written
 * R and n.
 * 0: the first *length bytes of `line` are the line, 45 at most.
 * Refused: 1 (line below 48). */
uint8_t zorpedi_report(uint8_t *line, size_t line_size, size_t *length, uint32_t number, uint8_t answer, uint16_t depots, uint16_t chain,
                       uint32_t pairs, uint16_t searches);

/* ---- sentences
 *
 * The outcome of a call as one English sentence (section 18 of the rules), for screens in the hall:
 *
 *     Opening depot 5 shrank the chain: 6 open, chain 3, pairs 2, searches 6.
 *
 * A yard that opens begins with `Opening yard`, a link with `Linking`, between its codes in the order of the frame `and`, a closing with `Closing`. The call
 * `grew`, `kept` or `shrank the chain`, or `was refused with` a number. Numbers are decimals without a zero in front, and a sentence has
 * no line end. An outcome is nine numbers, each free within its width, whatever a map would give:
 * - kind, as a frame has it: 1 for the opening of a depot, 4 for that of a yard, 2 for a link, 3 for a closing
 * - code, and other: the two codes of a link; for every other kind `other` is 0. Codes have 16 bits, though no map of this version has one above 255
 * - letter and refusal: 71 'G', 75 'K' or 83 'S' and 0; or 0 and the number of the refusal, 0 to 255. They stand apart since 71 could be either
 * - depots, chain, pairs and searches: the figures of a report line, after a refusal too
 * No two outcomes have the same sentence.
 */

/* Writes the sentence of an outcome.
 * 0: the first *length bytes of `line` are the sentence, 104 at most.
 * Refused: 1 (line below 160), 9 (the kind is none of the four; `other` is not 0 and the kind is not 2; the letter is none of 0, 71, 75 and 83; or
 * neither letter nor refusal is 0). */
uint8_t zorpedi_sentence(uint8_t *line, size_t line_size, size_t *length, uint8_t kind, uint16_t code, uint16_t other, uint8_t letter,
                         uint8_t refusal, uint16_t depots, uint16_t chain, uint32_t pairs, uint16_t searches);

/* Reads a sentence, which is the whole of `text`.
 * 0: the nine numbers are those of the one outcome that has this sentence: `other` is 0 for a kind with one code, the refusal is 0 where there is a
 * letter, and the letter is 0 where there is none.
 * Refused: 9 (any other text, however long: a number with a zero in front or too great for its width, a line end, no full stop). */
uint8_t zorpedi_read_sentence(uint8_t *kind, uint16_t *code, uint16_t *other, uint8_t *letter, uint8_t *refusal, uint16_t *depots,
                              uint16_t *chain, uint32_t *pairs, uint16_t *searches, const uint8_t *text, size_t text_size);

/* ---- the stream
 *
 * Notice lines in, a report line out for each, the input in pieces of any size. A stream begins with zorpedi_empty, *lines = 0 and
 * *held = 0. *lines is the number of lines answered; the first *held bytes of `line` are what has come of the next one (a line's first 517
 * bytes decide how it reads, so that no more are held).
 */

/* Feeds a piece of the input.
 * 0: the first *used bytes of the piece are used: each line that ends in them is answered, as zorpedi_read_notice and, by the frame's kind,
 * zorpedi_open, zorpedi_open_yard or zorpedi_link answer, and counted in *lines; its report stands in `out`; what follows the last of these lines
 * is held in `line`. The first *written bytes of `out` are the reports. It stops before a byte where fewer than 48 bytes of `out` are free, and
 * what is not used is to be fed again; after the line 1,000,000 nothing more is used. Record, tables and rows are as the openings and links leave
 * them, one after the other; bytes of `line` are overwritten from the start of each line, the others stay.
 * Refused: 1 (sizes as for zorpedi_open; line below 517, out below 48, *held over 517), 2 (links or figures), 3.
 * The map is checked once in each call, so feed large pieces. */
uint8_t zorpedi_feed(uint64_t *record, size_t record_size, uint64_t *links, size_t links_size, uint64_t *pairs, size_t pairs_size,
                     uint16_t *hops, size_t hops_size, uint16_t *bounds, size_t bounds_size, uint16_t *skips, size_t skips_size,
                     uint64_t *even, size_t even_size, uint64_t *odd, size_t odd_size, uint8_t *line, size_t line_size, uint8_t *out,
                     size_t out_size, uint32_t *lines, size_t *held, size_t *used, size_t *written, const uint8_t *piece,
                     size_t piece_size);

/* Ends the input: a stretch that is held is one line, garbled since it has no 0A.
 * 0: if bytes are held and fewer than 1,000,000 lines are answered, the held bytes are answered as zorpedi_feed answers a line (a caller may
 * have put a 0A among them), the line is counted in *lines, its report is the first *written bytes of `out`, and *held is 0. Else *written
 * is 0, and nothing else changes.
 * Refused: as zorpedi_feed. */
uint8_t zorpedi_finish(uint64_t *record, size_t record_size, uint64_t *links, size_t links_size, uint64_t *pairs, size_t pairs_size,
                       uint16_t *hops, size_t hops_size, uint16_t *bounds, size_t bounds_size, uint16_t *skips, size_t skips_size,
                       uint64_t *even, size_t even_size, uint64_t *odd, size_t odd_size, const uint8_t *line, size_t line_size,
                       uint8_t *out, size_t out_size, uint32_t *lines, size_t *held, size_t *written);

/* ---- all memory of one map, and the calls over it
 *
 * These helpers only pass the arrays with their sizes; the promises are those of the calls above. None of them answers 1 on the map's own
 * arrays. Empty a map before its first use.
 */

typedef struct zorpedi_map {
    uint64_t record[ZORPEDI_RECORD_SIZE];
    uint64_t links[ZORPEDI_TABLE_SIZE];
    uint64_t pairs[ZORPEDI_TABLE_SIZE];
    uint64_t even[ZORPEDI_ROW_SIZE];
    uint64_t odd[ZORPEDI_ROW_SIZE];
    uint16_t hops[ZORPEDI_CODES_SIZE];
    uint16_t bounds[ZORPEDI_CODES_SIZE];
    uint16_t skips[ZORPEDI_CODES_SIZE];
} zorpedi_map;

static inline uint8_t zorpedi_map_empty(zorpedi_map *map)
{
    return zorpedi_empty(map->record, ZORPEDI_RECORD_SIZE, map->links, ZORPEDI_TABLE_SIZE, map->pairs, ZORPEDI_TABLE_SIZE);
}

/* `neighbours` may be null where `count` is 0, here and for a yard. */
static inline uint8_t zorpedi_map_open(zorpedi_map *map, uint8_t code, const uint8_t *neighbours, size_t count, uint16_t *searches)
{
    return zorpedi_open(map->record, ZORPEDI_RECORD_SIZE, map->links, ZORPEDI_TABLE_SIZE, map->pairs, ZORPEDI_TABLE_SIZE, map->hops,
                        ZORPEDI_CODES_SIZE, map->bounds, ZORPEDI_CODES_SIZE, map->skips, ZORPEDI_CODES_SIZE, map->even, ZORPEDI_ROW_SIZE,
                        map->odd, ZORPEDI_ROW_SIZE, searches, code, count == 0 ? &code : neighbours, count);
}

static inline uint8_t zorpedi_map_open_yard(zorpedi_map *map, uint8_t code, const uint8_t *neighbours, size_t count, uint16_t *searches)
{
    return zorpedi_open_yard(map->record, ZORPEDI_RECORD_SIZE, map->links, ZORPEDI_TABLE_SIZE, map->pairs, ZORPEDI_TABLE_SIZE, map->hops,
                             ZORPEDI_CODES_SIZE, map->bounds, ZORPEDI_CODES_SIZE, map->skips, ZORPEDI_CODES_SIZE, map->even,
                             ZORPEDI_ROW_SIZE, map->odd, ZORPEDI_ROW_SIZE, searches, code, count == 0 ? &code : neighbours, count);
}

/* An opening's answer by value: the number that zorpedi_open or zorpedi_open_yard answers, and the number of depots searched, which is 0 if the
 * opening was refused and at least 1 if it was accepted. */
typedef struct zorpedi_opened {
    uint8_t answer;
    uint16_t searches;
} zorpedi_opened;

/* zorpedi_map_open and zorpedi_map_open_yard, lent no number. `neighbours` may be null where `count` is 0. */
static inline zorpedi_opened zorpedi_map_opened(zorpedi_map *map, uint8_t code, const uint8_t *neighbours, size_t count)
{
    zorpedi_opened opened;
    opened.searches = 0; /* a refused call leaves it */
    opened.answer = zorpedi_map_open(map, code, neighbours, count, &opened.searches);
    return opened;
}

static inline zorpedi_opened zorpedi_map_opened_yard(zorpedi_map *map, uint8_t code, const uint8_t *neighbours, size_t count)
{
    zorpedi_opened opened;
    opened.searches = 0; /* a refused call leaves it */
    opened.answer = zorpedi_map_open_yard(map, code, neighbours, count, &opened.searches);
    return opened;
}

static inline uint8_t zorpedi_map_link(zorpedi_map *map, uint8_t first, uint8_t second, uint16_t *searches)
{
    return zorpedi_link(map->record, ZORPEDI_RECORD_SIZE, map->links, ZORPEDI_TABLE_SIZE, map->pairs, ZORPEDI_TABLE_SIZE, map->hops,
                        ZORPEDI_CODES_SIZE, map->bounds, ZORPEDI_CODES_SIZE, map->skips, ZORPEDI_CODES_SIZE, map->even, ZORPEDI_ROW_SIZE,
                        map->odd, ZORPEDI_ROW_SIZE, searches, first, second);
}

/* `left` is lent whole: ZORPEDI_BATCH_SIZE bytes. `lines` may be null where `size` is 0. */
static inline uint8_t zorpedi_map_open_batch(zorpedi_map *map, uint8_t left[ZORPEDI_BATCH_SIZE], uint8_t *count, const uint8_t *lines,
                                             size_t size)
{
    const uint8_t none = 0;
    return zorpedi_open_batch(map->record, ZORPEDI_RECORD_SIZE, map->links, ZORPEDI_TABLE_SIZE, map->pairs, ZORPEDI_TABLE_SIZE, map->hops,
                              ZORPEDI_CODES_SIZE, map->bounds, ZORPEDI_CODES_SIZE, map->skips, ZORPEDI_CODES_SIZE, map->even,
                              ZORPEDI_ROW_SIZE, map->odd, ZORPEDI_ROW_SIZE, left, ZORPEDI_BATCH_SIZE, count, size == 0 ? &none : lines,
                              size);
}

static inline uint8_t zorpedi_map_search(zorpedi_map *map, uint8_t code, uint16_t *eccentricity, uint16_t *depth)
{
    return zorpedi_search(map->record, ZORPEDI_RECORD_SIZE, map->links, ZORPEDI_TABLE_SIZE, map->hops, ZORPEDI_CODES_SIZE, map->even,
                          ZORPEDI_ROW_SIZE, map->odd, ZORPEDI_ROW_SIZE, eccentricity, depth, code);
}

/* `codes` is lent whole: ZORPEDI_CODES_SIZE bytes. */
static inline uint8_t zorpedi_map_within(zorpedi_map *map, uint8_t codes[ZORPEDI_CODES_SIZE], uint16_t *count, uint8_t code, uint32_t k)
{
    return zorpedi_within(map->record, ZORPEDI_RECORD_SIZE, map->links, ZORPEDI_TABLE_SIZE, map->hops, ZORPEDI_CODES_SIZE, map->even,
                          ZORPEDI_ROW_SIZE, map->odd, ZORPEDI_ROW_SIZE, codes, ZORPEDI_CODES_SIZE, count, code, k);
}

/* `listed` may be null where `size` is 0. */
static inline uint8_t zorpedi_map_nearest(zorpedi_map *map, uint8_t *found, uint16_t *distance, uint8_t code, const uint8_t *listed,
                                          size_t size)
{
    return zorpedi_nearest(map->record, ZORPEDI_RECORD_SIZE, map->links, ZORPEDI_TABLE_SIZE, map->hops, ZORPEDI_CODES_SIZE, map->even,
                           ZORPEDI_ROW_SIZE, map->odd, ZORPEDI_ROW_SIZE, found, distance, code, size == 0 ? &code : listed, size);
}

/* `counts` is lent whole: ZORPEDI_CODES_SIZE numbers. */
static inline uint8_t zorpedi_map_summary(zorpedi_map *map, uint16_t counts[ZORPEDI_CODES_SIZE], uint64_t *sum, uint64_t *pair_number,
                                          uint64_t *quotient, uint64_t *remainder)
{
    return zorpedi_summary(map->record, ZORPEDI_RECORD_SIZE, map->links, ZORPEDI_TABLE_SIZE, map->hops, ZORPEDI_CODES_SIZE, map->even,
                           ZORPEDI_ROW_SIZE, map->odd, ZORPEDI_ROW_SIZE, counts, ZORPEDI_CODES_SIZE, sum, pair_number, quotient,
                           remainder);
}

static inline uint8_t zorpedi_map_reckon(zorpedi_map *map, uint16_t *searches)
{
    return zorpedi_reckon(map->record, ZORPEDI_RECORD_SIZE, map->links, ZORPEDI_TABLE_SIZE, map->pairs, ZORPEDI_TABLE_SIZE, map->hops,
                          ZORPEDI_CODES_SIZE, map->bounds, ZORPEDI_CODES_SIZE, map->skips, ZORPEDI_CODES_SIZE, map->even, ZORPEDI_ROW_SIZE,
                          map->odd, ZORPEDI_ROW_SIZE, searches);
}

/* The report line of a call on this map: `answer` and `searches` as the call gave them, 0 searches if it was refused. */
static inline uint8_t zorpedi_map_report(const zorpedi_map *map, uint8_t *line, size_t line_size, size_t *length, uint32_t number,
                                         uint8_t answer, uint16_t searches)
{
    return zorpedi_report(line, line_size, length, number, answer, (uint16_t)map->record[ZORPEDI_NUMBER],
                          (uint16_t)map->record[ZORPEDI_CHAIN], (uint32_t)map->record[ZORPEDI_PAIR_COUNT], searches);
}

/* Whether a row has a code: map->record has the open set in front and the yard set at ZORPEDI_YARDS, and map->even and map->odd are layer rows. */
static inline int zorpedi_row_has(const uint64_t *row, uint8_t code)
{
    return (int)(row[code / 64] >> (code % 64) & 1);
}

static inline int zorpedi_map_is_open(const zorpedi_map *map, uint8_t code)
{
    return zorpedi_row_has(map->record, code);
}

/* A yard of a sound map is open too. */
static inline int zorpedi_map_is_yard(const zorpedi_map *map, uint8_t code)
{
    return zorpedi_row_has(map->record + ZORPEDI_YARDS, code);
}

/* Whether a code's depot is open and no yard. */
static inline int zorpedi_map_delivers(const zorpedi_map *map, uint8_t code)
{
    return zorpedi_map_is_open(map, code) && !zorpedi_map_is_yard(map, code);
}

static inline int zorpedi_map_are_linked(const zorpedi_map *map, uint8_t u, uint8_t v)
{
    return zorpedi_row_has(map->links + 4 * u, v);
}

/* Whether u and v are a farthest pair, in either order. */
static inline int zorpedi_map_is_farthest(const zorpedi_map *map, uint8_t u, uint8_t v)
{
    return u < v ? zorpedi_row_has(map->pairs + 4 * u, v) : zorpedi_row_has(map->pairs + 4 * v, u);
}

/* The farthest pairs of a map, one after the other:
 *
 *     zorpedi_pairs pairs = zorpedi_map_pairs(&map);
 *     while (zorpedi_pairs_next(&pairs)) {
 *         printf("(%u,%u)\n", pairs.u, pairs.v);
 *     }
 *
 * zorpedi_pairs_next answers 1 and sets u and v to the next bit v of row u of the pair table, by rising u, and for each u by rising v; or it answers
 * 0 and leaves them, when there is none. Each bit comes once, so that on sound figures u < v, and as many come as the record's pair count says. It
 * looks at the map's own table: a call that may write the pairs (opening, link, batch, reckoning, emptying, stream) ends the walk, and a new one
 * is to begin. */
typedef struct zorpedi_pairs {
    const uint64_t *table; /* the map's pair table */
    uint32_t place;        /* where the next look begins: 256 u + v */
    uint8_t u;
    uint8_t v;
} zorpedi_pairs;

static inline zorpedi_pairs zorpedi_map_pairs(const zorpedi_map *map)
{
    zorpedi_pairs pairs;
    pairs.table = map->pairs;
    pairs.place = 0;
    pairs.u = 0;
    pairs.v = 0;
    return pairs;
}

static inline int zorpedi_pairs_next(zorpedi_pairs *pairs)
{
    while (pairs->place < ZORPEDI_TABLE_SIZE * 64) {
        uint64_t rest = pairs->table[pairs->place / 64] >> (pairs->place % 64);
        if (rest % 2 == 1) {
            pairs->u = (uint8_t)(pairs->place / 256);
            pairs->v = (uint8_t)(pairs->place % 256);
            pairs->place++;
            return 1;
        }
        pairs->place += rest == 0 ? 64 - pairs->place % 64 : 1; /* to the next word, or to the next bit */
    }
    return 0;
}

/* The last layer of a search with this depth: the depots farthest from where it began, yards with them. */
static inline const uint64_t *zorpedi_map_last_layer(const zorpedi_map *map, uint16_t depth)
{
    return depth % 2 == 0 ? map->even : map->odd;
}

/* ---- all memory of one stream, and its calls */

typedef struct zorpedi_stream {
    zorpedi_map map;
    size_t held;
    uint32_t lines;
    uint8_t line[ZORPEDI_LINE_SIZE];
} zorpedi_stream;

static inline uint8_t zorpedi_stream_begin(zorpedi_stream *stream)
{
    stream->held = 0;
    stream->lines = 0;
    return zorpedi_map_empty(&stream->map);
}

static inline uint8_t zorpedi_stream_feed(zorpedi_stream *stream, const uint8_t *piece, size_t piece_size, uint8_t *out, size_t out_size,
                                          size_t *used, size_t *written)
{
    zorpedi_map *map = &stream->map;
    return zorpedi_feed(map->record, ZORPEDI_RECORD_SIZE, map->links, ZORPEDI_TABLE_SIZE, map->pairs, ZORPEDI_TABLE_SIZE, map->hops,
                        ZORPEDI_CODES_SIZE, map->bounds, ZORPEDI_CODES_SIZE, map->skips, ZORPEDI_CODES_SIZE, map->even, ZORPEDI_ROW_SIZE,
                        map->odd, ZORPEDI_ROW_SIZE, stream->line, ZORPEDI_LINE_SIZE, out, out_size, &stream->lines, &stream->held, used,
                        written, piece, piece_size);
}

static inline uint8_t zorpedi_stream_finish(zorpedi_stream *stream, uint8_t *out, size_t out_size, size_t *written)
{
    zorpedi_map *map = &stream->map;
    return zorpedi_finish(map->record, ZORPEDI_RECORD_SIZE, map->links, ZORPEDI_TABLE_SIZE, map->pairs, ZORPEDI_TABLE_SIZE, map->hops,
                          ZORPEDI_CODES_SIZE, map->bounds, ZORPEDI_CODES_SIZE, map->skips, ZORPEDI_CODES_SIZE, map->even, ZORPEDI_ROW_SIZE,
                          map->odd, ZORPEDI_ROW_SIZE, stream->line, ZORPEDI_LINE_SIZE, out, out_size, &stream->lines, &stream->held,
                          written);
}

#ifdef __cplusplus
}
#endif

#endif
