//! The C functions, as include/zorpedi.h declares them. The tests take this file in too, since they call the archive without the safe types.
#[rustfmt::skip]
extern "C" {
    pub fn zorpedi_version() -> u32;
    pub fn zorpedi_empty(record: *mut u64, _: usize, links: *mut u64, _: usize, pairs: *mut u64, _: usize) -> u8;
    pub fn zorpedi_search(
        record: *const u64, _: usize, links: *const u64, _: usize, hops: *mut u16, _: usize, even: *mut u64, _: usize,
        odd: *mut u64, _: usize, eccentricity: *mut u16, depth: *mut u16, code: u8,
    ) -> u8;
    pub fn zorpedi_within(
        record: *const u64, _: usize, links: *const u64, _: usize, hops: *mut u16, _: usize, even: *mut u64, _: usize,
        odd: *mut u64, _: usize, codes: *mut u8, _: usize, count: *mut u16, code: u8, k: u32,
    ) -> u8;
    pub fn zorpedi_nearest(
        record: *const u64, _: usize, links: *const u64, _: usize, hops: *mut u16, _: usize, even: *mut u64, _: usize,
        odd: *mut u64, _: usize, found: *mut u8, distance: *mut u16, code: u8, listed: *const u8, _: usize,
    ) -> u8;
    pub fn zorpedi_summary(
        record: *const u64, _: usize, links: *const u64, _: usize, hops: *mut u16, _: usize, even: *mut u64, _: usize,
        odd: *mut u64, _: usize, counts: *mut u16, _: usize, sum: *mut u64, pair_number: *mut u64, quotient: *mut u64,
        remainder: *mut u64,
    ) -> u8;
    pub fn zorpedi_reckon(
        record: *mut u64, _: usize, links: *const u64, _: usize, pairs: *mut u64, _: usize, hops: *mut u16, _: usize,
        bounds: *mut u16, _: usize, skips: *mut u16, _: usize, even: *mut u64, _: usize, odd: *mut u64, _: usize,
        searches: *mut u16,
    ) -> u8;
    pub fn zorpedi_open(
        record: *mut u64, _: usize, links: *mut u64, _: usize, pairs: *mut u64, _: usize, hops: *mut u16, _: usize,
        bounds: *mut u16, _: usize, skips: *mut u16, _: usize, even: *mut u64, _: usize, odd: *mut u64, _: usize,
        searches: *mut u16, code: u8, neighbours: *const u8, _: usize,
    ) -> u8;
    pub fn zorpedi_open_yard(
        record: *mut u64, _: usize, links: *mut u64, _: usize, pairs: *mut u64, _: usize, hops: *mut u16, _: usize,
        bounds: *mut u16, _: usize, skips: *mut u16, _: usize, even: *mut u64, _: usize, odd: *mut u64, _: usize,
        searches: *mut u16, code: u8, neighbours: *const u8, _: usize,
    ) -> u8;
    pub fn zorpedi_link(
        record: *mut u64, _: usize, links: *mut u64, _: usize, pairs: *mut u64, _: usize, hops: *mut u16, _: usize,
        bounds: *mut u16, _: usize, skips: *mut u16, _: usize, even: *mut u64, _: usize, odd: *mut u64, _: usize,
        searches: *mut u16, first: u8, second: u8,
    ) -> u8;
    pub fn zorpedi_open_batch(
        record: *mut u64, _: usize, links: *mut u64, _: usize, pairs: *mut u64, _: usize, hops: *mut u16, _: usize,
        bounds: *mut u16, _: usize, skips: *mut u16, _: usize, even: *mut u64, _: usize, odd: *mut u64, _: usize,
        left: *mut u8, _: usize, count: *mut u8, lines: *const u8, _: usize,
    ) -> u8;
    pub fn zorpedi_read_notice(
        frame: *mut u8, _: usize, length: *mut usize, used: *mut usize, input: *const u8, _: usize,
    ) -> u8;
    pub fn zorpedi_write_notice(line: *mut u8, _: usize, length: *mut usize, frame: *const u8, _: usize) -> u8;
    pub fn zorpedi_report(
        line: *mut u8, _: usize, length: *mut usize, number: u32, answer: u8, depots: u16, chain: u16, pairs: u32,
        searches: u16,
    ) -> u8;
    pub fn zorpedi_sentence(
        line: *mut u8, _: usize, length: *mut usize, kind: u8, code: u16, other: u16, letter: u8, refusal: u8, depots: u16,
        chain: u16, pairs: u32, searches: u16,
    ) -> u8;
    pub fn zorpedi_read_sentence(
        kind: *mut u8, code: *mut u16, other: *mut u16, letter: *mut u8, refusal: *mut u8, depots: *mut u16, chain: *mut u16,
        pairs: *mut u32, searches: *mut u16, text: *const u8, _: usize,
    ) -> u8;
    pub fn zorpedi_feed(
        record: *mut u64, _: usize, links: *mut u64, _: usize, pairs: *mut u64, _: usize, hops: *mut u16, _: usize,
        bounds: *mut u16, _: usize, skips: *mut u16, _: usize, even: *mut u64, _: usize, odd: *mut u64, _: usize,
        line: *mut u8, _: usize, out: *mut u8, _: usize, lines: *mut u32, held: *mut usize, used: *mut usize,
        written: *mut usize, piece: *const u8, _: usize,
    ) -> u8;
    pub fn zorpedi_finish(
        record: *mut u64, _: usize, links: *mut u64, _: usize, pairs: *mut u64, _: usize, hops: *mut u16, _: usize,
        bounds: *mut u16, _: usize, skips: *mut u16, _: usize, even: *mut u64, _: usize, odd: *mut u64, _: usize,
        line: *const u8, _: usize, out: *mut u8, _: usize, lines: *mut u32, held: *mut usize, written: *mut usize,
    ) -> u8;
}
