//! The words of a wide map: named sizes, what stands where, and when it is sound.
use crate::plain::lines::Notice;
use crate::plain::memory::Memory;
use crate::plain::words::bits_of_table;
use crate::plain::{Map, NARROW, WIDE};
use crate::steps::{opening, yard_opening, Held};

/// The sizes and the marks of both maps, as numbers.
#[test]
fn named_sizes() {
    let sizes = [&NARROW, &WIDE].map(|s| [s.places, s.words(), s.table(), s.record(), s.row_codes(), s.greatest_chain(), s.frame, s.line]);
    assert_eq!(sizes, [[256, 4, 1_024, 11, 0, 255, 258, 517], [512, 8, 4_096, 19, 512, 511, 1_027, 2_055]]);
    assert_eq!([(NARROW.searched, NARROW.other), (WIDE.searched, WIDE.other)], [(256, 257), (65_534, 65_533)]);
    assert_eq!(
        [NARROW.kinds, WIDE.kinds].map(|kinds| kinds.iter().map(|kind| kind.byte).collect::<Vec<_>>()),
        [vec![0x01, 0x02, 0x04], vec![0x01, 0x02, 0x04, 0x11, 0x12, 0x14]]
    );
}

/// Rows 0 to 3 have the codes 65,535, 0, 300 and 5; 5 is a yard.
fn four() -> Held {
    let mut held = Held::empty();
    held.take(&opening(65_535, &[]));
    held.take(&opening(0, &[65_535]));
    held.take(&opening(300, &[0]));
    held.take(&yard_opening(5, &[0, 300]));
    held
}

#[test]
fn what_stands_where() {
    let Memory { open, number, chain, count, yards, codes, links, pairs, .. } = four().memory;
    assert_eq!((open, number, chain, count), (vec![0b1111, 0, 0, 0, 0, 0, 0, 0], 4, 2, 1));
    assert_eq!((yards, &codes[..5]), (vec![0b1000, 0, 0, 0, 0, 0, 0, 0], &[65_535, 0, 300, 5, 0][..]));
    assert_eq!((links[0], links[8], links[16], links[24]), (0b0010, 0b1101, 0b1010, 0b0110));
    // 300 and 65,535: the lower code stands in the higher row
    assert_eq!((pairs[0], bits_of_table(8, &pairs).len()), (0b0100, 1));
    // the narrow map lists no codes, and has its rows four words apart
    let narrow = Memory::of(&Map::of_shape(&NARROW));
    assert_eq!((narrow.links.len(), narrow.codes.len()), (1_024, 0));
}

fn assert_refused(what: &str, links: u8, figures: u8, change: impl FnOnce(&mut Memory)) {
    let mut memory = four().memory;
    change(&mut memory);
    assert_eq!((memory.links_refusal(), memory.refusal()), (links, figures), "{what}");
}

/// Rules out soundness that asks less, and one that asks more: what stands at closed rows' codes
/// says nothing.
#[test]
fn what_is_sound() {
    assert_refused("as it is", 0, 0, |_| {});
    assert_refused("two codes alike", 2, 2, |m| m.codes[2] = 0);
    assert_refused("the first and the last code alike", 2, 2, |m| m.codes[3] = 65_535);
    assert_refused("a closed row with an open code", 0, 0, |m| m.codes[4] = 300);
    assert_refused("closed rows with any codes", 0, 0, |m| m.codes[4..].fill(5));
    assert_refused("other codes", 0, 0, |m| m.codes[..4].copy_from_slice(&[4, 3, 2, 1]));
    assert_refused("a row that is not the next", 2, 2, |m| {
        m.open[0] |= 0b10_0000;
        m.number = 5;
    });
    assert_refused("the next row, without a link", 3, 3, |m| {
        (m.open[0], m.number, m.codes[4]) = (0b1_1111, 5, 7);
    });
    assert_refused("the next row, with a code that is open", 2, 2, |m| {
        (m.open[0], m.number, m.codes[4]) = (0b1_1111, 5, 300);
    });
    assert_refused("a link of the last row", 2, 2, |m| m.links[4_095] = 1 << 63);
    assert_refused("a link one way round", 2, 2, |m| m.links[0] |= 0b0100);
    assert_refused("an own link", 2, 2, |m| m.links[0] |= 1);
    assert_refused("a closed yard", 2, 2, |m| m.yards[7] = 1 << 63);
    assert_refused("a number that is not the open ones'", 2, 2, |m| m.number = 3);
    assert_refused("a chain of 511", 0, 0, |m| m.chain = 511);
    assert_refused("a chain of 512", 0, 2, |m| m.chain = 512);
    assert_refused("a pair the other way round", 0, 2, |m| (m.pairs[0], m.pairs[16]) = (0, 0b0001));
    assert_refused("a pair at a yard", 0, 2, |m| m.pairs[0] = 0b1000);
    assert_refused("a pair of closed rows", 0, 2, |m| (m.pairs[0], m.pairs[8 * 510 + 7]) = (0, 1 << 63));
    assert_refused("a pair too many", 0, 2, |m| m.pairs[8] = 0b0100);
    // sound for the links, apart, and no figures: 2 comes before 3
    assert_refused("apart, with a chain of 512", 3, 2, |m| {
        (m.open[0], m.number, m.codes[4], m.chain) = (0b1_1111, 5, 7, 512);
    });
}

/// The rows before the first gap open: only where they are not the first is the map unsound,
/// whatever their number.
#[test]
fn all_rows_but_one() {
    for gap in [0, 1, 255, 256, 510, 511] {
        let mut memory = Memory::empty(&WIDE);
        for row in (0..512).filter(|&row| row != gap) {
            memory.open[row / 64] |= 1 << (row % 64);
            memory.codes[row] = 7 * row as u16;
        }
        memory.number = 511;
        assert_eq!(memory.links_refusal(), if gap == 511 { 3 } else { 2 }, "row {gap} is closed");
    }
}

/// An opening writes the code of its own row; a closing moves the last code, and zeroes its place;
/// others stay, whatever they are.
#[test]
fn codes_of_closed_rows() {
    let mut held = four();
    held.memory.codes[4..].fill(777);
    held.take(&opening(9, &[5]));
    assert_eq!((&held.memory.codes[..6], held.memory.codes[511]), (&[65_535, 0, 300, 5, 9, 777][..], 777));
    held.take(&Notice::Closing(300));
    assert_eq!((&held.memory.codes[..7], held.memory.refusal()), (&[65_535, 0, 9, 5, 0, 777, 777][..], 0));
    assert_eq!(held.memory.map().network, held.map.network);
}
