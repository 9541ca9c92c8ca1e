//! Values that were worked out by hand.
use crate::plain::lines::Notice;
use crate::plain::opening::{reckoning, Status};
use crate::plain::stream::output_of;
use crate::plain::{narrate, survey, Map, NARROW, WIDE};
use crate::steps::{assert_step, opening, yard_opening, Held};
use std::collections::BTreeSet;

/// Depots 300, 5 and 7 in a path, in rows 0, 1 and 2.
const PATH: &str = "11012C0000\n1100050001012C\n11000700010005\n";

/// The search is from 7, in row 2: 5 is one away, 300 two.
#[test]
fn three_depots() {
    assert_eq!(output_of(&WIDE, PATH.as_bytes()), "1 K 1 0 0 1\n2 G 2 1 1 1\n3 G 3 2 1 1\n");
    assert_eq!(output_of(&NARROW, PATH.as_bytes()), "1 R9 0 0 0 0\n2 R9 0 0 0 0\n3 R9 0 0 0 0\n");
    let mut held = Held::empty();
    held.take(&opening(300, &[]));
    held.take(&opening(5, &[300]));
    let opened = held.take(&opening(7, &[5]));
    assert_eq!((&held.memory.codes[..4], held.memory.open[0]), (&[300, 5, 7, 0][..], 0b111));
    // 7 and 300 are rows 2 and 0
    assert_eq!(held.pairs(), [(0, 2)]);
    let (marks, searched) = held.tables(&opened);
    let searched = searched.expect("a search");
    assert_eq!((&searched.hops[..4], searched.even[0], searched.odd[0]), (&[2, 1, 0, 65_535][..], 0b001, 0b010));
    assert_eq!((&marks.skips[..4], &marks.bounds[..4]), (&[65_533, 65_533, 65_534, 65_533][..], &[65_535, 65_535, 2, 65_535][..]));
}

/// A code up to 255 in either kind is one depot.
#[test]
fn both_widths_in_a_stream() {
    let input =
        "010500\n1100050000\n11000600010005\n020506\n1200060005\n12000500FF\n140100000101F4\n14010000010006\n0107020506\n040801FF\n";
    let reports =
        "1 K 1 0 0 1\n2 R5 1 0 0 0\n3 G 2 1 1 1\n4 R14 2 1 1 0\n5 R14 2 1 1 0\n6 R4 2 1 1 0\n7 R8 2 1 1 0\n8 K 3 1 1 1\n9 K 4 1 3 1\n\
        10 R8 4 1 3 0\n";
    assert_eq!(output_of(&WIDE, input.as_bytes()), reports);
}

/// The path of seven (rule 5.6) with its codes falling from 60 to 0 in order of arrival: it is the
/// same path from the other end, so that by code 10, 20, 30, 50, 0 and 60 are searched, and 40 is
/// skipped for 30 at 4. By rows it would begin at the other end, with 50 in row 1.
fn falling() -> Held {
    let mut held = Held::empty();
    held.take(&opening(60, &[]));
    for code in [50, 40, 30, 20, 10, 0] {
        held.take(&opening(code, &[code + 10]));
    }
    held
}

#[test]
fn ties_of_references_go_by_code() {
    let work = reckoning(&falling().map.network);
    assert_eq!(work.references, [10, 20, 30, 50, 0, 60]);
    assert_eq!((work.figures.chain, &work.status[&40]), (6, &Status::Skipped(4, 30)));
}

/// A link of 40 and 20, in rows 2 and 4, about 30: chain 5. Both see 60 and 0 three away, and 30,
/// one from each, is skipped at 4 for the one that was searched first: 20, the lower code, in the
/// higher row. 50 is skipped at 4 for 40, and 10 for 20; the ends remain.
#[test]
fn the_lower_code_of_a_link_comes_first() {
    for (first, second) in [(40, 20), (20, 40)] {
        let mut held = falling();
        let (before, notice) = (held.memory.clone(), Notice::Link(first, second));
        let opened = held.take(&notice);
        assert_eq!((opened.letter, held.map.figures.chain, opened.work.references.as_slice()), (b'S', 5, &[20, 40, 0, 60][..]));
        assert_eq!(held.map.rows.pair(0, 60), (0, 6));
        let (marks, _) = held.tables(&opened);
        assert_eq!(marks.skips[..8], [65_534, 2, 65_534, 4, 65_534, 4, 65_534, 65_533]);
        assert_eq!(marks.bounds[..7], [5, 4, 3, 4, 3, 4, 5]);
        assert_step(&before, &held, &notice, &opened);
    }
}

/// About 30 stand 20 and 40, one away, and 10 and 50, two away; lists go by code, though rows fall.
#[test]
fn lists_go_by_code() {
    let network = falling().map.network;
    assert_eq!(network.within(30, 1), [20, 30, 40]);
    assert_eq!((network.nearest(30, &[40, 20]), network.nearest(30, &[50, 9, 10, 10])), (Some((20, 1)), Some((10, 2))));
    assert_eq!((network.open.first(), network.delivering().last()), (Some(&0), Some(60)));
}

/// 512 depots in a star about 1,000; the next is refused, first for its own code, then because the
/// map is full, whatever else is wrong with it.
#[test]
fn a_full_map() {
    let mut held = Held::empty();
    held.map.open(1_000, &[]).unwrap_or_else(|refusal| panic!("refused with {refusal}"));
    for code in 1..512 {
        let full = held.map.open(65_000, &[]).err();
        assert_eq!(full, Some(6), "{code} are open");
        held.map.open(65_536 - code, &[1_000]).unwrap_or_else(|refusal| panic!("refused with {refusal}"));
    }
    held.memory.store(&held.map);
    assert_eq!((held.memory.number, held.memory.chain, held.memory.count), (512, 2, 511 * 510 / 2));
    assert_eq!(held.memory.open, [u64::MAX; 8]);
    let calls: [(usize, &[usize], u8); 7] = [
        (1_000, &[], 5),
        (65_535, &[3, 2], 5),
        (7, &[], 16),
        (7, &[1_000], 16),
        (7, &[1_000, 1_000], 16),
        (7, &[7], 16),
        (65_024, &[1_000], 16),
    ];
    for (code, beside, refusal) in calls {
        for notice in [opening(code, beside), yard_opening(code, beside)] {
            assert_eq!(held.try_take(&notice).err(), Some(refusal), "{notice:?}");
        }
    }
    // once one has closed there is a row again, and the refusals behind 16 come
    held.take(&Notice::Closing(65_535));
    for (beside, refusal) in [(&[][..], 6), (&[1_000, 1_000], 7), (&[65_535], 8)] {
        assert_eq!(held.try_take(&opening(7, beside)).err(), Some(refusal));
    }
    assert_eq!(held.take(&opening(7, &[1_000])).letter, b'K');
    // row 1, the gap, has the code of the last row, which is 7's now
    assert_eq!((held.memory.codes[1], held.memory.codes[511]), (65_025, 7));
}

/// More neighbours than depots can be open, all of them: strictly rising there is one that is
/// closed.
#[test]
fn more_neighbours_than_places() {
    let mut map = Map::of_shape(&WIDE);
    assert!(map.open(0, &[]).is_ok());
    let all: Vec<usize> = (0..65_536).collect();
    assert_eq!(map.open(7, &all).err(), Some(8));
    assert_eq!(map.open(0, &all).err(), Some(5));
    let falling: Vec<usize> = all.into_iter().rev().collect();
    assert_eq!(map.open(7, &falling).err(), Some(7));
}

/// Beside 300 a depot waits for 5, 5 opens as a yard beside 300, and a second notice for it is
/// left; frames of both widths.
#[test]
fn both_widths_in_a_batch() {
    let mut map = Map::of_shape(&WIDE);
    assert_eq!(map.open_batch(b"11012C0000\n").err(), Some(12));
    assert!(map.open(300, &[]).is_ok());
    let lines = b"11000700010005\n1400050001012C\n040500\n01080107\n1100090001FFFF\n";
    let batch = map.open_batch(lines).unwrap_or_else(|refusal| panic!("refused with {refusal}"));
    assert_eq!(batch.left, [2, 4]);
    assert_eq!((&map.network.open, &map.network.yards), (&BTreeSet::from([5, 7, 8, 300]), &BTreeSet::from([5])));
    // the rows in the order in which they were accepted
    assert_eq!([0, 1, 2, 3].map(|row| map.rows.code(row)), [300, 5, 7, 8]);
    assert_eq!(map.figures.chain, 3);
}

/// With so few rows left a batch opens as many as there are, the first that can be; which they are
/// depends on the order, how many does not.
#[test]
fn a_batch_that_fills_the_map() {
    for room in 0..4 {
        let mut map = Map::of_shape(&WIDE);
        assert!(map.open(0, &[]).is_ok());
        for code in 1..512 - room {
            assert!(map.open(code, &[0]).is_ok());
        }
        // the first waits for the second; the third is alone
        let lines: [&[u8]; 3] = [b"11100000011001\n", b"11100100010000\n", b"11100200010000\n"];
        for order in [[0, 1, 2], [0, 2, 1], [1, 0, 2], [1, 2, 0], [2, 0, 1], [2, 1, 0]] {
            let mut filled = map.clone();
            let batch =
                filled.open_batch(&order.map(|i: usize| lines[i]).concat()).unwrap_or_else(|refusal| panic!("refused with {refusal}"));
            assert_eq!((filled.network.open.len(), batch.left.len()), ((512 - room + 3).min(512), 3 - room.min(3)), "{order:?}");
        }
    }
}

#[test]
fn sentences_and_reports() {
    let told = narrate::output_of(&WIDE, [PATH, "12012C0007\n1200070007\n"].concat().as_bytes());
    let lines: Vec<&str> = told.lines().collect();
    assert_eq!(lines[0], "Opening depot 300 kept the chain: 1 open, chain 0, pairs 0, searches 1.");
    assert_eq!(lines[3], "Linking 300 and 7 shrank the chain: 3 open, chain 1, pairs 3, searches 3.");
    assert_eq!(lines[4], "Linking 7 and 7 was refused with 13: 3 open, chain 1, pairs 3, searches 0.");
    // 1 + 1 + 2 over three pairs
    assert_eq!(survey::output_of(&WIDE, &[PATH, "11FFFF0000\n"]), "4 3 1 1\nR15\n4 3 1 1\n");
}
