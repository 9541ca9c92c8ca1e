//! The worked cases of docs/RULES.md, by their numbers; the plain implementation is held to them as well.
use crate::both::{empty, feed, finish, link, nearest, open, read, reckon, report, search, summary, within, write};
use crate::expected::{bits_of_table, CHAIN, COUNT, NUMBER, PLACES, TABLE};
use crate::inputs::Dice;
use crate::lent::{Buffer, Lent};
use crate::maps::any_memory;
use crate::plain::lines::Fields;
use crate::raw;
use crate::truth::assert_reckoned;

fn emptied() -> Lent {
    let mut m = any_memory(&mut Dice::new(1));
    assert_eq!(empty(&mut m), 0);
    (m.lines, m.held) = (0, 0);
    m
}

/// depots, chain, pair count
fn figures(m: &Lent) -> (u64, u64, u64) {
    (m.record.data[NUMBER], m.record.data[CHAIN], m.record.data[COUNT])
}

fn pairs(m: &Lent) -> Vec<(usize, usize)> {
    bits_of_table(&m.pairs.data).into_iter().collect()
}

/// The number that the header defines as this name.
fn defined(name: &str) -> u32 {
    let header = include_str!("../../../include/zorpedi.h");
    let begin = format!("#define {name} ");
    let text = header.lines().find_map(|line| line.strip_prefix(&begin)).expect("the header defines it");
    text.parse().expect("a number")
}

/// No number of the rules, but held all the same: header, archive and Rust crate are of one version.
#[test]
fn the_version() {
    let (major, minor) = (defined("ZORPEDI_VERSION_MAJOR"), defined("ZORPEDI_VERSION_MINOR"));
    assert_eq!(raw::version(), 1000 * major + minor);
    assert_eq!((zorpedi::Version::WANTED.major, zorpedi::Version::WANTED.minor), (major, minor));
}

#[test]
fn the_seven_lines() {
    let input = "010000\n01010100\n01020101\n01030102\n01040103\n010503000204\n010503000204\n";
    let output = "1 K 1 0 0 1\n2 G 2 1 1 1\n3 G 3 2 1 1\n4 G 4 3 1 1\n5 G 5 4 1 1\n6 S 6 3 2 6\n7 R5 6 3 2 0\n";
    let mut m = emptied();
    m.out = Buffer::new(vec![b'.'; output.len() + 48]);
    assert_eq!(feed(&mut m, input.as_bytes()), 0);
    assert_eq!((m.used, m.written, m.lines, m.held), (input.len(), output.len(), 7, 0));
    assert_eq!(String::from_utf8_lossy(&m.out.data[..m.written]), output);
    assert_eq!(pairs(&m), [(0, 3), (1, 4)]);
    assert_eq!(finish(&mut m), 0);
    assert_eq!((m.written, m.lines), (0, 7));
}

/// Each of the seven lines reads, is written as the same line again, and has the report that its figures give.
#[test]
fn the_seven_lines_one_by_one() {
    let lines: [(&[u8], u8, [u16; 4], &str); 7] = [
        (b"010000\n", b'K', [1, 0, 0, 1], "1 K 1 0 0 1\n"),
        (b"01010100\n", b'G', [2, 1, 1, 1], "2 G 2 1 1 1\n"),
        (b"01020101\n", b'G', [3, 2, 1, 1], "3 G 3 2 1 1\n"),
        (b"01030102\n", b'G', [4, 3, 1, 1], "4 G 4 3 1 1\n"),
        (b"01040103\n", b'G', [5, 4, 1, 1], "5 G 5 4 1 1\n"),
        (b"010503000204\n", b'S', [6, 3, 2, 6], "6 S 6 3 2 6\n"),
        (b"010503000204\n", 5, [6, 3, 2, 0], "7 R5 6 3 2 0\n"),
    ];
    let mut m = emptied();
    for (number, (line, answer, [depots, chain, pairs, searches], text)) in (1..).zip(lines) {
        assert_eq!((read(&mut m, line), m.used), (0, line.len()));
        let frame = m.frame.data[..m.length].to_vec();
        assert_eq!(write(&mut m, &frame), 0);
        assert_eq!(&m.line.data[..m.length], line);
        assert_eq!(open(&mut m, frame[1], &frame[3..]), answer);
        assert_eq!(report(&mut m, Fields { number, answer, depots, chain, pairs: pairs.into(), searches }), 0);
        assert_eq!(m.out.data[..m.length], *text.as_bytes());
    }
}

/// The path of this many depots, from 0 on.
fn path(size: u8) -> Lent {
    let mut m = emptied();
    assert_eq!(open(&mut m, 0, &[]), b'K');
    for code in 1..size {
        assert_eq!(open(&mut m, code, &[code - 1]), b'G');
    }
    m
}

fn path_of_seven() -> Lent {
    path(7)
}

/// Rule 15.7, both links on the path, and the second on the ring too: it keeps the chain there.
#[test]
fn links_on_the_path_of_five() {
    let mut ring = path(5);
    assert_eq!((figures(&ring), pairs(&ring)), ((5, 4, 1), vec![(0, 4)]));
    assert_eq!((link(&mut ring, 0, 4), ring.searches), (b'S', 5));
    assert_eq!((figures(&ring), pairs(&ring)), ((5, 2, 5), vec![(0, 2), (0, 3), (1, 3), (1, 4), (2, 4)]));
    assert_reckoned(&ring);

    let mut path = path(5);
    assert_eq!((link(&mut path, 1, 3), figures(&path), pairs(&path)), (b'S', (5, 3, 1), vec![(0, 4)]));
    assert_reckoned(&path);

    assert_eq!((link(&mut ring, 1, 3), ring.searches, figures(&ring)), (b'K', 2, (5, 2, 4)));
}

#[test]
fn the_path_of_seven() {
    let mut m = path_of_seven();
    assert_eq!(reckon(&mut m), 0);
    assert_eq!((figures(&m), pairs(&m), m.searches), ((7, 6, 1), vec![(0, 6)], 6));
    assert_eq!(m.skips.data[..8], [256, 256, 256, 256, 3, 256, 256, 257]);
    assert_eq!(m.bounds.data[..8], [6, 5, 4, 3, 4, 5, 6, 65_535]);
    // the last reference is 6
    assert_eq!(m.hops.data[..8], [6, 5, 4, 3, 2, 1, 0, 65_535]);
    assert_eq!((m.even.data[0], m.odd.data[0]), (1, 2));
}

/// Rule 13.3, and the start itself.
#[test]
fn near_depots_on_the_path_of_seven() {
    let mut m = path_of_seven();
    for (k, codes) in [(0, vec![3]), (1, vec![2, 3, 4]), (2, vec![1, 2, 3, 4, 5]), (65_535, (0..7).collect()), (u32::MAX, (0..7).collect())]
    {
        assert_eq!(within(&mut m, 3, k), 0);
        assert_eq!(m.codes.data[..usize::from(m.count)], codes, "within {k}");
    }
    for (code, list, found, distance) in
        [(3, &[9, 5, 1, 0, 5][..], 1, 2), (3, &[0, 1, 5], 1, 2), (6, &[0, 4, 2, 200], 4, 2), (6, &[5, 6, 5], 6, 0), (0, &[6], 6, 6)]
    {
        assert_eq!((nearest(&mut m, code, list), m.found, m.distance), (0, found, distance), "of {list:?} from {code}");
    }
    assert_eq!((nearest(&mut m, 3, &[9, 200]), nearest(&mut m, 3, &[]), nearest(&mut m, 9, &[])), (10, 10, 4));
}

/// 6 pairs are 1 apart, 5 are 2 apart, 4 are 3, 3 are 4, 2 are 5 and 1 is 6: 56 over 21 pairs. The search is from 6 last.
#[test]
fn the_summary_of_the_path_of_seven() {
    let mut m = path_of_seven();
    assert_eq!(summary(&mut m), 0);
    assert_eq!((m.sum, m.pair_number, m.quotient, m.remainder), (56, 21, 2, 14));
    assert_eq!(m.counts.data[..8], [0, 0, 0, 1, 2, 2, 2, 0]);
    assert!(m.counts.data[8..PLACES].iter().all(|&n| n == 0));
    assert_eq!(m.hops.data[..8], [6, 5, 4, 3, 2, 1, 0, 65_535]);
    assert_eq!((m.even.data[0], m.odd.data[0]), (1, 2));
}

/// A reckoning does not look at the figures before it: true, false, out of range, on the path and on the empty and the single map.
#[test]
fn figures_before_a_reckoning() {
    let mut single = emptied();
    open(&mut single, 0, &[]);
    for (mut m, right, searches) in [(emptied(), (0, 0, 0), 0), (single, (1, 0, 0), 1), (path_of_seven(), (7, 6, 1), 6)] {
        for (chain, count) in [(right.1, right.2), (3, 2), (5, 2), (65_535, u32::MAX.into()), (u64::MAX, u64::MAX)] {
            (m.record.data[CHAIN], m.record.data[COUNT]) = (chain, count);
            m.pairs.data[..TABLE].fill(count);
            assert_eq!((reckon(&mut m), figures(&m), m.searches), (0, right, searches));
            assert_reckoned(&m);
        }
    }
}

#[test]
fn the_empty_and_the_single_map() {
    let mut m = emptied();
    let hops = m.hops.clone();
    assert_eq!(reckon(&mut m), 0);
    assert_eq!((figures(&m), m.searches), ((0, 0, 0), 0));
    assert_eq!(m.hops, hops);
    assert!(m.skips.data[..PLACES].iter().all(|&mark| mark == 257) && m.bounds.data[..PLACES].iter().all(|&bound| bound == 65_535));
    for code in 0..=255 {
        assert_eq!(search(&mut m, code), 4);
    }
    assert_eq!(open(&mut m, 77, &[]), b'K');
    assert_eq!((figures(&m), m.searches), ((1, 0, 0), 1));
    assert_eq!(search(&mut m, 77), 0);
    assert_eq!((m.eccentricity, m.even.data[1], m.odd.data[1]), (0, 1 << 13, 0));
    assert_eq!(reckon(&mut m), 0);
    assert_eq!((figures(&m), m.searches), ((1, 0, 0), 1));
}

#[test]
fn the_greatest_values() {
    let mut path = emptied();
    for code in 0..=255u8 {
        let beside = if code == 0 { vec![] } else { vec![code - 1] };
        open(&mut path, code, &beside);
    }
    assert_eq!((figures(&path), pairs(&path)), ((256, 255, 1), vec![(0, 255)]));
    assert_eq!(reckon(&mut path), 0);
    assert_eq!((figures(&path), pairs(&path)), ((256, 255, 1), vec![(0, 255)]));

    let mut whole = emptied();
    for code in 0..=255u8 {
        let all: Vec<u8> = (0..code).collect();
        open(&mut whole, code, &all);
    }
    assert_eq!(figures(&whole), (256, 1, 32_640));
}

/// False but sound figures, as decision 8 of docs/DECISIONS.md has them.
#[test]
fn false_figures() {
    // an empty map with a chain: shrank, chain 0, 1 search
    let mut m = emptied();
    m.record.data[CHAIN] = 9;
    assert_eq!(open(&mut m, 3, &[]), b'S');
    assert_eq!((figures(&m), m.searches), ((1, 0, 0), 1));
    // a chain that no search reaches stays, without pairs: depots 0 and 1, chain 9, pair (0,1); 2 opens beside both
    let mut m = emptied();
    open(&mut m, 0, &[]);
    open(&mut m, 1, &[0]);
    m.record.data[CHAIN] = 9;
    assert_eq!(open(&mut m, 2, &[0, 1]), b'S');
    assert_eq!((figures(&m), pairs(&m)), ((3, 2, 0), vec![]));
    // chain 0 and a false pair, with a depot open: grew
    m.record.data[CHAIN] = 0;
    m.record.data[COUNT] = 1;
    m.pairs.data[0] = 4;
    assert_eq!(open(&mut m, 9, &[2]), b'G');
    assert_eq!(pairs(&m), [(0, 9), (1, 9)]);
}
