//! Faults one by one, on a grid of 100 depots of the codes 0 to 99: each call is held to the refusal that has to come, and to changing nothing.
use crate::both::{empty, feed, finish, link, nearest, open, open_batch, open_yard, reckon, search, summary, within};
use crate::expected::{bits_of_table, store_map, CHAIN, COUNT, NUMBER, PLACES, TABLE, YARDS};
use crate::inputs::{Dice, Growth, Shape};
use crate::lent::Lent;
use crate::maps::{any_memory, flip};
use crate::plain::{Figures, Map};
use crate::tally::Tally;

fn grid() -> Lent {
    let mut dice = Dice::new(16_000_000);
    let network = Growth::spread(&mut dice, Shape::Grid, 0, 0).network(&mut dice, 100);
    let mut m = any_memory(&mut dice);
    store_map(&mut m, &Map::true_of(network));
    (m.held, m.lines) = (0, 0);
    m
}

/// The line of the notice 200 beside 0.
const LINE: &[u8] = b"01C80100\n";

/// What search, reckoning, opening, link, batch and the two calls of a stream answer on this memory: from depot 0, of the notice 200 beside 0, of 0 and 99, of
/// no input.
fn answers(m: &Lent) -> [u8; 7] {
    let mut m = m.clone();
    let searched = search(&mut m.clone(), 0);
    let reckoned = reckon(&mut m.clone());
    let opened = open(&mut m.clone(), 200, &[0]);
    let linked = link(&mut m.clone(), 0, 99);
    let batched = open_batch(&mut m.clone(), LINE);
    [searched, reckoned, opened, linked, batched, feed(&mut m.clone(), b""), finish(&mut m)]
}

#[test]
fn nothing_is_wrong_with_the_grid() {
    assert_eq!(answers(&grid()), [0, 0, b'K', b'S', 0, 0, 0]);
}

/// Each of the 65,536 bits of the link table alone: a link one way round, to itself, at a closed code. One call in turn for each.
#[test]
fn each_single_link_bit() {
    let mut m = grid();
    for bit in 0..65_536 {
        flip(&mut m.links.data, bit / 256, bit % 256);
        let answer = match (bit + bit / 256) % 6 {
            0 => search(&mut m, 0),
            1 => reckon(&mut m),
            2 => open(&mut m, 200, &[0]),
            3 => open_batch(&mut m, LINE),
            4 => link(&mut m, 0, 99),
            _ => feed(&mut m, LINE),
        };
        assert_eq!(answer, 2, "bit {} of row {}", bit % 256, bit / 256);
        flip(&mut m.links.data, bit / 256, bit % 256);
    }
}

/// Bits all over, each with every call: each code's own, and those 64, 128 and 192 places further.
#[test]
fn some_single_link_bits_with_every_call() {
    let mut m = grid();
    for i in 0..TABLE {
        let (u, v) = (i % 256, (i + 64 * (i / 256)) % 256);
        flip(&mut m.links.data, u, v);
        assert_eq!(answers(&m), [2; 7], "bit {v} of row {u}");
        flip(&mut m.links.data, u, v);
    }
}

/// A link of every code with a closed one, both ways round.
#[test]
fn links_to_closed_codes() {
    let mut m = grid();
    for u in 0..256 {
        let v = 100 + (u + 57) % 156;
        for (one, other) in [(u, v), (v, u)] {
            flip(&mut m.links.data, one, other);
        }
        assert_eq!(answers(&m), [2; 7], "{u} and {v}");
        for (one, other) in [(u, v), (v, u)] {
            flip(&mut m.links.data, one, other);
        }
    }
}

#[test]
fn every_number_open_but_the_right_one() {
    let mut m = grid();
    for number in (0..300).chain([65_536 + 100, (1 << 32) + 100, u64::MAX]) {
        m.record.data[NUMBER] = number;
        let right = if number == 100 { [0, 0, b'K', b'S', 0, 0, 0] } else { [2; 7] };
        assert_eq!(answers(&m), right, "{number} open");
    }
}

/// Each code of the open set turned over. With the number open: an open one then has links though closed, a closed one is open without any.
#[test]
fn each_code_of_the_open_set() {
    for v in 0..256 {
        let mut m = grid();
        m.record.data[v / 64] ^= 1 << (v % 64);
        assert_eq!(answers(&m), [2; 7], "code {v}, not counted");
        m.record.data[NUMBER] = if v < 100 { 99 } else { 101 };
        assert_eq!(answers(&m), [if v < 100 { 2 } else { 3 }; 7], "code {v}");
    }
}

/// Each yard of the yard set alone: a closed one makes the links unsound for every call; an open one the figures, if a pair stands at it.
#[test]
fn each_code_of_the_yard_set() {
    for v in 0..256 {
        let mut m = grid();
        let has_pair = bits_of_table(&m.pairs.data).iter().any(|&(one, other)| one == v || other == v);
        m.record.data[YARDS + v / 64] ^= 1 << (v % 64);
        let of_links = [search(&mut m.clone(), 0), within(&mut m.clone(), 0, 1), nearest(&mut m.clone(), 0, &[0]), summary(&mut m.clone())];
        assert_eq!(of_links, [if v < 100 { 0 } else { 2 }; 4], "yard {v}");
        let opened = open_yard(&mut m.clone(), 200, &[0]);
        for answer in [&answers(&m)[2..], &[opened]].concat() {
            assert_eq!(answer == 2, v >= 100 || has_pair, "yard {v}");
        }
        // a reckoning writes figures without the yard
        assert_eq!((reckon(&mut m), feed(&mut m, b"")), if v < 100 { (0, 0) } else { (2, 2) });
    }
}

/// A yard on the empty map is closed, whatever its code.
#[test]
fn yards_of_the_empty_map() {
    for v in 0..256 {
        let mut m = grid();
        assert_eq!(empty(&mut m), 0);
        m.record.data[YARDS + v / 64] = 1 << (v % 64);
        assert_eq!(answers(&m), [2; 7], "yard {v}");
        assert_eq!((open(&mut m, v as u8, &[]), open_yard(&mut m, v as u8, &[]), summary(&mut m)), (2, 2, 2));
    }
}

/// A single pair, whose count is right, one less and one more: rising, falling, level, and with closed ends.
#[test]
fn single_pairs() {
    let mut tally = Tally::new();
    for i in 0..512 {
        let (u, v) = (i % 128, 32 * (i / 128) + i % 32);
        for count in 0..3 {
            let mut m = grid();
            m.pairs.data[..TABLE].fill(0);
            flip(&mut m.pairs.data, u, v);
            (m.record.data[CHAIN], m.record.data[COUNT]) = (3, count);
            let answer = feed(&mut m.clone(), b"");
            assert_eq!(answer, if u < v && v < 100 && count == 1 { 0 } else { 2 }, "pair {u}, {v}, counted {count}");
            let opened = open(&mut m.clone(), 200, &[0]);
            assert_eq!(opened == 2, answer == 2);
            assert_eq!(link(&mut m.clone(), 0, 99) == 2, answer == 2);
            assert_eq!(open_batch(&mut m.clone(), LINE), answer);
            assert_eq!((search(&mut m.clone(), 0), reckon(&mut m)), (0, 0));
            tally.count(answer);
        }
    }
    tally.assert_all(&[0, 2], 100);
}

/// Sound up to 255, on the empty map and on the grid.
#[test]
fn every_chain() {
    for chain in (0..300).chain([65_536, 65_536 + 3, 1 << 32, u64::MAX]) {
        let mut m = grid();
        m.record.data[CHAIN] = chain;
        assert_eq!(feed(&mut m.clone(), b""), if chain < PLACES as u64 { 0 } else { 2 }, "chain {chain}");
        assert_eq!(open(&mut m.clone(), 200, &[0]) == 2, chain > 255);
        assert_eq!(link(&mut m.clone(), 0, 99) == 2, chain > 255);
        assert_eq!(open_batch(&mut m.clone(), LINE), if chain < PLACES as u64 { 0 } else { 2 });
        assert_eq!((search(&mut m.clone(), 0), reckon(&mut m.clone())), (0, 0));
        assert_eq!(empty(&mut m), 0);
        m.record.data[CHAIN] = chain;
        assert_eq!(open_batch(&mut m, LINE), if chain < PLACES as u64 { 12 } else { 2 });
        assert_eq!(link(&mut m, 0, 0), if chain < PLACES as u64 { 4 } else { 2 });
        let first = [b'K', b'S', 2][usize::from(chain > 0) + usize::from(chain > 255)];
        assert_eq!(open(&mut m, 7, &[]), first, "the first opening, chain {chain}");
    }
}

/// One fault more each time, and the lower number comes.
#[test]
fn the_first_refusal_of_several() {
    let mut m = grid();
    // the neighbour 201 is closed; it stands before 0; there is none; the code is open
    assert_eq!(open(&mut m, 200, &[0, 201]), 8);
    assert_eq!(open(&mut m, 200, &[201, 0]), 7);
    assert_eq!(open(&mut m, 200, &[]), 6);
    assert_eq!((open(&mut m, 0, &[]), open(&mut m, 0, &[201, 0]), open(&mut m, 0, &[0])), (5, 5, 5));
    // and so of a yard
    assert_eq!((open_yard(&mut m, 200, &[0, 201]), open_yard(&mut m, 200, &[201, 0]), open_yard(&mut m, 200, &[])), (8, 7, 6));
    assert_eq!((open_yard(&mut m, 0, &[]), open_yard(&mut m, 0, &[201, 0]), open_yard(&mut m, 200, &[200])), (5, 5, 8));
    assert_eq!((search(&mut m, 200), reckon(&mut m.clone())), (4, 0));
    // a link that is there; of a depot with itself; with a closed one, and of a closed one with itself
    assert_eq!((link(&mut m, 0, 1), link(&mut m, 1, 1), link(&mut m, 200, 1), link(&mut m, 200, 200)), (14, 13, 4, 4));
    // one line of a batch is garbled; there are 65 of them
    assert_eq!((open_batch(&mut m, b"\n"), open_batch(&mut m, &[b'\n'; 65])), (9, 11));
    // depot 150 is open without a link
    m.record.data[2] |= 1 << (150 - 128);
    m.record.data[NUMBER] = 101;
    assert_eq!((open(&mut m, 0, &[]), search(&mut m, 200), reckon(&mut m), open_batch(&mut m, &[b'\n'; 65])), (3, 3, 3, 3));
    assert_eq!((link(&mut m, 0, 1), link(&mut m, 1, 1), link(&mut m, 200, 200), open_yard(&mut m, 0, &[])), (3, 3, 3, 3));
    // the pair count is wrong: only who looks at figures sees it
    let mut figures = m.clone();
    figures.record.data[COUNT] += 1;
    assert_eq!((open(&mut figures, 0, &[]), search(&mut figures, 200), reckon(&mut figures)), (2, 3, 3));
    assert_eq!((feed(&mut figures, b""), finish(&mut figures), open_batch(&mut figures, &[b'\n'; 65])), (2, 2, 2));
    assert_eq!((link(&mut figures, 0, 1), link(&mut figures, 1, 1), link(&mut figures, 200, 200)), (2, 2, 2));
    // there is a closed yard
    let mut yard = m.clone();
    yard.record.data[YARDS + 3] = 1 << 63;
    assert_eq!((open(&mut yard, 0, &[]), open_yard(&mut yard, 0, &[]), search(&mut yard, 200), reckon(&mut yard)), (2, 2, 2, 2));
    // so is the number open
    m.record.data[NUMBER] = 100;
    assert_eq!((open(&mut m, 0, &[]), search(&mut m, 200), reckon(&mut m), open_batch(&mut m, &[b'\n'; 65])), (2, 2, 2, 2));
    assert_eq!((link(&mut m, 0, 1), link(&mut m, 1, 1), link(&mut m, 200, 200)), (2, 2, 2));
    m.set_lent(7, 3);
    assert_eq!(open_yard(&mut m, 0, &[]), 1);
    assert_eq!((open(&mut m, 0, &[]), search(&mut m, 200), reckon(&mut m), open_batch(&mut m, &[b'\n'; 65])), (1, 1, 1, 1));
    assert_eq!((link(&mut m, 0, 1), link(&mut m, 1, 1), link(&mut m, 200, 200)), (1, 1, 1));
}

/// A record and a pair table of another map: sound links, and figures that name closed codes.
#[test]
fn figures_of_another_map() {
    let mut dice = Dice::new(16_500_000);
    let other = Growth::spread(&mut dice, Shape::Path, 0, 90).network(&mut dice, 100).figures();
    let mut m = grid();
    let network = crate::expected::network(&m);
    store_map(&mut m, &Map::of(other, network.clone()));
    assert_eq!(answers(&m), [0, 0, 2, 2, 2, 2, 2]);
    store_map(&mut m, &Map::of(Figures::default(), network));
    assert_eq!(answers(&m), [0, 0, b'G', b'K', 0, 0, 0]);
}
