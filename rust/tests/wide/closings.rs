//! Closings: what is left is the network of the depots that stay and of their links, by code; the
//! last row fills the gap.
use crate::inputs::{Dice, Growth, SHAPES};
use crate::plain::lines::Notice;
use crate::plain::network::{Figures, Pairs};
use crate::plain::opening::{reckoning, Opened};
use crate::plain::stream::output_of;
use crate::plain::words::bits_of_table;
use crate::plain::{narrate, Map, CLOSING, WIDE};
use crate::steps::{assert_step, opening, some_codes, yard_opening, Held};
use std::collections::BTreeSet;

/// The plain list: the codes that are open, the yards among them, and the links, each once.
#[derive(Clone, Default, PartialEq, Debug)]
struct List {
    open: BTreeSet<usize>,
    yards: BTreeSet<usize>,
    links: BTreeSet<(usize, usize)>,
}

impl List {
    fn of(map: &Map) -> List {
        let network = &map.network;
        List { open: network.open.clone(), yards: network.yards.clone(), links: network.bits().filter(|(u, v)| u < v).collect() }
    }

    fn close(&mut self, code: usize) {
        self.open.remove(&code);
        self.yards.remove(&code);
        self.links.retain(|&(u, v)| u != code && v != code);
    }

    /// The lowest code of the part in which each code lies: one name for all of a part.
    fn parts(&self) -> BTreeSet<usize> {
        let mut names: Vec<(usize, usize)> = self.open.iter().map(|&code| (code, code)).collect();
        for &(u, v) in &self.links {
            let name = |code: usize| names.iter().find(|(other, _)| *other == code).expect("the end is open").1;
            let (a, b) = (name(u), name(v));
            names.iter_mut().filter(|(_, name)| *name == a.max(b)).for_each(|(_, name)| *name = a.min(b));
        }
        names.into_iter().map(|(_, name)| name).collect()
    }

    /// 4 and 17 of a closing, 0 for none.
    fn refusal(&self, code: usize) -> u8 {
        let mut rest = self.clone();
        rest.close(code);
        match () {
            () if !self.open.contains(&code) => 4,
            () if rest.parts().len() > 1 => 17,
            () => 0,
        }
    }

    /// A map of these sets, whose depots opened in another order.
    fn fresh(&self) -> Map {
        let mut map = Map::of_shape(&CLOSING);
        map.network.open = self.open.clone();
        map.network.yards = self.yards.clone();
        self.links.iter().for_each(|&(u, v)| map.network.link(u, v));
        self.open.iter().rev().for_each(|&code| map.rows.open(code));
        map.figures = map.network.figures();
        map
    }
}

/// One closing, refused or not, held to the list, to a fresh map of what is left, and to the rules
/// by rows.
fn close(held: &mut Held, code: usize) -> Result<Opened, u8> {
    let (mut list, before) = (List::of(&held.map), held.clone());
    let refusal = list.refusal(code);
    let opened = held.try_take(&Notice::Closing(code));
    assert_eq!(opened.as_ref().err().copied().unwrap_or(0), refusal, "closing {code}");
    let opened = opened?;
    list.close(code);
    assert_eq!(List::of(&held.map), list, "what is left open");
    assert_step(&before.memory, held, &Notice::Closing(code), &opened);
    // a map of the same depots in other rows
    let fresh = list.fresh();
    let again = reckoning(&fresh.network);
    assert_eq!((&held.map.figures, &fresh.figures), (&again.figures, &again.figures));
    assert_eq!((&opened.work.references, &opened.work.status), (&again.references, &again.status));
    // the rows: the last one, and no other, has moved into the gap
    let number = before.memory.number as usize;
    let gap = before.map.rows.row(code);
    let mut codes = before.memory.codes.clone();
    (codes[gap], codes[number - 1]) = (codes[number - 1], 0);
    if gap == number - 1 {
        codes[gap] = 0;
    }
    assert_eq!(held.memory.codes, codes);
    Ok(opened)
}

/// Rules out links of the closed depot that stay, a column or a yard bit left behind, a moved row
/// that loses a neighbour, a connection that is asked with the depot still there, figures that were
/// not reckoned anew.
#[test]
fn closings_by_chance() {
    let (mut letters, mut cut, mut absent) = ([0; 3], 0, 0);
    for seed in 0..150 {
        let mut dice = Dice::new(64_000_000 + seed);
        let size = 3 + dice.below(27);
        let codes = some_codes(&mut dice, 60);
        let shape = dice.pick(&SHAPES);
        let mut growth = Growth::in_order(&mut dice, shape, codes);
        if dice.once_in(2) {
            growth = growth.with_yards(&mut dice);
        }
        let mut held = Held::empty();
        for i in 0..size {
            let (code, neighbours) = (growth.order[i], growth.codes_beside(&mut dice, i, size));
            held.take(&if growth.yards.contains(&code) { yard_opening(code, &neighbours) } else { opening(code, &neighbours) });
        }
        for _ in 0..24 {
            let open: Vec<usize> = held.map.network.open.iter().copied().collect();
            // an opening again, of a code that was open before or not; else a closing
            if open.is_empty() || dice.once_in(3) {
                let code = dice.pick(&growth.order);
                let beside = if open.is_empty() { vec![] } else { vec![dice.pick(&open)] };
                let (before, notice) = (held.memory.clone(), opening(code, &beside));
                if let Ok(opened) = held.try_take(&notice) {
                    assert_step(&before, &held, &notice, &opened);
                }
                continue;
            }
            match close(&mut held, if dice.once_in(8) { dice.pick(&growth.order) } else { dice.pick(&open) }) {
                Ok(opened) => letters[b"GKS".iter().position(|&l| l == opened.letter).expect("a letter")] += 1,
                Err(17) => cut += 1,
                Err(_) => absent += 1,
            }
        }
    }
    assert!(letters.iter().all(|&n| n >= 20) && cut >= 200 && absent >= 50, "{letters:?}, {cut} cut, {absent} absent");
}

/// Depots in a ring, in rows 0 to 4: the codes are 40, 10, 30, 20 and 50.
fn ring() -> Held {
    let mut held = Held::empty();
    for (code, beside) in [(40, &[][..]), (10, &[40]), (30, &[10]), (20, &[30]), (50, &[20, 40])] {
        held.take(&opening(code, beside));
    }
    assert_eq!(held.map.figures.chain, 2);
    held
}

/// A ring that opens: gap and last row are linked. Left is the path 10-30-20-50; by degree and then
/// by code 20 is searched first (2: candidate), then 30 (2), then 10 (3) and 50. Row 0 is 50's now,
/// beside row 3.
#[test]
fn a_ring_that_opens() {
    let mut held = ring();
    let opened = close(&mut held, 40).unwrap_or_else(|refusal| panic!("refused with {refusal}"));
    assert_eq!((opened.letter, opened.work.references.as_slice()), (b'G', &[20, 30, 10, 50][..]));
    assert_eq!(held.memory.codes[..6], [50, 10, 30, 20, 0, 0]);
    assert_eq!((held.memory.open[0], held.memory.number, held.memory.chain), (0b1111, 4, 3));
    assert_eq!(bits_of_table(8, &held.memory.links), BTreeSet::from([(0, 3), (1, 2), (2, 1), (2, 3), (3, 0), (3, 2)]));
    assert_eq!(held.pairs(), [(0, 1)]);
    let (marks, searched) = held.tables(&opened);
    assert_eq!(marks.skips[..5], [65_534, 65_534, 65_534, 65_534, 65_533]);
    assert_eq!(marks.bounds[..5], [3, 3, 2, 2, 65_535]);
    // from 50, the last
    assert_eq!(searched.expect("a search").hops[..5], [0, 3, 2, 1, 65_535]);
    // the middle of the path cuts, and the freed row is the next one's
    assert_eq!(close(&mut held, 30).err(), Some(17));
    held.take(&opening(40, &[50]));
    assert_eq!(held.memory.codes[..6], [50, 10, 30, 20, 40, 0]);
}

/// Nothing moves where the last row closes.
#[test]
fn the_last_row() {
    let mut held = ring();
    let opened = close(&mut held, 50).unwrap_or_else(|refusal| panic!("refused with {refusal}"));
    assert_eq!((opened.letter, &held.memory.codes[..5]), (b'G', &[40, 10, 30, 20, 0][..]));
    assert_eq!(held.pairs(), [(0, 3)]);
}

/// The yard in the last row moves with its bit; a yard that closes leaves none.
#[test]
fn yards_move() {
    let mut held = Held::empty();
    held.take(&opening(7, &[]));
    held.take(&opening(5, &[7]));
    held.take(&yard_opening(300, &[5]));
    close(&mut held, 7).unwrap_or_else(|refusal| panic!("refused with {refusal}"));
    assert_eq!((held.memory.codes[..3].to_vec(), held.memory.open[0], held.memory.yards[0]), (vec![300, 5, 0], 0b11, 0b01));
    close(&mut held, 300).unwrap_or_else(|refusal| panic!("refused with {refusal}"));
    assert_eq!((held.memory.codes[..3].to_vec(), held.memory.open[0], held.memory.yards[0]), (vec![5, 0, 0], 0b01, 0));
}

/// No search is needed, so that hop table and layer rows keep what they have; every word is zero
/// again. The letter goes by the stored chain, true or false.
#[test]
fn the_only_depot() {
    for (chain, letter) in [(0, b'K'), (4, b'S')] {
        let mut held = Held::empty();
        held.take(&opening(65_535, &[]));
        held.map.figures.chain = chain;
        held.memory.store(&held.map);
        let opened = held.take(&Notice::Closing(65_535));
        assert_eq!((opened.letter, opened.work.references.len()), (letter, 0));
        assert_eq!(held.memory, Held::empty().memory);
        let (marks, searched) = held.tables(&opened);
        assert!(searched.is_none() && marks.bounds.iter().all(|&b| b == 65_535) && marks.skips.iter().all(|&s| s == 65_533));
        assert_eq!(held.try_take(&Notice::Closing(65_535)).err(), Some(4));
    }
}

/// The letter compares with what is stored, not with what was true.
#[test]
fn false_figures() {
    for (chain, letter) in [(2, b'G'), (3, b'K'), (511, b'S')] {
        let mut held = ring();
        held.map.figures = Figures { chain, pairs: Pairs::from([(10, 50)]) };
        let opened = held.take(&Notice::Closing(40));
        assert_eq!((opened.letter, &held.map.figures), (letter, &Figures { chain: 3, pairs: Pairs::from([(10, 50)]) }));
    }
}

/// Two histories that leave one network by code, with one more depot opened and closed in the
/// first: all is equal by code, the rows are not.
#[test]
fn equal_by_code() {
    let mut one = Held::empty();
    let mut other = Held::empty();
    for (code, beside) in [(9, &[][..]), (4, &[9]), (600, &[4, 9]), (2, &[600])] {
        one.take(&opening(code, beside));
    }
    one.take(&Notice::Closing(9));
    for (code, beside) in [(4, &[][..]), (600, &[4]), (2, &[600])] {
        other.take(&opening(code, beside));
    }
    assert_eq!((&one.map.network, &one.map.figures), (&other.map.network, &other.map.figures));
    assert_eq!((&one.memory.codes[..4], &other.memory.codes[..4]), (&[2, 4, 600, 0][..], &[4, 600, 2, 0][..]));
    assert_ne!(one.memory.links, other.memory.links);
}

/// Lines of both widths: 6 cuts 5 from 7, 8 is closed, a byte is missing; then 5, 7 and 6 close,
/// the last leaving the empty map, and 6 opens again.
const DAY: &str = "010500\n11000600010005\n01070106\n0306\n0308\n1300\n130005\n0307\n130006\n0306\n010600\n";

#[test]
fn closings_in_a_stream() {
    let reports =
        "1 K 1 0 0 1\n2 G 2 1 1 1\n3 G 3 2 1 1\n4 R17 3 2 1 0\n5 R4 3 2 1 0\n6 R9 3 2 1 0\n7 S 2 1 1 2\n8 S 1 0 0 1\n9 K 0 0 0 0\n\
        10 R4 0 0 0 0\n11 K 1 0 0 1\n";
    assert_eq!(output_of(&CLOSING, DAY.as_bytes()), reports);
    // where no depot closes every such line is garbled
    let garbled = output_of(&WIDE, DAY.as_bytes());
    assert_eq!(garbled.lines().filter(|line| line.contains(" R9 ")).count(), 7);
}

#[test]
fn closings_in_sentences() {
    let told = narrate::output_of(&CLOSING, DAY.as_bytes());
    let lines: Vec<&str> = told.lines().collect();
    assert_eq!(lines[1], "Opening depot 6 grew the chain: 2 open, chain 1, pairs 1, searches 1.");
    assert_eq!(lines[3], "Closing 6 was refused with 17: 3 open, chain 2, pairs 1, searches 0.");
    assert_eq!(lines[4], "Closing 8 was refused with 4: 3 open, chain 2, pairs 1, searches 0.");
    assert_eq!(lines[5], "6 R9 3 2 1 0");
    assert_eq!(lines[6], "Closing 5 shrank the chain: 2 open, chain 1, pairs 1, searches 2.");
    assert_eq!(lines[8], "Closing 6 kept the chain: 0 open, chain 0, pairs 0, searches 0.");
}

/// A batch takes openings of both widths, and no closing.
#[test]
fn no_closing_in_a_batch() {
    for line in ["0305\n", "130005\n", "020506\n", "1200050006\n"] {
        let mut held = ring();
        assert_eq!(held.map.open_batch(line.as_bytes()).err(), Some(9), "{line}");
    }
}
