//! One step of a history on the wide map, and all that has to hold after it, by rows.
use crate::by_rows::ByRows;
use crate::inputs::Dice;
use crate::plain::lines::Notice;
use crate::plain::memory::{Marks, Memory, Searched};
use crate::plain::opening::Opened;
use crate::plain::words::bits_of_table;
use crate::plain::{Map, CLOSING};

pub fn opening(code: usize, neighbours: &[usize]) -> Notice {
    Notice::Opening { is_yard: false, code, neighbours: neighbours.to_vec() }
}

pub fn yard_opening(code: usize, neighbours: &[usize]) -> Notice {
    Notice::Opening { is_yard: true, code, neighbours: neighbours.to_vec() }
}

/// So many codes in any order, no two the same, with some of those at the edges of a width and of
/// the marks among them.
pub fn some_codes(dice: &mut Dice, n: usize) -> Vec<usize> {
    let mut codes: Vec<usize> = (0..65_536).collect();
    dice.shuffle(&mut codes);
    codes.truncate(n);
    for edge in [0, 255, 256, 511, 512, 65_533, 65_534, 65_535] {
        if !codes.contains(&edge) {
            let place = dice.below(n);
            codes[place] = edge;
        }
    }
    codes
}

/// A map with the words that stand for it.
#[derive(Clone)]
pub struct Held {
    pub map: Map,
    pub memory: Memory,
}

impl Held {
    pub fn empty() -> Held {
        Held { map: Map::of_shape(&CLOSING), memory: Memory::empty(&CLOSING) }
    }

    /// A notice that is accepted, its letter, and what it found.
    pub fn take(&mut self, notice: &Notice) -> Opened {
        self.try_take(notice).unwrap_or_else(|refusal| panic!("{notice:?} is refused with {refusal}"))
    }

    /// A refused one leaves every word.
    pub fn try_take(&mut self, notice: &Notice) -> Result<Opened, u8> {
        let opened = self.map.take(notice);
        let before = self.memory.clone();
        self.memory.store(&self.map);
        assert!(opened.is_ok() || self.memory == before, "{notice:?} is refused, and something changed");
        opened
    }

    pub fn pairs(&self) -> Vec<(usize, usize)> {
        bits_of_table(8, &self.memory.pairs).into_iter().collect()
    }

    /// Marks and search tables as a call that did this leaves them.
    pub fn tables(&self, opened: &Opened) -> (Marks, Option<Searched>) {
        let searched = opened.work.last.as_ref().map(|distances| Searched::of(&CLOSING, &self.map.rows, distances));
        (Marks::of(&CLOSING, &self.map.rows, &opened.work), searched)
    }

    /// The words are those of a sound map that reads as the same map again.
    pub fn assert_sound(&self) {
        assert_eq!(self.memory.refusal(), 0);
        let again = self.memory.map();
        assert_eq!((again.network, again.figures, again.rows), (self.map.network.clone(), self.map.figures.clone(), self.map.rows.clone()));
        assert!(self.memory.codes[self.memory.number as usize..].iter().all(|&code| code == 0), "a closed row has a code");
    }
}

/// The greatest way of the stored pairs through these rows, none longer than the stored chain.
fn candidate(stored: &Memory, after: &ByRows, through: &[usize]) -> usize {
    let way = |&(u, v): &(usize, usize)| through.iter().map(|&r| after.distance(r, u) + after.distance(r, v)).min().unwrap_or(0);
    bits_of_table(8, &stored.pairs).iter().map(way).max().unwrap_or(0).min(stored.chain as usize)
}

/// After a notice that was accepted on true figures: every word of the map and every place of the
/// tables, by the rules by rows.
pub fn assert_step(before: &Memory, held: &Held, notice: &Notice, opened: &Opened) {
    held.assert_sound();
    let memory = &held.memory;
    let after = ByRows::of(memory);
    let row_of = |code: usize| memory.codes.iter().position(|&other| usize::from(other) == code).expect("the code has a row");
    // the figures by their definition, and the letter
    let chain = after.chain();
    assert_eq!(memory.chain, chain as u64, "the chain");
    let pairs = after.pairs_at(chain);
    assert_eq!(held.pairs(), pairs.iter().copied().collect::<Vec<_>>(), "the pairs");
    assert_eq!(memory.count, pairs.len() as u64, "the pair count");
    let letter = [b'S', b'K', b'G'][(memory.chain.cmp(&before.chain) as i8 + 1) as usize];
    assert_eq!(opened.letter, letter, "the letter");
    // who is searched first, and whether more follow
    let (firsts, goes_on) = match notice {
        Notice::Opening { code, .. } => {
            assert_eq!(row_of(*code), before.number as usize, "the next row");
            (vec![row_of(*code)], letter == b'S')
        }
        Notice::Link(first, second) => (vec![row_of(*first.min(second)), row_of(*first.max(second))], letter == b'S'),
        Notice::Closing(_) => (Vec::new(), true),
    };
    let (references, marks) = if goes_on {
        let start = if firsts.is_empty() { 0 } else { candidate(before, &after, &firsts) };
        let rounds = after.rounds(start, &firsts);
        assert_eq!((rounds.chain, &rounds.pairs), (chain, &pairs), "what the rounds find");
        (rounds.references, rounds.marks)
    } else {
        (firsts.clone(), after.marks_of(&firsts))
    };
    let codes: Vec<usize> = references.iter().map(|&row| memory.codes[row].into()).collect();
    assert_eq!(opened.work.references, codes, "the references");
    let (own_marks, searched) = held.tables(opened);
    assert_eq!(own_marks, marks, "bounds and skips");
    assert_eq!(own_marks.searches(&CLOSING), references.len(), "the searches");
    assert_eq!(searched, references.last().map(|&row| after.searched(row)), "hops and layers");
}
