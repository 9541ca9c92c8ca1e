//! Maps to try: memory to lend, true and false figures, and ways to damage it.
use crate::expected::{store_map, CHAIN, COUNT, NUMBER, PLACES, RECORD, TABLE, WORDS, YARDS};
use crate::inputs::growths::some_size;
use crate::inputs::{Dice, Growth, SHAPES};
use crate::lent::{Buffer, Lent};
use crate::plain::{Figures, Map, Network, TODAY};

fn words(dice: &mut Dice, n: usize) -> Vec<u64> {
    (0..n).map(|_| dice.word()).collect()
}

fn halves(dice: &mut Dice, n: usize) -> Vec<u16> {
    (0..n).map(|_| dice.word() as u16).collect()
}

/// Every buffer with a few elements past its named size, lent or not, and something in each place.
pub fn any_memory(dice: &mut Dice) -> Lent {
    let mut lent = Lent {
        record: Buffer::new(words(dice, RECORD + 3)),
        links: Buffer::new(words(dice, TABLE + 5)),
        pairs: Buffer::new(words(dice, TABLE + 5)),
        hops: Buffer::new(halves(dice, PLACES + 5)),
        bounds: Buffer::new(halves(dice, PLACES + 5)),
        skips: Buffer::new(halves(dice, PLACES + 5)),
        even: Buffer::new(words(dice, WORDS + 3)),
        odd: Buffer::new(words(dice, WORDS + 3)),
        frame: Buffer::new(dice.bytes(TODAY.frame + 5)),
        line: Buffer::new(dice.bytes(TODAY.line + 5)),
        out: Buffer::new(dice.bytes(48 + 5)),
        codes: Buffer::new(dice.bytes(PLACES + 5)),
        left: Buffer::new(dice.bytes(64 + 6)),
        counts: Buffer::new(halves(dice, PLACES + 5)),
        input: Buffer::new(Vec::new()),
        eccentricity: dice.word() as u16,
        depth: dice.word() as u16,
        searches: dice.word() as u16,
        count: dice.word() as u16,
        found: dice.byte(),
        distance: dice.word() as u16,
        left_count: dice.byte(),
        sum: dice.word(),
        pair_number: dice.word(),
        quotient: dice.word(),
        remainder: dice.word(),
        length: dice.word() as usize,
        used: dice.word() as usize,
        written: dice.word() as usize,
        held: dice.below(TODAY.line + 1),
        lines: dice.below(1_000_000) as u32,
    };
    for (which, size) in crate::lent::SIZES.into_iter().enumerate() {
        let more = dice.below(4);
        lent.set_lent(which, size + more);
    }
    lent
}

/// A sound map with true figures, with yards or without.
pub fn true_map(dice: &mut Dice) -> (Lent, Network) {
    let shape = dice.pick(&SHAPES);
    let size = some_size(dice);
    let network = Growth::some(dice, shape).network(dice, size);
    let mut lent = any_memory(dice);
    store_map(&mut lent, &Map::true_of(network.clone()));
    (lent, network)
}

/// Sound figures that need not be true.
pub fn any_figures(dice: &mut Dice, network: &Network) -> Figures {
    let ends: Vec<usize> = network.delivering().collect();
    let mut figures = if dice.once_in(2) { network.figures() } else { Figures::default() };
    if dice.once_in(2) {
        figures.chain = match dice.below(4) {
            0 => TODAY.greatest_chain(),
            1 => dice.below(PLACES),
            2 => figures.chain + dice.below(3),
            _ => dice.below(12),
        }
        .min(TODAY.greatest_chain());
    }
    if ends.len() >= 2 {
        for _ in 0..dice.below(8) {
            let (u, v) = (dice.pick(&ends), dice.pick(&ends));
            if u < v {
                figures.pairs.insert((u, v));
            }
        }
        if dice.once_in(4) {
            figures.pairs.retain(|_| dice.once_in(3));
        }
    }
    figures
}

pub fn flip(table: &mut [u64], u: usize, v: usize) {
    table[WORDS * u + v / 64] ^= 1 << (v % 64);
}

/// The ways to damage a map. Most spoil it; some part it; a few leave it as it is.
pub const DAMAGES: usize = 20;

pub fn damage(dice: &mut Dice, lent: &mut Lent, network: &Network, way: usize) {
    let open: Vec<usize> = network.open.iter().copied().collect();
    let closed: Vec<usize> = (0..PLACES).filter(|c| !network.open.contains(c)).collect();
    let any = dice.below(PLACES);
    let some_open = if open.is_empty() { any } else { dice.pick(&open) };
    let some_closed = if closed.is_empty() { any } else { dice.pick(&closed) };
    let huge = dice.pick(&[65_536, 65_792, 1 << 32, (1 << 32) + 1, 1 << 63, u64::MAX]);
    let record = &mut lent.record.data;
    let (links, pairs) = (&mut lent.links.data, &mut lent.pairs.data);
    match way {
        // a bit one way round only
        0 => flip(links, dice.below(PLACES), dice.below(PLACES)),
        // own bit
        1 => flip(links, some_open, some_open),
        // a closed row with a bit, and its counterpart
        2 => {
            flip(links, some_closed, some_open);
            flip(links, some_open, some_closed);
        }
        3 => flip(links, some_closed, some_closed),
        // number open
        4 => record[NUMBER] = dice.pick(&[record[NUMBER].wrapping_add(1), record[NUMBER].wrapping_sub(1), 0, 256, 257]),
        5 => record[NUMBER] = record[NUMBER].wrapping_add(huge),
        // open set
        6 => record[any / 64] ^= 1 << (any % 64),
        // a further depot without links: apart
        7 if !closed.is_empty() => {
            record[some_closed / 64] |= 1 << (some_closed % 64);
            record[NUMBER] = record[NUMBER].wrapping_add(1);
        }
        // a link taken away, both ways round: apart or not
        8 | 9 => {
            let beside = network.beside(some_open);
            if !beside.is_empty() {
                let v = dice.pick(beside);
                flip(links, some_open, v);
                flip(links, v, some_open);
            }
        }
        // pair bits: any, the lower half, a closed end
        10 => flip(pairs, dice.below(PLACES), dice.below(PLACES)),
        11 => {
            flip(pairs, any, dice.below(any + 1));
            record[COUNT] = record[COUNT].wrapping_add(1);
        }
        12 => {
            let (u, v) = (some_open.min(some_closed), some_open.max(some_closed));
            flip(pairs, u, v);
            record[COUNT] = record[COUNT].wrapping_add(1);
        }
        // pair count
        13 => record[COUNT] = dice.pick(&[record[COUNT].wrapping_add(1), record[COUNT].wrapping_sub(1), 65_535]),
        14 => record[COUNT] = record[COUNT].wrapping_add(huge),
        // chain
        15 => record[CHAIN] = dice.pick(&[256, 257, 65_535]),
        16 => record[CHAIN] = record[CHAIN].wrapping_add(huge),
        // the yard set: a closed yard, any yard, a pair at a yard that is counted
        17 if !closed.is_empty() => record[YARDS + some_closed / 64] |= 1 << (some_closed % 64),
        18 => record[YARDS + any / 64] ^= 1 << (any % 64),
        19 => {
            let (u, v) = (some_open.min(any), some_open.max(any));
            flip(pairs, u, v);
            record[COUNT] = record[COUNT].wrapping_add(1);
            record[YARDS + some_open / 64] |= 1 << (some_open % 64);
        }
        _ => {}
    }
}
