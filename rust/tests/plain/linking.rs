//! A link between two depots that are open already; either or both may be yards.
use super::network::{Distances, Figures, Network, Pairs};
use super::opening::{Map, Opened, Work};

/// The refusals 4, 13 and 14 of a link, 0 for none.
fn refusal(network: &Network, first: usize, second: usize) -> u8 {
    if [first, second].iter().any(|code| !network.open.contains(code)) {
        return 4;
    }
    if first == second {
        return 13;
    }
    if network.are_linked(first, second) {
        return 14;
    }
    0
}

/// The figures after the link of two depots, the lower code first, which is in place; the stored ones may be false. The chain never grows.
fn linking(network: &Network, stored: &Figures, low: usize, high: usize) -> Opened {
    let (from_low, from_high) = (network.distances(low), network.distances(high));
    let chain = stored.chain;
    let through = |end: &Distances, pair: &(usize, usize)| end.of(pair.0) + end.of(pair.1);
    let apart = |pair: &(usize, usize)| chain.min(through(&from_low, pair)).min(through(&from_high, pair));
    let pairs: Pairs = stored.pairs.iter().copied().filter(|pair| apart(pair) >= chain).collect();
    if chain == 0 || !pairs.is_empty() {
        let mut work = Work::begun(network, Figures { chain, pairs });
        work.note_search(network, low, from_low);
        work.note_search(network, high, from_high);
        return Opened { letter: b'K', work };
    }
    let candidate = stored.pairs.iter().map(apart).max().unwrap_or(0);
    let mut work = Work::begun(network, Figures { chain: candidate, pairs: Pairs::new() });
    // nothing is skipped before both ends are searched, the higher one neither
    work.hold(network, low, from_low);
    work.round(network, high, from_high);
    work.rounds(network);
    Opened { letter: b'S', work }
}

impl Map {
    /// Links two depots, or says which of 4, 13 and 14 refuses it. In which order they are named is no matter.
    pub fn link(&mut self, first: usize, second: usize) -> Result<Opened, u8> {
        match refusal(&self.network, first, second) {
            0 => {}
            refusal => return Err(refusal),
        }
        let (low, high) = (first.min(second), first.max(second));
        self.network.link(low, high);
        let linked = linking(&self.network, &self.figures, low, high);
        self.figures = linked.work.figures.clone();
        Ok(linked)
    }
}
