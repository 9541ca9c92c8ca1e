//! What holds of figures, letter and marks by their definitions, from the distances that a search from every depot finds.
use crate::expected::{bits_of_table, network, CHAIN, CLOSED, COUNT, NUMBER, OTHER, PLACES, SEARCHED};
use crate::lent::Lent;
use crate::plain::network::{Distances, Network, Pairs};

/// The network that stands in the memory, and all its distances.
struct Truth {
    network: Network,
    /// From each code, none from a closed one.
    all: Vec<Option<Distances>>,
}

impl Truth {
    fn of(m: &Lent) -> Truth {
        let network = network(m);
        let all = (0..PLACES).map(|u| network.open.contains(&u).then(|| network.distances(u))).collect();
        Truth { network, all }
    }

    /// The distances from an open depot.
    fn from(&self, u: usize) -> &Distances {
        self.all[u].as_ref().expect("the depot is open")
    }

    fn distance(&self, u: usize, v: usize) -> usize {
        self.from(u).of(v)
    }

    /// The greatest distance to a depot that delivers.
    fn eccentricity(&self, u: usize) -> usize {
        self.network.delivering().map(|v| self.distance(u, v)).max().unwrap_or(0)
    }

    /// The greatest distance of two depots that deliver.
    fn chain(&self) -> usize {
        self.network.delivering().map(|u| self.eccentricity(u)).max().unwrap_or(0)
    }

    /// The depots that deliver, two by two, that are so far apart.
    fn pairs_at(&self, distance: usize) -> Pairs {
        let partners = |u: usize| self.network.delivering().filter(move |&v| u < v && self.distance(u, v) == distance);
        self.network.delivering().flat_map(|u| partners(u).map(move |v| (u, v))).collect()
    }
}

/// Chain, pairs and pair count are those of the distances.
fn assert_figures(m: &Lent, truth: &Truth) {
    let chain = truth.chain();
    let pairs = truth.pairs_at(chain);
    assert_eq!(m.record.data[CHAIN], chain as u64, "the chain");
    assert_eq!(m.record.data[COUNT], pairs.len() as u64, "the pair count");
    assert_eq!(bits_of_table(&m.pairs.data), pairs, "the farthest pairs");
}

/// The mark and the bound of a code after rounds, a yard's too: closed, searched, or skipped below the chain for a depot that was searched.
fn assert_mark(m: &Lent, truth: &Truth, v: usize) {
    let (mark, bound) = (m.skips.data[v], usize::from(m.bounds.data[v]));
    match truth.all[v] {
        None => assert_eq!((mark, bound), (OTHER, CLOSED.into()), "the mark of the closed code {v}"),
        Some(_) if mark == SEARCHED => assert_eq!(bound, truth.eccentricity(v), "the bound of {v}, searched"),
        Some(_) => {
            assert!(usize::from(mark) < PLACES, "depot {v} is neither searched nor skipped");
            let by = usize::from(mark);
            assert_eq!(m.skips.data[by], SEARCHED, "depot {v} is skipped for {by}, which was not searched");
            assert_eq!(bound, truth.eccentricity(by) + truth.distance(by, v), "the bound of {v}, skipped for {by}");
            assert!((bound as u64) < m.record.data[CHAIN], "depot {v} is skipped at the bound {bound}");
        }
    }
}

/// Every depot is searched or skipped, and the searches are those that are marked.
fn assert_marks(m: &Lent, truth: &Truth) {
    for v in 0..PLACES {
        assert_mark(m, truth, v);
    }
    let marked = m.skips.data[..PLACES].iter().filter(|&&mark| mark == SEARCHED).count();
    assert_eq!(usize::from(m.searches), marked, "the searches");
    assert!(marked as u64 <= m.record.data[NUMBER], "more searches than depots");
}

/// After a reckoning.
pub fn assert_reckoned(m: &Lent) {
    let truth = Truth::of(m);
    assert_figures(m, &truth);
    assert_marks(m, &truth);
}

/// Exactly these depots were searched, and no rounds followed.
fn assert_searched_alone(m: &Lent, truth: &Truth, codes: &[usize]) {
    assert_eq!(usize::from(m.searches), codes.len(), "the searches");
    for v in 0..PLACES {
        let expected = if codes.contains(&v) { (SEARCHED, truth.eccentricity(v) as u16) } else { (OTHER, CLOSED) };
        assert_eq!((m.skips.data[v], m.bounds.data[v]), expected, "the mark of {v}");
    }
}

/// After an accepted opening of a depot on true figures, the chain before it being `before`.
pub fn assert_opened(m: &Lent, before: u64, code: u8, letter: u8) {
    let truth = Truth::of(m);
    assert_figures(m, &truth);
    let change = m.record.data[CHAIN].cmp(&before);
    assert_eq!(letter, [b'S', b'K', b'G'][(change as i8 + 1) as usize], "the letter of a chain of {} after {before}", m.record.data[CHAIN]);
    assert!(letter != b'G' || truth.network.delivers(code.into()), "the yard {code} made the chain grow");
    if letter == b'S' {
        return assert_marks(m, &truth);
    }
    assert_searched_alone(m, &truth, &[code.into()]);
}

/// The marks after an accepted link, whatever the figures were; where the chain was kept hop table and last layer are the higher code's.
fn assert_link_marks(m: &Lent, truth: &Truth, first: u8, second: u8, letter: u8) {
    let (low, high) = (usize::from(first.min(second)), usize::from(first.max(second)));
    if letter == b'S' {
        assert_eq!((m.skips.data[low], m.skips.data[high]), (SEARCHED, SEARCHED), "both ends are searched");
        return assert_marks(m, truth);
    }
    assert_eq!(letter, b'K', "a link never makes the chain longer");
    assert_searched_alone(m, truth, &[low, high]);
    let from = truth.from(high);
    let depth = from.depth();
    let last = if depth % 2 == 0 { &m.even } else { &m.odd };
    for v in 0..PLACES {
        assert_eq!(m.hops.data[v], from.to(v).map_or(CLOSED, |d| d as u16), "the hop of {v}");
        assert_eq!(last.data[v / 64] >> (v % 64) & 1 == 1, from.to(v) == Some(depth), "depot {v} in the last layer");
    }
}

/// After an accepted link on true figures, the chain before it being `before`. Where no yard is open a link takes half of it at most.
pub fn assert_linked(m: &Lent, before: u64, first: u8, second: u8, letter: u8) {
    let truth = Truth::of(m);
    assert_figures(m, &truth);
    let after = m.record.data[CHAIN];
    assert!(after <= before, "the chain is {after} after {before}");
    assert!(before <= 2 * after || !truth.network.yards.is_empty(), "the chain is {after} after {before}");
    assert_eq!(letter == b'S', after < before, "the letter of a chain of {after} after {before}");
    assert_link_marks(m, &truth, first, second, letter);
}

/// After an accepted link on any sound figures: what was kept is a part of what was stored, and of the chain that was; rounds leave true figures, or a
/// chain above the true one and no pair.
pub fn assert_linked_falsely(m: &Lent, before: &Lent, first: u8, second: u8, letter: u8) {
    let truth = Truth::of(m);
    assert_link_marks(m, &truth, first, second, letter);
    let (chain, pairs) = (m.record.data[CHAIN], bits_of_table(&m.pairs.data));
    assert_eq!(m.record.data[COUNT], pairs.len() as u64, "the pair count");
    if letter == b'K' {
        let stored = bits_of_table(&before.pairs.data);
        assert_eq!(chain, before.record.data[CHAIN], "the chain");
        assert!(pairs.is_subset(&stored), "a pair is new");
        let way = |&(u, v): &(usize, usize), through: u8| truth.distance(through.into(), u) + truth.distance(through.into(), v);
        let is_far = |pair| chain == 0 || way(pair, first).min(way(pair, second)) as u64 >= chain;
        assert!(stored.iter().all(|pair| is_far(pair) == pairs.contains(pair)), "the pairs that stay");
        return assert!(chain == 0 || !pairs.is_empty(), "nothing keeps the chain");
    }
    let longest = truth.chain() as u64;
    if chain == longest {
        return assert_figures(m, &truth);
    }
    assert!(chain > longest && pairs.is_empty(), "a chain of {chain} for {longest}, {} pairs", pairs.len());
    assert!(chain < before.record.data[CHAIN], "a chain of {chain} that nothing stored had");
}
