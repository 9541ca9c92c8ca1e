// The network reports that `survey` writes, without proofs, and what the report call hands over besides: each search from a depot that delivers fills the hop
// table, and how many have each eccentricity is counted.
include!("reports.rs");

// The hops above each depot, added.
fn summary(m: &mut Map, sc: &mut Scratch) -> Option<(u64, u64)> {
    let deliver = andn(m.open, m.yards);
    if ones(deliver) < 2 {
        return None;
    }
    let mut kept = [0u16; 256];
    let counts = std::hint::black_box(&mut kept);
    let (mut sum, mut pairs) = (0, 0);
    each(deliver, |s| {
        counts[search(m, sc, s)] += 1;
        let later = and(deliver, above(s));
        each(later, |v| sum += u64::from(m.hop[v]));
        pairs += u64::from(ones(later));
    });
    Some((sum, pairs))
}
