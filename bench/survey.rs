// The network reports that `survey` writes, without proofs and with no more work than the lines need: a search from every depot that delivers keeps no
// hops, and each layer adds its distance times those of its depots that deliver. The goal is judged by this program.
include!("reports.rs");

// The distances from s to all depots that deliver of a connected map, added.
fn distances(m: &Map, deliver: Row, s: usize) -> u64 {
    let mut layer = single(s);
    let mut left = andn(m.open, layer);
    let (mut sum, mut k) = (0, 0);
    while !none(left) {
        let mut next: Row = [0; 4];
        each(layer, |v| next = or(next, m.link[v]));
        layer = and(next, left);
        left = andn(left, layer);
        k += 1;
        sum += k * u64::from(ones(and(layer, deliver)));
    }
    sum
}

// Every pair is met from both ends.
fn summary(m: &mut Map, _: &mut Scratch) -> Option<(u64, u64)> {
    let deliver = andn(m.open, m.yards);
    let n = u64::from(ones(deliver));
    if n < 2 {
        return None;
    }
    let mut sum = 0;
    each(deliver, |s| sum += distances(m, deliver, s));
    Some((sum / 2, n * (n - 1) / 2))
}
