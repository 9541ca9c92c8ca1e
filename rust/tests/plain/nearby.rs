//! The depots near one: all within so many handovers, and the nearest of a list. Yards are open depots here as any other.
use super::network::Network;

impl Network {
    /// The depots at most k handovers from this open one, rising.
    pub fn within(&self, from: usize, k: u32) -> Vec<usize> {
        let distances = self.distances(from);
        let is_near = |v: &usize| distances.to(*v).is_some_and(|d| d as u64 <= u64::from(k));
        self.open.iter().copied().filter(is_near).collect()
    }

    /// Of the open depots of a list the nearest to this open one, with its distance: of several as near the one with the lowest code.
    pub fn nearest(&self, from: usize, listed: &[usize]) -> Option<(usize, usize)> {
        let distances = self.distances(from);
        let mut best: Option<(usize, usize)> = None;
        for &v in listed.iter().filter(|v| self.open.contains(v)) {
            let d = distances.of(v);
            if best.is_none_or(|(w, least)| d < least || (d == least && v < w)) {
                best = Some((v, d));
            }
        }
        best
    }
}
