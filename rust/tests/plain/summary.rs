//! The network report: how far apart the depots are that deliver, two by two, and how many of them have each eccentricity. Yards shorten ways here, and are
//! not counted.
use super::network::Network;
use super::shape::Shape;

/// The sum of the distances of some pairs, how many they are, and the mean: the sum is quotient times pairs and the remainder. Without pairs the mean
/// is 0.
#[derive(Clone, Copy, Debug, PartialEq)]
pub struct Mean {
    pub sum: u64,
    pub pairs: u64,
    pub quotient: u64,
    pub remainder: u64,
}

impl Mean {
    pub fn of(sum: u64, pairs: u64) -> Mean {
        let quotient = sum.checked_div(pairs).unwrap_or(0);
        Mean { sum, pairs, quotient, remainder: if pairs == 0 { 0 } else { sum - quotient * pairs } }
    }
}

#[derive(Clone, Debug, PartialEq)]
pub struct Summary {
    /// Over all pairs u < v of depots that deliver.
    pub mean: Mean,
    /// How many depots have the eccentricity 0, 1 and so on: as many places as depots can be open.
    pub counts: Vec<u16>,
}

impl Network {
    /// The report of a network that hangs together; none for fewer than two depots that deliver.
    pub fn summary(&self, shape: &Shape) -> Option<Summary> {
        if self.delivering().count() < 2 {
            return None;
        }
        let mut counts = vec![0; shape.places];
        let (mut sum, mut pairs) = (0, 0);
        for u in self.delivering() {
            let distances = self.distances(u);
            counts[self.eccentricity(&distances)] += 1;
            for v in self.delivering().filter(|&v| u < v) {
                sum += distances.of(v) as u64;
                pairs += 1;
            }
        }
        Some(Summary { mean: Mean::of(sum, pairs), counts })
    }
}
