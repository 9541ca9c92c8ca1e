//! The closing of a depot or a yard, with all its links.
use super::network::Network;
use super::opening::{reckoning, Map, Opened};
use std::cmp::Ordering;

/// The refusals 4 and 17 of a closing, 0 for none; what is left open is the second network.
fn refusal(network: &Network, rest: &Network, code: usize) -> u8 {
    if !network.open.contains(&code) {
        return 4;
    }
    if rest.is_apart() {
        return 17;
    }
    0
}

impl Map {
    /// Closes a depot, or says which of 4 and 17 refuses it. What is left is reckoned afresh; the
    /// letter compares its chain with the stored one, true or false.
    pub fn close(&mut self, code: usize) -> Result<Opened, u8> {
        let mut rest = self.network.clone();
        rest.close(code);
        match refusal(&self.network, &rest, code) {
            0 => {}
            refusal => return Err(refusal),
        }
        let work = reckoning(&rest);
        let letter = match work.figures.chain.cmp(&self.figures.chain) {
            Ordering::Greater => b'G',
            Ordering::Equal => b'K',
            Ordering::Less => b'S',
        };
        self.network = rest;
        self.rows.close(code);
        self.figures = work.figures.clone();
        Ok(Opened { letter, work })
    }
}
