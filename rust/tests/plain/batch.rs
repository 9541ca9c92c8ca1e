//! Openings in a batch: up to 64 notice lines together, in whatever order they came.
use super::lines::{notice_of_line, Notice};
use super::opening::{Map, Work};

/// The most lines of a batch.
pub const MOST: usize = 64;

/// An accepted batch.
pub struct Batch {
    /// The numbers of the lines that were not opened, from 0, rising.
    pub left: Vec<u8>,
    /// What the last accepted opening did; none where no line was accepted.
    pub last: Option<Work>,
}

impl Map {
    /// Opens what can be opened of these lines, or says which of 11, 12 and 9 refuses them all.
    pub fn open_batch(&mut self, input: &[u8]) -> Result<Batch, u8> {
        let lines: Vec<&[u8]> = input.split_inclusive(|&b| b == 0x0A).collect();
        if lines.len() > MOST {
            return Err(11);
        }
        if self.network.open.is_empty() {
            return Err(12);
        }
        let mut waiting = Vec::new();
        for (number, line) in lines.into_iter().enumerate() {
            // only frames that open a depot or a yard: a link or a closing is garbled here, though the stream takes it
            let notice = notice_of_line(self.shape, line).filter(|notice| matches!(notice, Notice::Opening { .. })).ok_or(9)?;
            waiting.push((number as u8, notice));
        }
        let mut last = None;
        while let Some(opened) = self.open_first(&mut waiting) {
            last = Some(opened);
        }
        Ok(Batch { left: waiting.into_iter().map(|(number, _)| number).collect(), last })
    }

    /// Opens the first of the waiting notices that can be, and takes it out of them. A line that came before it may be next, so that every scan begins
    /// at the first line.
    fn open_first(&mut self, waiting: &mut Vec<(u8, Notice)>) -> Option<Work> {
        for place in 0..waiting.len() {
            if let Ok(opened) = self.take(&waiting[place].1) {
                waiting.remove(place);
                return Some(opened.work);
            }
        }
        None
    }
}
