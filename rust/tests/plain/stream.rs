//! The stream: what a line is answered, and what a whole input gives as whole output.
use super::lines::{notice_of_line, report_of, Fields};
use super::opening::{Map, Opened};
use super::shape::{Shape, TODAY};

/// The most lines that are answered.
pub const LINES: u32 = 1_000_000;

/// What a line is answered, 0A being in it or not, and what it opened, linked or closed.
pub fn answer(map: &mut Map, line: &[u8]) -> (u8, Option<Opened>) {
    let Some(notice) = notice_of_line(map.shape, line) else { return (9, None) };
    match map.take(&notice) {
        Ok(opened) => (opened.letter, Some(opened)),
        Err(refusal) => (refusal, None),
    }
}

/// The report of a line that was answered.
pub fn report(map: &Map, number: u32, answer: u8, opened: &Option<Opened>) -> String {
    let searches = opened.as_ref().map_or(0, |opened| opened.work.references.len());
    report_of(Fields {
        number,
        answer,
        depots: map.network.open.len() as u16,
        chain: map.figures.chain as u16,
        pairs: map.figures.pairs.len() as u32,
        searches: searches as u16,
    })
}

/// The whole output of an input: a report for each line, a last stretch without 0A being one.
pub fn output(input: &[u8]) -> String {
    output_of(TODAY, input)
}

/// The same on a map of this shape.
pub fn output_of(shape: &'static Shape, input: &[u8]) -> String {
    let mut map = Map::of_shape(shape);
    let mut reports = String::new();
    for (number, line) in (1..=LINES).zip(input.split_inclusive(|&b| b == 0x0A)) {
        let (answer, opened) = answer(&mut map, line);
        reports += &report(&map, number, answer, &opened);
    }
    reports
}
