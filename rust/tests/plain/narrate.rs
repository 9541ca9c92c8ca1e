//! The program `narrate`: what it writes for an input.
use super::lines::{notice_of_line, Notice};
use super::opening::Map;
use super::sentences::{sentence_of, Answer, Event, Outcome};
use super::shape::{Shape, TODAY};
use super::stream::{answer, report, LINES};

/// The whole output of an input: for each line the sentence of its outcome, and a line end. A garbled line names no call, and has its report.
pub fn output(input: &[u8]) -> String {
    output_of(TODAY, input)
}

/// The same on a map of this shape.
pub fn output_of(shape: &'static Shape, input: &[u8]) -> String {
    let mut map = Map::of_shape(shape);
    let mut said = String::new();
    for (number, line) in (1..=LINES).zip(input.split_inclusive(|&b| b == 0x0A)) {
        let (answer, opened) = answer(&mut map, line);
        let Some(notice) = notice_of_line(shape, line) else {
            said += &report(&map, number, answer, &opened);
            continue;
        };
        let event = match notice {
            Notice::Opening { is_yard: false, code, .. } => Event::Depot(code as u16),
            Notice::Opening { is_yard: true, code, .. } => Event::Yard(code as u16),
            Notice::Link(first, second) => Event::Link(first as u16, second as u16),
            Notice::Closing(code) => Event::Closing(code as u16),
        };
        let outcome = Outcome {
            event,
            answer: match opened.as_ref().map(|opened| opened.letter) {
                None => Answer::Refused(answer),
                Some(b'G') => Answer::Grew,
                Some(b'K') => Answer::Kept,
                Some(_) => Answer::Shrank,
            },
            depots: map.network.open.len() as u16,
            chain: map.figures.chain as u16,
            pairs: map.figures.pairs.len() as u32,
            searches: opened.map_or(0, |opened| opened.work.references.len() as u16),
        };
        said += &sentence_of(&outcome);
        said.push('\n');
    }
    said
}
