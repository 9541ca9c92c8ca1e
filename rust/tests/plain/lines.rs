//! Notice lines and report lines.
use super::shape::{Call, Shape};

/// What a frame says.
#[derive(Clone, Debug, PartialEq)]
pub enum Notice {
    Opening { is_yard: bool, code: usize, neighbours: Vec<usize> },
    Link(usize, usize),
    Closing(usize),
}

/// The frame of the line that stands at the start of the input, and the bytes used, 0A with them; none where it is garbled.
pub fn frame_of(shape: &Shape, input: &[u8]) -> Option<(Vec<u8>, usize)> {
    bytes_of(shape, input).filter(|(frame, _)| notice_of(shape, frame).is_some())
}

/// What the line at the start of the input says; none where it is garbled.
pub fn notice_of_line(shape: &Shape, input: &[u8]) -> Option<Notice> {
    notice_of(shape, &bytes_of(shape, input)?.0)
}

/// The bytes that the line at the start of the input spells, a frame or not.
fn bytes_of(shape: &Shape, input: &[u8]) -> Option<(Vec<u8>, usize)> {
    let end = input.iter().take(shape.line).position(|&b| b == 0x0A)?;
    let mut digits = Vec::new();
    for &b in &input[..end] {
        digits.push("0123456789ABCDEF".bytes().position(|d| d == b)? as u8);
    }
    if digits.len() % 2 != 0 {
        return None;
    }
    Some((digits.chunks(2).map(|two| 16 * two[0] + two[1]).collect(), end + 1))
}

/// What a frame says, none where it is garbled: a kind that there is and as many codes as belong to it. An opening has code, neighbour count and that many
/// neighbours, fewer than depots can be open; a link has two codes, a closing one.
pub fn notice_of(shape: &Shape, frame: &[u8]) -> Option<Notice> {
    let (&byte, behind) = frame.split_first()?;
    let kind = shape.kind(byte)?;
    if behind.len() % kind.width != 0 {
        return None;
    }
    let numbers: Vec<usize> =
        behind.chunks(kind.width).map(|bytes| bytes.iter().fold(0, |high, &low| 256 * high + usize::from(low))).collect();
    match (kind.call, &numbers[..]) {
        (Call::Opening | Call::YardOpening, &[code, count, ref neighbours @ ..]) => {
            let is_right = count == neighbours.len() && count < shape.places;
            is_right.then(|| Notice::Opening { is_yard: kind.call == Call::YardOpening, code, neighbours: neighbours.to_vec() })
        }
        (Call::Link, &[first, second]) => Some(Notice::Link(first, second)),
        (Call::Closing, &[code]) => Some(Notice::Closing(code)),
        _ => None,
    }
}

impl Notice {
    /// The frame of what is said, with codes of one or of two bytes, in which they have room.
    pub fn frame(&self, width: usize) -> Vec<u8> {
        let (byte, numbers) = match self {
            Notice::Opening { is_yard, code, neighbours } => {
                (if *is_yard { 4 } else { 1 }, [&[*code, neighbours.len()], &neighbours[..]].concat())
            }
            Notice::Link(first, second) => (2, vec![*first, *second]),
            Notice::Closing(code) => (3, vec![*code]),
        };
        let mut frame = vec![if width == 2 { 0x10 + byte } else { byte }];
        for number in numbers {
            if width == 2 {
                frame.push((number / 256) as u8);
            }
            frame.push((number % 256) as u8);
        }
        frame
    }
}

/// The line of a frame.
pub fn line_of(frame: &[u8]) -> String {
    let mut text: String = frame.iter().map(|b| format!("{b:02X}")).collect();
    text.push('\n');
    text
}

/// What a report line says. The answer is a letter or the number of a refusal.
#[derive(Clone, Copy, Debug)]
pub struct Fields {
    pub number: u32,
    pub answer: u8,
    pub depots: u16,
    pub chain: u16,
    pub pairs: u32,
    pub searches: u16,
}

pub fn report_of(f: Fields) -> String {
    let answer = match f.answer {
        b'G' | b'K' | b'S' => char::from(f.answer).to_string(),
        refusal => format!("R{refusal}"),
    };
    format!("{} {} {} {} {} {}\n", f.number, answer, f.depots, f.chain, f.pairs, f.searches)
}
