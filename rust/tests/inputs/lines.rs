//! Notice lines, good and garbled, and whole inputs of a stream.
use super::dice::Dice;
use super::growths::{Growth, SHAPES};
use crate::plain::lines::line_of;

/// The line of a notice, that of a yard or of a depot that delivers.
pub fn opening_line(is_yard: bool, code: usize, neighbours: &[u8]) -> Vec<u8> {
    let kind = if is_yard { 4 } else { 1 };
    line_of(&[&[kind, code as u8, neighbours.len() as u8], neighbours].concat()).into_bytes()
}

/// The line of a notice.
pub fn notice_line(code: usize, neighbours: &[u8]) -> Vec<u8> {
    opening_line(false, code, neighbours)
}

/// The line of a yard's notice.
pub fn yard_line(code: usize, neighbours: &[u8]) -> Vec<u8> {
    opening_line(true, code, neighbours)
}

/// The line of a link.
pub fn link_line(first: u8, second: u8) -> Vec<u8> {
    line_of(&[2, first, second]).into_bytes()
}

/// The line of 255 neighbours, 517 bytes: 255 opens beside 0 to 254.
pub fn longest_line() -> Vec<u8> {
    notice_line(255, &(0..=254).collect::<Vec<u8>>())
}

/// A frame that is right, of any kind.
pub fn some_frame(dice: &mut Dice) -> Vec<u8> {
    if dice.once_in(4) {
        return vec![2, dice.byte(), dice.byte()];
    }
    let count = match dice.below(6) {
        0 => 0,
        1 => 255,
        2 => dice.below(256),
        _ => dice.below(9),
    };
    let mut frame = vec![dice.pick(&[1, 4]), dice.byte(), count as u8];
    frame.extend(dice.bytes(count));
    frame
}

/// A line, garbled in one of many ways or not at all.
pub fn some_line(dice: &mut Dice) -> Vec<u8> {
    let mut frame = some_frame(dice);
    match dice.below(24) {
        0 => frame[0] = dice.byte(),
        1 => frame[2] = frame[2].wrapping_add(1),
        2 => frame[2] = frame[2].wrapping_sub(1),
        3 => frame.truncate(dice.below(4)),
        4 => frame.push(dice.byte()),
        _ => {}
    }
    let mut line = line_of(&frame).into_bytes();
    let at = dice.below(line.len());
    match dice.below(24) {
        0 => line[at] = dice.byte(),
        1 => line[at] = dice.pick(b"/:@G`agfZ z\r\n\0\xFF"),
        2 => line[at] = line[at].to_ascii_lowercase(),
        3 => line.insert(at, dice.pick(b"0123456789ABCDEF ")),
        4 => {
            line.remove(at);
        }
        5 => line.truncate(at),
        6 => line.insert(line.len() - 1, b'\r'),
        7 => line = b"\n".to_vec(),
        8 => line.insert(0, b'\n'),
        _ => {}
    }
    line
}

/// A line that is most likely refused, on any map.
fn some_refused_line(dice: &mut Dice) -> Vec<u8> {
    match dice.below(10) {
        0 => b"\n".to_vec(),
        1 => opening_line(dice.once_in(2), dice.below(256), &[]),
        2 => opening_line(dice.once_in(2), dice.below(256), &[dice.byte()]),
        3 => {
            // an overlong line, of digits or of anything
            let length = 500 + dice.below(600);
            let digits = dice.once_in(2);
            (0..length).map(|_| if digits { b'0' } else { dice.byte() | 16 }).chain([0x0A]).collect()
        }
        4 => {
            let count = 2 + dice.below(3);
            opening_line(dice.once_in(2), dice.below(256), &dice.bytes(count))
        }
        5 => link_line(dice.byte(), dice.byte()),
        6 => {
            let code = dice.byte();
            link_line(code, code)
        }
        // a link with one byte more
        7 => line_of(&[2, dice.byte(), dice.byte(), 0]).into_bytes(),
        _ => some_line(dice),
    }
}

/// An input: a growth, with yards or without, and links between what is open, in turns, with lines between that are refused or do not read, and perhaps no
/// ending.
pub fn some_input(dice: &mut Dice, size: usize) -> Vec<u8> {
    let shape = dice.pick(&SHAPES);
    let growth = Growth::some(dice, shape);
    let mut input = Vec::new();
    for i in 0..size {
        input.extend(growth.line(dice, i, size));
        while dice.once_in(3) {
            let open = &growth.order[..=i];
            input.extend(link_line(dice.pick(open) as u8, dice.pick(open) as u8));
        }
        while dice.once_in(3) {
            input.extend(some_refused_line(dice));
        }
    }
    if dice.once_in(2) {
        input.truncate(input.len() - dice.below(input.len().min(30) + 1));
    }
    input
}
