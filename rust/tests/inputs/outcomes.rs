//! Outcomes of calls, and texts that are their sentences or nearly so.
use super::dice::Dice;
use crate::plain::sentences::{sentence_of, Answer, Event, Outcome};

/// A number of 16 bits, often one at which the count of digits changes.
fn some_half(dice: &mut Dice) -> u16 {
    match dice.below(3) {
        0 => dice.pick(&[0, 1, 5, 9, 10, 11, 99, 100, 255, 256, 999, 1_000, 9_999, 10_000, 65_534, 65_535]),
        1 => dice.word() as u16,
        _ => dice.byte().into(),
    }
}

/// A number of 32 bits, likewise.
fn some_word(dice: &mut Dice) -> u32 {
    match dice.below(3) {
        0 => dice.pick(&[99_999, 100_000, 999_999_999, 1_000_000_000, u32::MAX - 1, u32::MAX]),
        1 => dice.word() as u32 >> dice.below(32),
        _ => some_half(dice).into(),
    }
}

/// Any outcome, whether a map can give it or not.
pub fn some_outcome(dice: &mut Dice) -> Outcome {
    let (code, other, refusal) = (some_half(dice), some_half(dice), dice.byte());
    Outcome {
        event: dice.pick(&[Event::Depot(code), Event::Yard(code), Event::Link(code, other), Event::Closing(code)]),
        answer: dice.pick(&[Answer::Grew, Answer::Kept, Answer::Shrank, Answer::Refused(refusal)]),
        depots: some_half(dice),
        chain: some_half(dice),
        pairs: some_word(dice),
        searches: some_half(dice),
    }
}

/// A sentence with a change or two: bytes put in, taken out or changed, digits most of all, an end cut off or put behind, a part said twice.
pub fn some_text(dice: &mut Dice) -> Vec<u8> {
    let mut text = sentence_of(&some_outcome(dice)).into_bytes();
    for _ in 0..=dice.below(2) {
        let at = dice.below(text.len());
        let digits: Vec<usize> = (0..text.len()).filter(|&i| text[i].is_ascii_digit()).collect();
        let digit = if digits.is_empty() { at } else { dice.pick(&digits) };
        match dice.below(12) {
            0 => text[at] = dice.byte(),
            1 => text[at] = dice.pick(b"0123456789 .,:adOLC\n\0"),
            2 => text[at] ^= 32,
            3 | 4 => text[digit] = dice.pick(b"0123456789"),
            5 | 6 => text.insert(digit, dice.pick(b"0123456789")),
            7 => text.insert(at, dice.pick(b"0123456789 .,+-")),
            8 => drop(text.remove(digit)),
            9 => drop(text.remove(at)),
            10 => text.push(dice.pick(b". \n\r\x000")),
            _ if dice.once_in(2) => text.truncate(at + 1),
            _ => text.splice(at..at, text[..at].to_vec()).for_each(drop),
        }
        if text.is_empty() {
            break;
        }
    }
    text
}

/// Sentences with # for each number, and the greatest number of each.
const PLACES: [(&str, &[u128]); 4] = [
    ("Opening depot # shrank the chain: # open, chain #, pairs #, searches #.", &[65_535, 65_535, 65_535, 4_294_967_295, 65_535]),
    ("Opening yard # kept the chain: # open, chain #, pairs #, searches #.", &[65_535, 65_535, 65_535, 4_294_967_295, 65_535]),
    (
        "Linking # and # was refused with #: # open, chain #, pairs #, searches #.",
        &[65_535, 65_535, 255, 65_535, 65_535, 4_294_967_295, 65_535],
    ),
    ("Closing # grew the chain: # open, chain #, pairs #, searches #.", &[65_535, 65_535, 65_535, 4_294_967_295, 65_535]),
];

/// The text with this in the given place, and 1 in every other.
fn with(text: &str, place: usize, number: &str) -> String {
    let mut parts = text.split('#');
    let front = parts.next().expect("every text has a front").to_string();
    parts.enumerate().fold(front, |said, (i, part)| said + if i == place { number } else { "1" } + part)
}

/// In every place a number at the edge of some width, which cut off to its bits would be a small one, or what is no decimal; and whether the text is a
/// sentence.
pub fn edges() -> Vec<(String, bool)> {
    let powers = [8, 16, 32, 64].map(|bits| 1u128 << bits);
    let mut numbers: Vec<u128> = powers.into_iter().flat_map(|power| [power - 2, power - 1, power, power + 1, power + 5]).collect();
    numbers.extend([0, 1, 9, 10, 99, 100, 260, 999, 1_000, 65_540, 99_999, 655_350, 4_294_967_300, 42_949_672_950, u128::MAX]);
    let long = "1".repeat(100);
    let no_numbers =
        ["00", "01", "010", "0000000001", "", " ", "+1", "-1", "-0", "1.0", "1,000", "1_0", "0x1", "A", "1e1", "\u{661}", &long];
    let mut texts = Vec::new();
    for (text, greatest) in PLACES {
        for (place, &most) in greatest.iter().enumerate() {
            texts.extend(numbers.iter().map(|number| (with(text, place, &number.to_string()), *number <= most)));
            texts.extend(no_numbers.iter().map(|number| (with(text, place, number), false)));
        }
    }
    texts
}

/// Texts that are no sentence, and what is wrong.
pub const GARBLED: [(&str, &str); 37] = [
    ("no text", ""),
    ("a full stop", "."),
    ("a blank", " "),
    ("a start alone", "Opening depot 5"),
    ("no full stop", "Opening depot 5 shrank the chain: 6 open, chain 3, pairs 2, searches 6"),
    ("two of them", "Opening depot 5 shrank the chain: 6 open, chain 3, pairs 2, searches 6.."),
    ("another end", "Opening depot 5 shrank the chain: 6 open, chain 3, pairs 2, searches 6!"),
    ("a line end", "Opening depot 5 shrank the chain: 6 open, chain 3, pairs 2, searches 6.\n"),
    ("a line end of two bytes", "Opening depot 5 shrank the chain: 6 open, chain 3, pairs 2, searches 6.\r\n"),
    ("a NUL behind", "Opening depot 5 shrank the chain: 6 open, chain 3, pairs 2, searches 6.\0"),
    ("a blank behind", "Opening depot 5 shrank the chain: 6 open, chain 3, pairs 2, searches 6. "),
    ("a blank in front", " Opening depot 5 shrank the chain: 6 open, chain 3, pairs 2, searches 6."),
    ("a small letter in front", "opening depot 5 shrank the chain: 6 open, chain 3, pairs 2, searches 6."),
    ("another capital", "Opening Depot 5 shrank the chain: 6 open, chain 3, pairs 2, searches 6."),
    ("capitals", "OPENING DEPOT 5 SHRANK THE CHAIN: 6 OPEN, CHAIN 3, PAIRS 2, SEARCHES 6."),
    ("two blanks", "Opening depot 5 shrank the chain:  6 open, chain 3, pairs 2, searches 6."),
    ("a tab", "Opening\tdepot 5 shrank the chain: 6 open, chain 3, pairs 2, searches 6."),
    ("no blank", "Opening depot 5 shrank the chain:6 open, chain 3, pairs 2, searches 6."),
    ("no comma", "Opening depot 5 shrank the chain: 6 open chain 3, pairs 2, searches 6."),
    ("a comma too many", "Opening depot 5, shrank the chain: 6 open, chain 3, pairs 2, searches 6."),
    ("no colon", "Opening depot 5 shrank the chain 6 open, chain 3, pairs 2, searches 6."),
    ("no colon behind a refusal", "Opening depot 5 was refused with 7 6 open, chain 3, pairs 2, searches 6."),
    ("neither depot nor yard", "Opening 5 shrank the chain: 6 open, chain 3, pairs 2, searches 6."),
    ("depots", "Opening depots 5 shrank the chain: 6 open, chain 3, pairs 2, searches 6."),
    ("a depot closed", "Closing depot 5 shrank the chain: 6 open, chain 3, pairs 2, searches 6."),
    ("a link of one code", "Linking 3 shrank the chain: 6 open, chain 3, pairs 2, searches 6."),
    ("a link of three", "Linking 3 and 5 and 7 shrank the chain: 6 open, chain 3, pairs 2, searches 6."),
    ("two depots", "Opening depot 3 and 5 shrank the chain: 6 open, chain 3, pairs 2, searches 6."),
    ("no middle", "Opening depot 5: 6 open, chain 3, pairs 2, searches 6."),
    ("another middle", "Opening depot 5 lost the chain: 6 open, chain 3, pairs 2, searches 6."),
    ("a refusal without its number", "Opening depot 5 was refused: 6 open, chain 3, pairs 2, searches 6."),
    ("a letter and a refusal", "Opening depot 5 kept the chain was refused with 7: 6 open, chain 3, pairs 2, searches 6."),
    ("figures in another order", "Opening depot 5 shrank the chain: 6 open, pairs 2, chain 3, searches 6."),
    ("a figure less", "Opening depot 5 shrank the chain: 6 open, chain 3, pairs 2."),
    ("a figure more", "Opening depot 5 shrank the chain: 6 open, chain 3, pairs 2, searches 6, 7."),
    ("a report line", "6 S 6 3 2 6"),
    ("a soft hyphen", "Open\u{AD}ing depot 5 shrank the chain: 6 open, chain 3, pairs 2, searches 6."),
];
