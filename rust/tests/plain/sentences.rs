//! Outcomes as English sentences, for the screens in the hall, and back. Written from the rules' words alone: numbers here have the widths of their
//! types, and a sentence is read by its words.
use std::str::FromStr;

/// The kind of a call, and its codes: those of a link in the order of the frame.
#[derive(Clone, Copy, Debug, PartialEq, Eq, Hash)]
pub enum Event {
    Depot(u16),
    Yard(u16),
    Link(u16, u16),
    Closing(u16),
}

/// A letter, or a refusal, whatever its number.
#[derive(Clone, Copy, Debug, PartialEq, Eq, Hash)]
pub enum Answer {
    Grew,
    Kept,
    Shrank,
    Refused(u8),
}

/// All that a sentence tells.
#[derive(Clone, Copy, Debug, PartialEq, Eq, Hash)]
pub struct Outcome {
    pub event: Event,
    pub answer: Answer,
    pub depots: u16,
    pub chain: u16,
    pub pairs: u32,
    pub searches: u16,
}

/// The sentence of an outcome, without a line end.
pub fn sentence_of(outcome: &Outcome) -> String {
    let Outcome { event, answer, depots, chain, pairs, searches } = outcome;
    let start = match event {
        Event::Depot(code) => format!("Opening depot {code}"),
        Event::Yard(code) => format!("Opening yard {code}"),
        Event::Link(first, second) => format!("Linking {first} and {second}"),
        Event::Closing(code) => format!("Closing {code}"),
    };
    let middle = match answer {
        Answer::Grew => "grew the chain".to_string(),
        Answer::Kept => "kept the chain".to_string(),
        Answer::Shrank => "shrank the chain".to_string(),
        Answer::Refused(number) => format!("was refused with {number}"),
    };
    format!("{start} {middle}: {depots} open, chain {chain}, pairs {pairs}, searches {searches}.")
}

/// The outcome that a text tells; none where it is garbled.
pub fn outcome_of(text: &[u8]) -> Option<Outcome> {
    let words: Vec<&str> = std::str::from_utf8(text).ok()?.split(' ').collect();
    let (event, behind) = match &words[..] {
        ["Opening", "depot", code, behind @ ..] => (Event::Depot(number(code)?), behind),
        ["Opening", "yard", code, behind @ ..] => (Event::Yard(number(code)?), behind),
        ["Linking", first, "and", second, behind @ ..] => (Event::Link(number(first)?, number(second)?), behind),
        ["Closing", code, behind @ ..] => (Event::Closing(number(code)?), behind),
        _ => return None,
    };
    let (answer, figures) = match behind {
        ["grew", "the", "chain:", figures @ ..] => (Answer::Grew, figures),
        ["kept", "the", "chain:", figures @ ..] => (Answer::Kept, figures),
        ["shrank", "the", "chain:", figures @ ..] => (Answer::Shrank, figures),
        ["was", "refused", "with", refusal, figures @ ..] => (Answer::Refused(number(refusal.strip_suffix(':')?)?), figures),
        _ => return None,
    };
    let [depots, "open,", "chain", chain, "pairs", pairs, "searches", searches] = figures else { return None };
    Some(Outcome {
        event,
        answer,
        depots: number(depots)?,
        chain: number(chain.strip_suffix(',')?)?,
        pairs: number(pairs.strip_suffix(',')?)?,
        searches: number(searches.strip_suffix('.')?)?,
    })
}

/// The number that is written so, if its type has it: neither +5 nor 05 is.
fn number<N: FromStr + ToString>(digits: &str) -> Option<N> {
    digits.parse().ok().filter(|number: &N| number.to_string() == digits)
}
