//! Sentences by the plain implementation, at texts that were written by hand; and the safe type beside it.
mod inputs;
mod plain;

use inputs::outcomes::{edges, some_outcome, some_text, GARBLED};
use inputs::Dice;
use plain::sentences::{outcome_of, sentence_of, Answer, Event, Outcome};
use std::collections::HashSet;
use zorpedi::{sentence, Change, Refusal};

/// The outcome of the sentence of rule 18.2, and that sentence.
const SHRANK: Outcome = Outcome { event: Event::Depot(5), answer: Answer::Shrank, depots: 6, chain: 3, pairs: 2, searches: 6 };
const SENTENCE: &str = "Opening depot 5 shrank the chain: 6 open, chain 3, pairs 2, searches 6.";

/// The starts and the middles that there are.
const STARTS: [(Event, &str); 4] = [
    (Event::Depot(5), "Opening depot 5"),
    (Event::Yard(5), "Opening yard 5"),
    (Event::Link(3, 5), "Linking 3 and 5"),
    (Event::Closing(5), "Closing 5"),
];
const MIDDLES: [(Answer, &str); 4] = [
    (Answer::Shrank, "shrank the chain"),
    (Answer::Grew, "grew the chain"),
    (Answer::Kept, "kept the chain"),
    (Answer::Refused(7), "was refused with 7"),
];

fn assert_said(outcome: Outcome, text: &str) {
    assert_eq!(sentence_of(&outcome), text);
    assert_eq!(outcome_of(text.as_bytes()), Some(outcome), "{text}");
}

#[test]
fn the_sentence_of_the_rule() {
    assert_said(SHRANK, SENTENCE);
}

/// Letters and figures are free: a closing may make the chain grow, and a refused call may have searched.
#[test]
fn each_start_with_each_middle() {
    for (event, start) in STARTS {
        for (answer, middle) in MIDDLES {
            assert_said(Outcome { event, answer, ..SHRANK }, &format!("{start} {middle}: 6 open, chain 3, pairs 2, searches 6."));
        }
    }
    // a link tells its codes in frame order, and may name one twice
    for (first, second) in [(5, 3), (5, 5), (0, 65_535)] {
        let text = format!("Linking {first} and {second} kept the chain: 6 open, chain 3, pairs 2, searches 6.");
        assert_said(Outcome { event: Event::Link(first, second), answer: Answer::Kept, ..SHRANK }, &text);
    }
    // a refusal's number may be a letter's
    for number in 0..=255 {
        let text = format!("Closing 5 was refused with {number}: 6 open, chain 3, pairs 2, searches 6.");
        assert_said(Outcome { event: Event::Closing(5), answer: Answer::Refused(number), ..SHRANK }, &text);
    }
}

#[test]
fn the_shortest_and_the_longest() {
    let zeros = Outcome { event: Event::Closing(0), answer: Answer::Grew, depots: 0, chain: 0, pairs: 0, searches: 0 };
    assert_said(zeros, "Closing 0 grew the chain: 0 open, chain 0, pairs 0, searches 0.");
    let longest = Outcome {
        event: Event::Link(65_535, 65_535),
        answer: Answer::Refused(255),
        depots: 65_535,
        chain: 65_535,
        pairs: 4_294_967_295,
        searches: 65_535,
    };
    let text = "Linking 65535 and 65535 was refused with 255: 65535 open, chain 65535, pairs 4294967295, searches 65535.";
    assert_said(longest, text);
    assert_eq!(text.len(), 104);
}

/// In every place each number of its width reads, and no other, nor one that is written otherwise.
#[test]
fn numbers_at_the_edge_of_their_widths() {
    let (mut read, mut garbled) = (0, 0);
    for (text, reads) in edges() {
        assert_eq!(assert_read_or_garbled(text.as_bytes()), reads, "{text}");
        *if reads { &mut read } else { &mut garbled } += 1;
    }
    assert!(read > 300 && garbled > 500, "{read} read, {garbled} garbled");
}

#[test]
fn garbled_by_name() {
    for (name, text) in GARBLED {
        assert_eq!(outcome_of(text.as_bytes()), None, "{name}");
    }
    let twice = SENTENCE.repeat(2);
    let long = SENTENCE.to_string() + &" ".repeat(160);
    for text in [twice.as_bytes(), long.as_bytes(), b"\xFF", &[SENTENCE.as_bytes(), b"\xFF"].concat()] {
        assert_eq!(outcome_of(text), None);
    }
}

/// What is read of a text has that text for its sentence, or nothing is read.
fn assert_read_or_garbled(text: &[u8]) -> bool {
    let read = outcome_of(text);
    if let Some(outcome) = read {
        assert_eq!(sentence_of(&outcome).as_bytes(), text);
    }
    read.is_some()
}

/// Each byte in each place, left out and put in before it: only digits change a sentence into another.
#[test]
fn every_byte_in_every_place() {
    for (event, start) in STARTS {
        for (_, middle) in MIDDLES {
            let text = format!("{start} {middle}: 6 open, chain 3, pairs 2, searches 6.").into_bytes();
            for at in 0..text.len() {
                assert_eq!(outcome_of(&text[..at]), None);
                let (front, behind) = (&text[..at], &text[at + 1..]);
                assert!(!assert_read_or_garbled(&[front, behind].concat()));
                for byte in 0..=255 {
                    // each number has one digit, and a zero may not stand in front of it
                    let is_number = text[at].is_ascii_digit();
                    let changed = assert_read_or_garbled(&[front, &[byte], behind].concat());
                    assert_eq!(changed, if is_number { byte.is_ascii_digit() } else { byte == text[at] });
                    let put_in = assert_read_or_garbled(&[front, &[byte], &text[at..]].concat());
                    let behind_a_digit = at > 0 && text[at - 1].is_ascii_digit();
                    assert_eq!(put_in, byte.is_ascii_digit() && (behind_a_digit || is_number && byte != b'0'));
                }
            }
            assert!(matches!(outcome_of(&text), Some(outcome) if outcome.event == event));
        }
    }
}

/// Outcomes of few numbers, all of them: as many sentences as outcomes. 1, 11 and 110 side by side would show two that run together.
#[test]
fn no_two_share_a_sentence() {
    let codes = [0, 1, 10, 11, 110];
    let mut events: Vec<Event> = codes.into_iter().flat_map(|a| codes.map(|b| Event::Link(a, b))).collect();
    events.extend(codes.into_iter().flat_map(|code| [Event::Depot(code), Event::Yard(code), Event::Closing(code)]));
    let answers = [Answer::Grew, Answer::Kept, Answer::Shrank, Answer::Refused(0), Answer::Refused(1), Answer::Refused(11)];
    let figures = [0, 1, 11];
    let mut sentences = HashSet::new();
    for &event in &events {
        for answer in answers {
            for i in 0..81 {
                let figure = |n: usize| figures[i / 3usize.pow(n as u32) % 3];
                let outcome = Outcome { event, answer, depots: figure(0), chain: figure(1), pairs: figure(2).into(), searches: figure(3) };
                sentences.insert(sentence_of(&outcome));
            }
        }
    }
    assert_eq!(sentences.len(), 40 * 6 * 81);
}

#[test]
fn written_and_read_again() {
    for seed in 0..100_000 {
        let outcome = some_outcome(&mut Dice::new(40_000_000 + seed));
        let text = sentence_of(&outcome);
        assert!(text.len() <= 104 && text.is_ascii());
        assert_eq!(outcome_of(text.as_bytes()), Some(outcome), "{text}");
    }
}

#[test]
fn texts_that_are_nearly_sentences() {
    let (mut read, mut garbled) = (0, 0);
    for seed in 0..100_000 {
        let text = some_text(&mut Dice::new(41_000_000 + seed));
        if assert_read_or_garbled(&text) {
            read += 1;
        } else {
            garbled += 1;
        }
    }
    assert!(read > 5_000 && garbled > 50_000, "{read} read, {garbled} garbled");
}

// ---- the safe type

/// The same in the crate's types.
fn typed(outcome: &Outcome) -> sentence::Outcome {
    let event = match outcome.event {
        Event::Depot(code) => sentence::Event::Depot(code),
        Event::Yard(code) => sentence::Event::Yard(code),
        Event::Link(first, second) => sentence::Event::Link { first, second },
        Event::Closing(code) => sentence::Event::Closing(code),
    };
    let answer = match outcome.answer {
        Answer::Grew => Ok(Change::Grew),
        Answer::Kept => Ok(Change::Kept),
        Answer::Shrank => Ok(Change::Shrank),
        Answer::Refused(number) => Err(number),
    };
    let Outcome { depots, chain, pairs, searches, .. } = *outcome;
    sentence::Outcome { event, answer, depots, chain, pairs, searches }
}

/// What the crate reads of a text is what the plain implementation reads.
fn assert_parsed(text: &str) {
    let expected = outcome_of(text.as_bytes()).map(|outcome| typed(&outcome)).ok_or(Refusal::Garbled);
    assert_eq!(text.parse(), expected, "{text}");
}

#[test]
fn shown_and_parsed() {
    for (event, _) in STARTS {
        for (answer, _) in MIDDLES {
            let outcome = Outcome { event, answer, ..SHRANK };
            assert_eq!(typed(&outcome).to_string(), sentence_of(&outcome));
        }
    }
    for seed in 0..40_000 {
        let mut dice = Dice::new(51_000_000 + seed);
        let outcome = some_outcome(&mut dice);
        let text = sentence_of(&outcome);
        assert_eq!(typed(&outcome).to_string(), text);
        assert_eq!(text.parse(), Ok(typed(&outcome)));
        if let Ok(text) = String::from_utf8(some_text(&mut dice)) {
            assert_parsed(&text);
        }
    }
    edges().iter().for_each(|(text, _)| assert_parsed(text));
    GARBLED.iter().for_each(|(_, text)| assert_parsed(text));
}

/// A width is kept, as for any text.
#[test]
fn shown_in_columns() {
    let outcome = typed(&SHRANK);
    assert_eq!(format!("{outcome:>80}|{outcome:<75}|{outcome:.15}|"), format!("{SENTENCE:>80}|{SENTENCE:<75}|Opening depot 5|"));
}
