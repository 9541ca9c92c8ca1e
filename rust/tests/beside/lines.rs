//! Notice lines and report lines.
use crate::both::{read, report, write};
use crate::inputs::lines::{longest_line, some_frame, some_line};
use crate::inputs::Dice;
use crate::maps::any_memory;
use crate::plain::lines::Fields;
use crate::tally::Tally;

#[test]
fn notices_are_read() {
    let mut tally = Tally::new();
    for seed in 0..20_000 {
        let mut dice = Dice::new(7_000_000 + seed);
        let mut input = some_line(&mut dice);
        if dice.once_in(2) {
            // only the line in front is read
            let more = dice.below(40);
            input.extend(dice.bytes(more));
        }
        let mut m = any_memory(&mut dice);
        tally.count(read(&mut m, &input));
        let size = dice.pick(&[0, 1, 3, 128, 257]);
        m.set_lent(8, size);
        assert_eq!(read(&mut m, &input), 1);
    }
    tally.assert_all(&[0, 9], 2_000);
}

/// Every length around the limit of 517 bytes, with and without an ending, as digits and as other bytes.
#[test]
fn the_longest_lines() {
    let mut dice = Dice::new(8_000_000);
    let mut m = any_memory(&mut dice);
    for length in (0..20).chain(500..560) {
        for fill in [b'0', b'1', b'F', b'f', 0, 0x0A] {
            for count in [0, length / 2, 252, 253, 254, 255] {
                for end in 0..length {
                    if end + 25 < length && end > 10 {
                        continue;
                    }
                    let mut input = vec![fill; length];
                    let head = format!("0142{count:02X}");
                    for (place, byte) in input.iter_mut().zip(head.bytes()) {
                        *place = byte;
                    }
                    input[end] = 0x0A;
                    read(&mut m, &input);
                }
            }
        }
    }
    // the longest line: 255 neighbours; one byte more in front of its ending
    let line = longest_line();
    assert_eq!((line.len(), read(&mut m, &line), m.length, m.used), (517, 0, 258, 517));
    assert_eq!(m.frame.data[3..258], (0..=254).collect::<Vec<u8>>());
    assert_eq!(read(&mut m, &[&line[..516], b"0\n"].concat()), 9);
}

/// Only the whole line reads, and nothing that stands behind it plays a part.
#[test]
fn every_part_of_the_longest_line() {
    let mut m = any_memory(&mut Dice::new(8_100_000));
    let line = longest_line();
    for length in 0..517 {
        assert_eq!(read(&mut m, &line[..length]), 9, "{length} bytes");
    }
    assert_eq!(read(&mut m, &line), 0);
    assert_eq!((read(&mut m, &[&line[..], &line].concat()), m.used), (0, 517));
}

#[test]
fn faults_by_name() {
    let mut m = any_memory(&mut Dice::new(8_200_000));
    let zeros = [b'0'; 700];
    let faults: [(&str, &[u8]); 27] = [
        ("lower case", b"01ab00\n"),
        ("another letter", b"01G500\n"),
        ("a space between", b"01 0500\n"),
        ("a space behind", b"010500 \n"),
        ("a space before", b" 010500\n"),
        ("an odd digit", b"0105000\n"),
        ("the count above the neighbours", b"01050200\n"),
        ("the count below the neighbours", b"0105010001\n"),
        ("kind 0", b"000500\n"),
        ("kind 3", b"030500\n"),
        ("kind 5", b"050500\n"),
        ("kind 40", b"400500\n"),
        ("a yard without a count", b"0405\n"),
        ("a yard whose count is above the neighbours", b"04050200\n"),
        ("a yard whose count is below the neighbours", b"0405010001\n"),
        ("a link with a count", b"02010500\n"),
        ("a link with a third code", b"02010506\n"),
        ("a link of one code", b"0201\n"),
        ("a link of none", b"02\n"),
        ("no ending", b"010500"),
        ("an empty line", b"\n"),
        ("an empty input", b""),
        ("0D before the ending", b"010500\r\n"),
        ("too few bytes", b"0105\n"),
        ("a NUL byte", b"0105\x0000\n"),
        ("a byte above 127", b"0105\xB00\n"),
        ("no ending in the first 517 bytes", &zeros),
    ];
    for (name, line) in faults {
        assert_eq!(read(&mut m, line), 9, "{name}");
    }
}

#[test]
fn lines_with_others_behind_them() {
    let mut m = any_memory(&mut Dice::new(8_300_000));
    let lines: [(&[u8], usize, usize); 8] = [
        (b"010500\n", 3, 7),
        (b"010500\n010503000204\n", 3, 7),
        (b"01FF02FFFE\n\n\nxyz", 5, 11),
        (b"010503000204\n", 6, 13),
        (b"020105\n", 3, 7),
        (b"02FF00\n020105\n", 3, 7),
        (b"040503000204\n040500\n", 6, 13),
        (b"040500\n", 3, 7),
    ];
    for (input, length, used) in lines {
        assert_eq!((read(&mut m, input), m.length, m.used), (0, length, used));
    }
}

/// How many of the lines read that have some byte at some place of this one.
fn with_every_byte_in_every_place(line: &[u8]) -> u32 {
    let mut m = any_memory(&mut Dice::new(8_500_000));
    let mut tally = Tally::new();
    for place in 0..line.len() {
        for byte in 0..=255 {
            let mut other = line.to_vec();
            other[place] = byte;
            tally.count(read(&mut m, &other));
        }
    }
    tally.assert_only(&[0, 9]);
    tally.times(0)
}

/// The line of rule 7.2, that of a yard and that of a link: only other digits, and a neighbour count that is right, read.
#[test]
fn every_character_in_every_place() {
    // sixteen digits for the two of the code and the six of the neighbours, two for the kind, which may be 1 or 4, one for each other place
    assert_eq!(with_every_byte_in_every_place(b"010503000204\n"), 8 * 16 + 2 + 4);
    assert_eq!(with_every_byte_in_every_place(b"040503000204\n"), 8 * 16 + 2 + 4);
    // sixteen for the four of the codes
    assert_eq!(with_every_byte_in_every_place(b"020105\n"), 4 * 16 + 3);
    // the opening 010100 is as long as a link: the kind may be any of three digits, the count only the one
    assert_eq!(with_every_byte_in_every_place(b"010100\n"), 2 * 16 + 3 + 4);
}

#[test]
fn links_of_every_code() {
    let mut tally = Tally::new();
    for first in 0..=255 {
        for second in [0, 1, 10, 127, 255, first, 255 - first] {
            write_and_read(&[2, first, second], &mut tally);
        }
    }
    tally.assert_only(&[0]);
}

/// Bytes that differ from place to place and from seed to seed.
fn filled(length: usize, seed: usize) -> Vec<u8> {
    (0..length).map(|i| (7 * i + 13 * seed) as u8).collect()
}

/// Writes a frame, and reads what was written.
fn write_and_read(frame: &[u8], tally: &mut Tally) {
    let mut m = any_memory(&mut Dice::new(9_500_000));
    let answer = write(&mut m, frame);
    tally.count(answer);
    if answer == 0 {
        let line = m.line.data[..m.length].to_vec();
        assert_eq!((read(&mut m, &line), m.length, m.used), (0, frame.len(), line.len()));
        assert_eq!(m.frame.data[..m.length], frame[..]);
    }
}

#[test]
fn frames_of_every_count() {
    let mut tally = Tally::new();
    for count in 0..256 {
        for kind in [1, 4] {
            let frame = [&[kind, (7 * count) as u8, count as u8][..], &filled(count, count)].concat();
            write_and_read(&frame, &mut tally);
        }
    }
    tally.assert_only(&[0]);
}

/// Frames of 0 to 299 bytes: of the kinds 0 to 5, with the count 5, and with one that fits modulo 256.
#[test]
fn frames_of_every_length() {
    let mut tally = Tally::new();
    for length in 0..300 {
        for (kind, count) in (0..6).map(|kind| (kind, 5)).chain([1, 2, 4].map(|kind| (kind, length + 253))) {
            let mut frame = filled(length, length);
            for (place, byte) in [(0, kind), (2, count)] {
                if let Some(there) = frame.get_mut(place) {
                    *there = byte as u8;
                }
            }
            write_and_read(&frame, &mut tally);
        }
    }
    // of kinds 1 and 4 the 256 lengths from 3 on that fit their count, and 8 bytes with the count 5; of kind 2 three bytes, twice
    assert_eq!((tally.times(0), tally.times(9)), (516, 2_700 - 516));
}

#[test]
fn frames_are_written_and_read_again() {
    let mut tally = Tally::new();
    for seed in 0..20_000 {
        let mut dice = Dice::new(9_000_000 + seed);
        let mut frame = some_frame(&mut dice);
        match dice.below(12) {
            0 => frame[0] = dice.byte(),
            1 => frame[2] = dice.byte(),
            2 => frame.push(dice.byte()),
            3 => frame.truncate(dice.below(5)),
            4 => {
                let n = dice.below(300);
                frame = dice.bytes(n);
            }
            _ => {}
        }
        let mut m = any_memory(&mut dice);
        let answer = write(&mut m, &frame);
        tally.count(answer);
        if answer == 0 {
            let line = m.line.data[..m.length].to_vec();
            assert_eq!((read(&mut m, &line), m.used), (0, line.len()));
            assert_eq!(m.frame.data[..m.length], frame[..]);
        }
        let size = dice.pick(&[0, 1, 7, 516]);
        m.set_lent(9, size);
        assert_eq!(write(&mut m, &frame), 1);
    }
    tally.assert_all(&[0, 9], 2_000);
}

#[test]
fn reports_are_written() {
    let edges = [0, 1, 9, 10, 11, 99, 100, 101, 255, 256, 999, 1_000, 9_999, 10_000, 65_534, 65_535];
    let wide = [99_999, 100_000, 999_999, 1_000_000, 9_999_999, 10_000_000, 99_999_999, 1_000_000_000, u32::MAX - 1, u32::MAX];
    for seed in 0..20_000 {
        let mut dice = Dice::new(10_000_000 + seed);
        let small = |dice: &mut Dice| if dice.once_in(2) { dice.pick(&edges) } else { dice.word() as u16 };
        let large = |dice: &mut Dice| match dice.below(3) {
            0 => dice.pick(&wide),
            1 => u32::from(dice.pick(&edges)),
            _ => dice.word() as u32 >> dice.below(32),
        };
        let fields = Fields {
            number: large(&mut dice),
            answer: dice.byte(),
            depots: small(&mut dice),
            chain: small(&mut dice),
            pairs: large(&mut dice),
            searches: small(&mut dice),
        };
        let mut m = any_memory(&mut dice);
        assert_eq!(report(&mut m, fields), 0);
        let size = dice.below(48);
        m.set_lent(10, size);
        assert_eq!(report(&mut m, fields), 1);
    }
}

/// Every two of the numbers at which the count of digits changes, with every kind of answer.
#[test]
fn reports_of_every_count_of_digits() {
    let values = [0, 1, 9, 10, 99, 100, 255, 999, 1_000, 9_999, 10_000, 65_535, 99_999, 100_000, 1_000_000_000, u32::MAX];
    let mut m = any_memory(&mut Dice::new(10_500_000));
    for first in values {
        for second in values {
            for answer in [b'G', b'K', b'S', second as u8] {
                let (depots, chain, searches) = (second as u16, first as u16, (second / 3) as u16);
                assert_eq!(report(&mut m, Fields { number: first, answer, depots, chain, pairs: second, searches }), 0);
            }
        }
    }
}

#[test]
fn the_longest_report_and_every_answer() {
    let mut m = any_memory(&mut Dice::new(1));
    let longest = Fields { number: u32::MAX, answer: 255, depots: 65_535, chain: 65_535, pairs: u32::MAX, searches: 65_535 };
    assert_eq!((report(&mut m, longest), m.length), (0, 45));
    assert_eq!(m.out.data[..45], *b"4294967295 R255 65535 65535 4294967295 65535\n");
    for answer in 0..=255 {
        assert_eq!(report(&mut m, Fields { answer, ..longest }), 0);
    }
}
