//! Frames of both widths and their lines.
use crate::inputs::Dice;
use crate::plain::lines::{frame_of, line_of, notice_of, notice_of_line, Notice};
use crate::plain::shape::Shape;
use crate::plain::{CLOSING, NARROW, WIDE};
use crate::steps::{opening, yard_opening};

/// The high byte comes first; a code up to 255 has two frames, and both say the same.
#[test]
fn each_kind() {
    let kinds: [(&[u8], Notice); 13] = [
        (&[0x01, 5, 2, 0, 255], opening(5, &[0, 255])),
        (&[0x04, 5, 0], yard_opening(5, &[])),
        (&[0x02, 9, 2], Notice::Link(9, 2)),
        (&[0x03, 9], Notice::Closing(9)),
        (&[0x11, 1, 44, 0, 0], opening(300, &[])),
        (&[0x11, 0, 5, 0, 2, 0, 0, 0, 255], opening(5, &[0, 255])),
        (&[0x11, 255, 255, 0, 1, 255, 254], opening(65_535, &[65_534])),
        (&[0x14, 1, 0, 0, 1, 0, 1], yard_opening(256, &[1])),
        (&[0x12, 1, 44, 0, 5], Notice::Link(300, 5)),
        (&[0x12, 0, 9, 0, 2], Notice::Link(9, 2)),
        (&[0x13, 1, 44], Notice::Closing(300)),
        (&[0x13, 0, 9], Notice::Closing(9)),
        // judged by the opening, not here
        (&[0x11, 0, 1, 0, 2, 0, 9, 0, 1], opening(1, &[9, 1])),
    ];
    for (frame, notice) in kinds {
        let width = if frame[0] < 0x10 { 1 } else { 2 };
        assert_eq!(notice_of(&CLOSING, frame), Some(notice.clone()), "{frame:?}");
        assert_eq!(notice.frame(width), frame);
        let line = line_of(frame);
        assert_eq!(frame_of(&CLOSING, line.as_bytes()), Some((frame.to_vec(), line.len())));
        assert_eq!(notice_of(&WIDE, frame).is_some(), ![0x03, 0x13].contains(&frame[0]), "closings are no kind there");
        assert_eq!(notice_of(&NARROW, frame).is_some(), [1, 2, 4].contains(&frame[0]), "nor is any of two-byte codes here");
    }
}

/// A frame of this length reads if its kind is one of those that have such a length; the count is
/// right wherever there is one.
fn reads(byte: u8, length: usize) -> bool {
    match byte {
        0x01 | 0x04 => (3..=258).contains(&length),
        0x11 | 0x14 => length % 2 == 1 && (5..=1_027).contains(&length),
        0x02 => length == 3,
        0x12 => length == 5,
        0x03 => length == 2,
        0x13 => length == 3,
        _ => false,
    }
}

/// Every first byte at every length up to 1,040. Rules out a frame read past its end, one of an odd
/// length, and one above 1,027 bytes.
#[test]
fn every_kind_at_every_length() {
    for length in 0..1_040 {
        for byte in 0..=255 {
            let mut frame = vec![0; length];
            if length > 0 {
                frame[0] = byte;
            }
            match byte {
                0x01 | 0x04 if length >= 3 => frame[2] = (length - 3) as u8,
                0x11 | 0x14 if length >= 5 => {
                    let count = (length - 5) / 2;
                    (frame[3], frame[4]) = ((count / 256) as u8, count as u8);
                }
                _ => {}
            }
            assert_eq!(notice_of(&CLOSING, &frame).is_some(), length > 0 && reads(byte, length), "kind {byte:02X}, {length} bytes");
        }
    }
}

/// Every count of two bytes on a frame of three neighbours, and of 511 and 512: only the right one
/// reads. Rules out a count of one byte, and of the low byte first.
#[test]
fn every_count() {
    for neighbours in [3, 511, 512] {
        let mut frame = opening(7, &(100..100 + neighbours).collect::<Vec<_>>()).frame(2);
        for count in 0..65_536 {
            (frame[3], frame[4]) = ((count / 256) as u8, (count % 256) as u8);
            assert_eq!(notice_of(&WIDE, &frame).is_some(), count == neighbours && count < 512, "{count} of {neighbours}");
        }
    }
}

/// A line of this many bytes before its ending reads for a shape, being 0s but for the kind: 01 or
/// 11, and the count.
fn longest(shape: &Shape, neighbours: usize, width: usize) -> (usize, usize, bool) {
    let frame = opening(0, &vec![0; neighbours]).frame(width);
    let line = line_of(&frame);
    (frame.len(), line.len(), notice_of_line(shape, line.as_bytes()).is_some())
}

/// The longest frame of each width, and one neighbour more.
#[test]
fn the_longest_frames() {
    assert_eq!(longest(&NARROW, 255, 1), (NARROW.frame, NARROW.line, true));
    assert_eq!(longest(&WIDE, 255, 1), (258, 517, true));
    assert_eq!(longest(&WIDE, 511, 2), (WIDE.frame, WIDE.line, true));
    assert_eq!((WIDE.frame, WIDE.line), (1_027, 2_055));
    assert_eq!(longest(&WIDE, 512, 2), (1_029, 2_059, false));
    // above 517 bytes there are lines of two-byte codes alone: 126 neighbours have 515, 127 have
    // 519
    assert_eq!(longest(&WIDE, 126, 2), (257, 515, true));
    assert_eq!(longest(&WIDE, 127, 2), (259, 519, true));
}

/// The ending has to stand among the first 2,055 bytes, whatever the kind; what is after it is not
/// looked at.
#[test]
fn where_a_line_ends() {
    let line = line_of(&opening(0, &[0; 511]).frame(2)).into_bytes();
    assert_eq!(notice_of_line(&WIDE, &[&line[..], b"\n0102"].concat()), Some(opening(0, &[0; 511])));
    assert_eq!(notice_of_line(&WIDE, &line[..2_054]), None);
    let late = [&line[..2_054], b"0\n"].concat();
    assert_eq!(notice_of_line(&WIDE, &late), None);
    for (length, ends) in [(2_054, true), (2_055, false)] {
        let long = [vec![b'0'; length], b"\n".to_vec()].concat();
        assert_eq!(frame_of(&WIDE, &long), None);
        assert_eq!(long.iter().take(WIDE.line).any(|&b| b == 0x0A), ends);
    }
}

/// Bytes that are no digit, small letters, a digit too few, a blank line, a byte too many; each at
/// a frame that reads.
#[test]
fn garbled() {
    for line in [
        "1100050001012\n",
        "1100050001012c\n",
        "1100050001012C \n",
        "1100050001012C\r\n",
        " 1100050001012C\n",
        "1100050001012C00\n",
        "11000500010\n",
        "110005000101\n",
        "1100050002012C\n",
        "1100050100012C\n",
        "11000502000000\n",
        "11\n",
        "1100\n",
        "110005\n",
        "11000500\n",
        "12000500\n",
        "12000500060\n",
        "120005000600\n",
        "0300",
        "03\n",
        "030500\n",
        "13\n",
        "1305\n",
        "13000500\n",
        "10000500\n",
        "15000500\n",
        "F100050000\n",
        "\n",
        "",
    ] {
        assert_eq!(notice_of_line(&CLOSING, line.as_bytes()), None, "{line}");
    }
}

/// What is written reads as the same again, in each width in which it has room; no two frames have
/// one line.
#[test]
fn written_and_read_again() {
    for seed in 0..20_000 {
        let mut dice = Dice::new(65_000_000 + seed);
        let width = 1 + dice.below(2);
        let most = if width == 1 { 256 } else { 65_536 };
        let count = if dice.once_in(8) { dice.below(most.min(512)) } else { dice.below(5) };
        let mut some = || dice.below(most);
        let (code, other) = (some(), some());
        let neighbours: Vec<usize> = (0..count).map(|_| some()).collect();
        let notice = match seed % 4 {
            0 => opening(code, &neighbours),
            1 => yard_opening(code, &neighbours),
            2 => Notice::Link(code, other),
            _ => Notice::Closing(code),
        };
        let line = line_of(&notice.frame(width));
        assert!(line.len() <= if width == 1 { 517 } else { 2_055 });
        assert_eq!(notice_of_line(&CLOSING, line.as_bytes()), Some(notice));
    }
}
