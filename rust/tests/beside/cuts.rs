//! Inputs of a stream, each cut into pieces of nine sizes with report buffers of six sizes: the output is that of the whole input, which stands
//! here in full for the fixed inputs.
use crate::both;
use crate::inputs::lines::{longest_line, notice_line};
use crate::inputs::Dice;
use crate::lent::{Buffer, Lent};
use crate::maps::any_memory;
use crate::plain::stream::output;
use crate::raw;

/// The whole input at once, a byte at a time, sizes that cut lines anywhere, and those about the longest line.
const PIECES: [usize; 9] = [100_000, 1, 2, 3, 7, 64, 516, 517, 518];

/// The least that takes a report, those about the least that is sure to take two, and more.
const ROOMS: [usize; 6] = [48, 49, 95, 96, 1000, 4096];

/// Feeds an input in pieces with this room for the reports, then ends it; answers all reports.
fn run(input: &[u8], piece: usize, room: usize, feed: fn(&mut Lent) -> u8, finish: fn(&mut Lent) -> u8) -> Vec<u8> {
    let mut m = any_memory(&mut Dice::new(22_000_000));
    assert_eq!(raw::empty(&mut m), 0);
    (m.lines, m.held) = (0, 0);
    m.out = Buffer { data: vec![b'.'; room + 3], lent: room };
    let (mut reports, mut at) = (Vec::new(), 0);
    while at < input.len() {
        m.input = Buffer::new(input[at..input.len().min(at + piece)].to_vec());
        assert_eq!(feed(&mut m), 0);
        assert!((1..=m.input.lent).contains(&m.used), "{} bytes used of {}", m.used, m.input.lent);
        at += m.used;
        reports.extend_from_slice(&m.out.data[..m.written]);
    }
    assert_eq!(finish(&mut m), 0);
    reports.extend_from_slice(&m.out.data[..m.written]);
    assert_eq!(m.out.data[room..], *b"...", "something is written behind the room");
    reports
}

fn feed_beside(m: &mut Lent) -> u8 {
    let piece = m.input();
    both::feed(m, &piece)
}

/// What the plain implementation gives comes out under every cut, and with all memory compared under two.
fn every_cut(input: &[u8]) {
    let expected = output(input);
    for piece in PIECES {
        for room in ROOMS {
            let reports = run(input, piece, room, raw::feed, raw::finish);
            assert_eq!(String::from_utf8_lossy(&reports), expected, "pieces of {piece}, room for {room}");
        }
    }
    for (piece, room) in [(64, 95), (100_000, 4096)] {
        assert_eq!(run(input, piece, room, feed_beside, both::finish), expected.as_bytes());
    }
}

fn given(input: &[u8], reports: &str) {
    assert_eq!(output(input), reports);
    every_cut(input);
}

#[test]
fn no_input_and_blank_lines_alone() {
    given(b"", "");
    given(b"\n", "1 R9 0 0 0 0\n");
    given(b"\n\n\n", "1 R9 0 0 0 0\n2 R9 0 0 0 0\n3 R9 0 0 0 0\n");
}

/// Without the last ending the seventh line is garbled, not taken.
#[test]
fn the_seven_lines() {
    let six = "010000\n01010100\n01020101\n01030102\n01040103\n010503000204\n";
    let reports = "1 K 1 0 0 1\n2 G 2 1 1 1\n3 G 3 2 1 1\n4 G 4 3 1 1\n5 G 5 4 1 1\n6 S 6 3 2 6\n";
    given(format!("{six}010503000204\n").as_bytes(), &format!("{reports}7 R5 6 3 2 0\n"));
    given(format!("{six}010503000204").as_bytes(), &format!("{reports}7 R9 6 3 2 0\n"));
}

/// A last stretch that is well formed but for its ending opens nothing.
#[test]
fn a_last_stretch() {
    given(b"010000", "1 R9 0 0 0 0\n");
    given(b"010000\n01010100", "1 K 1 0 0 1\n2 R9 1 0 0 0\n");
    given(b"010000\n01010100\n\n0", "1 K 1 0 0 1\n2 G 2 1 1 1\n3 R9 2 1 1 0\n4 R9 2 1 1 0\n");
}

#[test]
fn blank_lines_between() {
    let reports = "1 R9 0 0 0 0\n2 K 1 0 0 1\n3 R9 1 0 0 0\n4 R9 1 0 0 0\n5 G 2 1 1 1\n6 R9 2 1 1 0\n";
    given(b"\n010000\n\n\n01010100\n\n", reports);
}

/// NUL bytes, 0D before 0A and bytes above 127: in place of a digit, before one, behind the last, and alone.
#[test]
fn other_bytes() {
    given(
        b"010000\n\x00\n01010100\x00\n\x00\x0001010100\n0101\x000100\n01010100\n\x00",
        "1 K 1 0 0 1\n2 R9 1 0 0 0\n3 R9 1 0 0 0\n4 R9 1 0 0 0\n5 R9 1 0 0 0\n6 G 2 1 1 1\n7 R9 2 1 1 0\n",
    );
    given(
        b"010000\r\n010000\n\r\n01010100\r\n\r01010100\n01010100\n\r",
        "1 R9 0 0 0 0\n2 K 1 0 0 1\n3 R9 1 0 0 0\n4 R9 1 0 0 0\n5 R9 1 0 0 0\n6 G 2 1 1 1\n7 R9 2 1 1 0\n",
    );
    given(
        b"\x80\xff\n0100\xb00\n010000\n0101010\xb0\n\x8a01010100\n01010100\x8a\n01010100\n\xff",
        "1 R9 0 0 0 0\n2 R9 0 0 0 0\n3 K 1 0 0 1\n4 R9 1 0 0 0\n5 R9 1 0 0 0\n6 R9 1 0 0 0\n7 G 2 1 1 1\n8 R9 2 1 1 0\n",
    );
}

/// Digits are upper-case; the characters next to them in the table are none.
#[test]
fn digits() {
    given(b"010a00\n010A00\n010b010A\n010B010a\n010B010A\n", "1 R9 0 0 0 0\n2 K 1 0 0 1\n3 R9 1 0 0 0\n4 R9 1 0 0 0\n5 G 2 1 1 1\n");
    given(
        b"010/00\n010:00\n010@00\n010G00\n01 000\n0x0000\n010F00\n",
        "1 R9 0 0 0 0\n2 R9 0 0 0 0\n3 R9 0 0 0 0\n4 R9 0 0 0 0\n5 R9 0 0 0 0\n6 R9 0 0 0 0\n7 K 1 0 0 1\n",
    );
}

/// Each refusal with the figures of the map as it is: on the empty map neighbours are unsorted or unknown; then 5 (also where 7 holds too), 6, 7
/// (falling, equal, and where 8 holds too), 8 (unknown, and the new code itself), 9 (kind, counts, an odd digit); a link's are below.
#[test]
fn refusals() {
    given(
        b"0100020201\n01000101\n01000100\n000000\n010000\n010000\n",
        "1 R7 0 0 0 0\n2 R8 0 0 0 0\n3 R8 0 0 0 0\n4 R9 0 0 0 0\n5 K 1 0 0 1\n6 R5 1 0 0 0\n",
    );
    given(
        b"010000\n01010100\n01020101\n01010100\n0101020100\n010300\n0103020100\n0103020101\n0103020904\n01030104\n0103020003\n030300\n\
          010301\n0103000\n0103010201\n01030102\n",
        "1 K 1 0 0 1\n2 G 2 1 1 1\n3 G 3 2 1 1\n4 R5 3 2 1 0\n5 R5 3 2 1 0\n6 R6 3 2 1 0\n7 R7 3 2 1 0\n8 R7 3 2 1 0\n9 R7 3 2 1 0\n\
         10 R8 3 2 1 0\n11 R8 3 2 1 0\n12 R9 3 2 1 0\n13 R9 3 2 1 0\n14 R9 3 2 1 0\n15 R9 3 2 1 0\n16 G 4 3 1 1\n",
    );
}

/// A path of five whose ends are linked, and the refusals of a link: a closed code (also with itself), itself, linked, garbled.
#[test]
fn links() {
    given(
        b"020000\n010000\n020000\n01010100\n01020101\n01030102\n01040103\n020400\n020004\n020303\n020305\n020505\n02000\n02000400\n0200\n\
          02\n020103\n020301\n01050104\n020205",
        "1 R4 0 0 0 0\n2 K 1 0 0 1\n3 R13 1 0 0 0\n4 G 2 1 1 1\n5 G 3 2 1 1\n6 G 4 3 1 1\n7 G 5 4 1 1\n8 S 5 2 5 5\n9 R14 5 2 5 0\n\
         10 R13 5 2 5 0\n11 R4 5 2 5 0\n12 R4 5 2 5 0\n13 R9 5 2 5 0\n14 R9 5 2 5 0\n15 R9 5 2 5 0\n16 R9 5 2 5 0\n17 K 5 2 4 2\n\
         18 R14 5 2 4 0\n19 G 6 3 2 1\n20 R9 6 3 2 0\n",
    );
}

/// A depot among yards, a chain through them, a yard that shortens it, links of yards; and the refusals of a yard, which are a depot's.
#[test]
fn yards() {
    given(
        b"0400020201\n04000101\n040000\n040000\n010000\n040100\n04010100\n01020101\n04030102\n0104010\n040401\n01040103\n0405020204\n020103\n\
          020105\n020101\n01060105",
        "1 R7 0 0 0 0\n2 R8 0 0 0 0\n3 K 1 0 0 1\n4 R5 1 0 0 0\n5 R5 1 0 0 0\n6 R6 1 0 0 0\n7 K 2 0 0 1\n8 K 3 0 0 1\n9 K 4 0 0 1\n\
         10 R9 4 0 0 0\n11 R9 4 0 0 0\n12 G 5 2 1 1\n13 K 6 2 1 1\n14 K 6 2 1 2\n15 K 6 2 1 2\n16 R13 6 2 1 0\n17 R9 6 2 1 0\n",
    );
    // the path 0-1-2-3-4 of depots, which a yard closes to a ring, and a depot that is linked to the yard
    given(
        b"010000\n01010100\n01020101\n01030102\n01040103\n0405020004\n01060105\n020206\n",
        "1 K 1 0 0 1\n2 G 2 1 1 1\n3 G 3 2 1 1\n4 G 4 3 1 1\n5 G 5 4 1 1\n6 S 6 3 2 6\n7 G 7 4 1 1\n8 S 7 3 2 7\n",
    );
}

/// Some bytes, the digit 0 many times, and other bytes.
fn around(before: &str, times: usize, after: &str) -> Vec<u8> {
    format!("{before}{}{after}", "0".repeat(times)).into_bytes()
}

/// An overlong line up to its ending is one line, also where its last bytes are a good one, and what follows is read.
#[test]
fn overlong_lines() {
    for times in [600, 5_000] {
        given(&around("010000\n", times, "\n01010100\n"), "1 K 1 0 0 1\n2 R9 1 0 0 0\n3 G 2 1 1 1\n");
    }
    for times in [517, 5_000] {
        given(&around("", times, "010000\n010000\n"), "1 R9 0 0 0 0\n2 K 1 0 0 1\n");
    }
}

/// AA opens beside 255 neighbours that do not rise: 517 bytes with the ending are read, one or two more are not; nor is the line without its ending.
#[test]
fn lines_of_516_to_519_bytes() {
    for (times, number) in [(509, 9), (510, 7), (511, 9), (512, 9)] {
        given(&around("01AAFF", times, "\n010000\n"), &format!("1 R{number} 0 0 0 0\n2 K 1 0 0 1\n"));
    }
    for times in [509, 510, 511, 512, 5_000] {
        given(&around("01AAFF", times, ""), "1 R9 0 0 0 0\n");
    }
}

/// A path that closes to a ring, and a depot beside the first. All depots of a ring have the same eccentricity: no bound falls below it, so that all
/// are searched.
#[test]
fn rings_of_20_to_40_depots() {
    let code = |i: usize| 3 * i + 5;
    for size in 20..=40 {
        let mut input = notice_line(code(0), &[]);
        for i in 1..size - 1 {
            input.extend(notice_line(code(i), &[code(i - 1) as u8]));
        }
        input.extend(notice_line(code(size - 1), &[code(0) as u8, code(size - 2) as u8]));
        input.extend(notice_line(255, &[code(0) as u8]));
        let (half, pairs) = (size / 2, if size % 2 == 0 { size / 2 } else { size });
        assert!(output(&input).contains(&format!("\n{size} S {size} {half} {pairs} {size}\n")));
        every_cut(&input);
    }
}

/// The longest notice too early, so that most of its neighbours are closed; a star of 255 depots; and that notice again: the 254 depots beside 0 are
/// two links apart, 254 x 253 / 2 pairs, and stay so.
#[test]
fn the_full_map() {
    let mut input = b"010000\n".to_vec();
    input.extend(longest_line());
    for code in 1..255 {
        input.extend(notice_line(code, &[0]));
    }
    input.extend(longest_line());
    let reports = output(&input);
    assert!(reports.starts_with("1 K 1 0 0 1\n2 R8 1 0 0 0\n3 G 2 1 1 1\n"));
    assert!(reports.ends_with("\n257 K 256 2 32131 1\n"));
    every_cut(&input);
}
