//! The program `narrate`: its output by the plain implementation, at lines that were worked out by hand; and as a process, its whole output byte for byte
//! beside the plain implementation, and line by line beside that of `follow`.
mod inputs;
mod plain;
mod process;

use inputs::lines::{link_line, longest_line, notice_line, some_input, yard_line};
use inputs::{Dice, Growth, SHAPES};
use plain::sentences::{outcome_of, Answer};
use plain::{narrate, stream};
use process::{assert_same, ended, failed, program, repository, written_and_said};
use std::fs::{self, File};
use std::io::{BufRead, BufReader, Read, Write};
use std::os::fd::OwnedFd;
use std::os::unix::net::UnixStream;
use std::process::{Child, Command, Stdio};
use std::thread;

/// A line of reports and one of sentences say the same: that of a garbled line is the report itself. True if it is a sentence.
fn assert_alike(report: &str, line: &str) -> bool {
    let Some(outcome) = outcome_of(line.as_bytes()) else {
        assert_eq!(line, report);
        assert!(report.contains(" R9 "));
        return false;
    };
    let answer = match outcome.answer {
        Answer::Grew => "G".to_string(),
        Answer::Kept => "K".to_string(),
        Answer::Shrank => "S".to_string(),
        Answer::Refused(number) => format!("R{number}"),
    };
    let told = format!("{answer} {} {} {} {}", outcome.depots, outcome.chain, outcome.pairs, outcome.searches);
    assert_eq!(report.split_once(' ').expect("a report has fields").1, told, "{line}");
    assert_ne!(answer, "R9");
    true
}

/// Two whole outputs say the same; how many of the lines are sentences.
fn assert_all_alike(reports: &str, said: &str) -> usize {
    assert_eq!(reports.lines().count(), said.lines().count());
    reports.lines().zip(said.lines()).filter(|(report, line)| assert_alike(report, line)).count()
}

// ---- the plain implementation

/// The seven lines of rule 10.5, and behind them a yard, links and what is garbled.
const LINES: &[u8] =
    b"010000\n01010100\n01020101\n01030102\n01040103\n010503000204\n010503000204\n04FF0100\n02FF00\n0203FF\n0503\n\n020303\n02030700\n0203FE";

const SAID: &str = "Opening depot 0 kept the chain: 1 open, chain 0, pairs 0, searches 1.\n\
    Opening depot 1 grew the chain: 2 open, chain 1, pairs 1, searches 1.\n\
    Opening depot 2 grew the chain: 3 open, chain 2, pairs 1, searches 1.\n\
    Opening depot 3 grew the chain: 4 open, chain 3, pairs 1, searches 1.\n\
    Opening depot 4 grew the chain: 5 open, chain 4, pairs 1, searches 1.\n\
    Opening depot 5 shrank the chain: 6 open, chain 3, pairs 2, searches 6.\n\
    Opening depot 5 was refused with 5: 6 open, chain 3, pairs 2, searches 0.\n\
    Opening yard 255 kept the chain: 7 open, chain 3, pairs 2, searches 1.\n\
    Linking 255 and 0 was refused with 14: 7 open, chain 3, pairs 2, searches 0.\n\
    Linking 3 and 255 kept the chain: 7 open, chain 3, pairs 1, searches 2.\n\
    11 R9 7 3 1 0\n12 R9 7 3 1 0\n\
    Linking 3 and 3 was refused with 13: 7 open, chain 3, pairs 1, searches 0.\n\
    14 R9 7 3 1 0\n15 R9 7 3 1 0\n";

#[test]
fn by_hand() {
    assert_same(narrate::output(LINES).as_bytes(), SAID);
    for (input, said) in [
        (&b""[..], ""),
        (b"\n", "1 R9 0 0 0 0\n"),
        (b"010000", "1 R9 0 0 0 0\n"),
        (b"020000\n", "Linking 0 and 0 was refused with 4: 0 open, chain 0, pairs 0, searches 0.\n"),
        (b"010A0109\n", "Opening depot 10 was refused with 8: 0 open, chain 0, pairs 0, searches 0.\n"),
        (
            b"04FF00\n04FE00\n",
            "Opening yard 255 kept the chain: 1 open, chain 0, pairs 0, searches 1.\n\
             Opening yard 254 was refused with 6: 1 open, chain 0, pairs 0, searches 0.\n",
        ),
    ] {
        assert_same(narrate::output(input).as_bytes(), said);
    }
}

/// Reports and sentences of one input say the same, line by line.
#[test]
fn both_outputs_say_the_same() {
    let (mut sentences, mut lines) = (0, 0);
    for seed in 0..300 {
        let mut dice = Dice::new(60_000_000 + seed);
        let size = 1 + dice.below(60);
        let input = some_input(&mut dice, size);
        let reports = stream::output(&input);
        sentences += assert_all_alike(&reports, &narrate::output(&input));
        lines += reports.lines().count();
    }
    assert!(sentences > 10_000 && lines - sentences > 1_000, "{sentences} sentences, {lines} lines");
}

/// The day as sentences stands in a file beside the day, and the file has what the plain implementation writes; the README shows three lines of it, as they
/// stand there.
#[test]
fn the_day_in_sentences() {
    let said = fs::read_to_string(repository().join("examples/day.sentences.txt")).expect("the file is there");
    assert_same(narrate::output(&day()).as_bytes(), &said);
    let page = fs::read_to_string(repository().join("README.md")).expect("the page is there");
    let behind = page.split("three lines of the day as sentences:\n\n```text\n").nth(1).expect("the page has the lines");
    let block = behind.split("```").next().expect("they have an end");
    assert_eq!(block.lines().count(), 3);
    for line in block.lines() {
        assert!(said.lines().any(|there| there == line), "{line}");
    }
}

fn day() -> Vec<u8> {
    fs::read(repository().join("examples/day.txt")).expect("the file is there")
}

// ---- the program

fn start(name: &str, stdin: Stdio) -> Child {
    Command::new(program(name)).stdin(stdin).stdout(Stdio::piped()).stderr(Stdio::piped()).spawn().expect("the program starts")
}

/// The whole output of a program for an input that comes over a pipe; it has gone well, and said nothing else.
fn run(name: &str, input: &[u8]) -> String {
    let mut child = start(name, Stdio::piped());
    let mut stdin = child.stdin.take().expect("a pipe");
    thread::scope(|scope| {
        scope.spawn(move || {
            // a program that has had its lines ends before it has read all
            let _ = stdin.write_all(input);
        });
        let (written, said) = written_and_said(child);
        assert_eq!(said, "");
        written
    })
}

/// Runs `narrate` and `follow` on an input: the one writes what the plain implementation writes, and both say the same.
fn follow_and_narrate(input: &[u8]) {
    let said = run("narrate", input);
    assert_same(said.as_bytes(), &narrate::output(input));
    assert_all_alike(&run("follow", input), &said);
}

#[test]
fn the_lines_by_hand() {
    assert_same(run("narrate", LINES).as_bytes(), SAID);
    for input in [LINES, b"", b"\n", b"0", b"010000", b"010000\n0101010", b"\0\n\xFF\n\xFF", b"010a00\n010000\r\n010000\n"] {
        follow_and_narrate(input);
    }
}

/// Standard input is the file, as in a shell.
#[test]
fn the_day_as_a_process() {
    let file = File::open(repository().join("examples/day.txt")).expect("the file opens");
    assert_eq!(written_and_said(start("narrate", file.into())), (narrate::output(&day()), String::new()));
    follow_and_narrate(&day());
}

#[test]
fn many_inputs() {
    for seed in 0..200 {
        let mut dice = Dice::new(61_000_000 + seed);
        let size = 1 + dice.below(if seed % 10 == 0 { 256 } else { 40 });
        follow_and_narrate(&some_input(&mut dice, size));
    }
}

/// 256 depots and yards, and links among them.
#[test]
fn growths_of_256_depots() {
    for (seed, shape) in SHAPES.into_iter().enumerate() {
        let mut dice = Dice::new(62_000_000 + seed as u64);
        let growth = Growth::new(&mut dice, shape).with_yards(&mut dice);
        let mut input: Vec<u8> = (0..256).flat_map(|i| growth.line(&mut dice, i, 256)).collect();
        input.extend((0..200).flat_map(|_| link_line(dice.byte(), dice.byte())));
        follow_and_narrate(&input);
    }
}

/// The longest line that reads, one that is too long, and megabytes without an ending.
#[test]
fn long_lines() {
    let mut input = notice_line(0, &[]);
    input.extend((1..255).flat_map(|code| notice_line(code, &[0])));
    input.extend(longest_line());
    input.extend(b"0".repeat(518));
    input.extend(b"\n010000\n");
    input.extend(b"0".repeat(3_000_000));
    follow_and_narrate(&input);
}

/// Far more comes out than goes in, and nothing behind the millionth line.
#[test]
fn a_million_lines() {
    let mut input = notice_line(0, &[]);
    input.extend(yard_line(255, &[0]));
    input.extend(link_line(200, 100).repeat(999_990));
    input.extend(b"\n".repeat(20));
    let said = run("narrate", &input);
    assert_eq!(said.lines().count(), 1_000_000);
    assert_same(said.as_bytes(), &narrate::output(&input));
    assert!(said.contains(
        "
Linking 200 and 100 was refused with 4: 2 open, chain 0, pairs 0, searches 0.
999993 R9 2 0 0 0
"
    ));
    assert!(said.ends_with(
        "
1000000 R9 2 0 0 0
"
    ));
}

/// A sentence comes when its line has come, before more is sent.
#[test]
fn a_screen_on_a_pipe() {
    let mut child = start("narrate", Stdio::piped());
    let mut stdin = child.stdin.take().expect("a pipe");
    let mut written = BufReader::new(child.stdout.take().expect("a pipe"));
    let mut said = String::new();
    for (line, expected) in LINES.split_inclusive(|&b| b == 0x0A).zip(SAID.split_inclusive('\n')) {
        if !line.ends_with(b"\n") {
            // the last stretch is a line only when the input ends
            stdin.write_all(line).expect("the program reads");
            break;
        }
        stdin.write_all(line).expect("the program reads");
        let mut sentence = String::new();
        written.read_line(&mut sentence).expect("it writes");
        assert_eq!(sentence, expected);
        said += &sentence;
    }
    drop(stdin);
    written.read_to_string(&mut said).expect("it writes");
    assert_same(said.as_bytes(), SAID);
    assert_eq!(written_and_said(child), (String::new(), String::new()));
}

// ---- what goes wrong is said

#[test]
fn a_full_device() {
    let full = File::options().write(true).open("/dev/full").expect("the device opens");
    let day = File::open(repository().join("examples/day.txt")).expect("the file opens");
    let child = Command::new(program("narrate")).stdin(day).stdout(full).stderr(Stdio::piped()).spawn().expect("the program starts");
    assert_eq!(failed(child).1, "narrate: standard output: No space left on device\n");
}

#[test]
fn a_directory_as_input() {
    let child = start("narrate", File::open(repository()).expect("the folder opens").into());
    assert_eq!(failed(child), (String::new(), "narrate: standard input: Is a directory\n".into()));
}

/// What had come before the read that fails is told, the last stretch too, and then it is said.
#[test]
fn a_read_that_would_block() {
    let (mut here, there) = UnixStream::pair().expect("a pair of sockets");
    here.write_all(b"010000\n01010100\n0102").expect("the socket takes it");
    there.set_nonblocking(true).expect("a socket can");
    let child = start("narrate", OwnedFd::from(there).into());
    let expected = narrate::output(b"010000\n01010100\n0102");
    assert_eq!(failed(child), (expected, "narrate: standard input: Resource temporarily unavailable\n".into()));
}

/// With `--help` as its only argument the program prints its usage, and reads nothing. Any other argument is wrong usage, which is said on standard error.
#[test]
fn usage() {
    let with = |arguments: &[&str]| {
        let mut child = Command::new(program("narrate"))
            .args(arguments)
            .stdin(Stdio::piped())
            .stdout(Stdio::piped())
            .stderr(Stdio::piped())
            .spawn()
            .expect("the program starts");
        let open = child.stdin.take();
        let all = ended(child);
        drop(open);
        all
    };
    let (status, written, said) = with(&["--help"]);
    assert_eq!((status, said.as_str()), (0, ""));
    assert!(written.starts_with("Usage: narrate < NOTICES > SENTENCES\n"), "{written}");
    for word in ["Opening depot 5", "Opening yard 5", "Linking 3 and 5", "was refused with 7", "follow", "1,000,000 lines", "status"] {
        assert!(written.contains(word), "{word}");
    }
    for arguments in [&["-h"][..], &[""], &["notices.txt"], &["--help", "--help"], &["--help", ""], &["", "--help"], &["--hel"], &["--helpx"], &["-"], &["--"]] {
        let (status, written, said) = with(arguments);
        assert_eq!((status, written.as_str()), (2, ""), "{arguments:?}");
        assert!(said.starts_with("Usage: narrate < NOTICES > SENTENCES") && said.matches('\n').count() == 1 && said.ends_with('\n'), "{said}");
    }
}

/// A usage that cannot be written is a write that failed.
#[test]
fn usage_to_a_full_device() {
    let full = File::options().write(true).open("/dev/full").expect("the device opens");
    let child = Command::new(program("narrate")).arg("--help").stdout(full).stderr(Stdio::piped()).spawn().expect("the program starts");
    assert_eq!(failed(child).1, "narrate: standard output: No space left on device\n");
}
