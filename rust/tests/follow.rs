//! The program `follow` as a process: its whole output, byte for byte, beside the plain implementation.
mod inputs;
mod plain;
mod process;

use inputs::lines::{link_line, longest_line, notice_line, some_input, yard_line};
use inputs::{Dice, Growth, Shape, SHAPES};
use plain::stream::output;
use process::{assert_same, ended, failed, program, repository};
use std::fs::{self, File};
use std::io::{BufRead, BufReader, Read, Seek, Write};
use std::os::fd::OwnedFd;
use std::os::unix::net::UnixStream;
use std::path::Path;
use std::process::{Child, ChildStdin, Command, Stdio};
use std::sync::mpsc::{channel, Receiver, RecvTimeoutError};
use std::thread;
use std::time::Duration;

/// Longer than the program ever takes.
const LONG: Duration = Duration::from_secs(60);

fn start(stdin: Stdio) -> Child {
    Command::new(program("follow")).stdin(stdin).stdout(Stdio::piped()).stderr(Stdio::piped()).spawn().expect("the program starts")
}

/// Waits for the program's end: it has gone well, and said nothing else.
fn assert_ended(mut child: Child) {
    let mut said = String::new();
    child.stderr.take().expect("a pipe").read_to_string(&mut said).expect("what it says is text");
    assert_eq!((child.wait().expect("it ends").code(), said.as_str()), (Some(0), ""));
}

/// The whole output of an input that comes over a pipe.
fn run(input: &[u8]) -> Vec<u8> {
    let mut child = start(Stdio::piped());
    let mut stdin = child.stdin.take().expect("a pipe");
    let mut reports = Vec::new();
    thread::scope(|scope| {
        scope.spawn(move || {
            // a program that has had its lines ends before it has read all
            let _ = stdin.write_all(input);
        });
        child.stdout.take().expect("a pipe").read_to_end(&mut reports).expect("it writes");
    });
    assert_ended(child);
    reports
}

/// Runs the program on an input; its output is that of the plain implementation.
fn follow(input: &[u8]) {
    assert_same(&run(input), &output(input));
}

/// The same, the output standing here in full.
fn gives(input: &[u8], reports: &str) {
    assert_same(output(input).as_bytes(), reports);
    assert_same(&run(input), reports);
}

/// The example in README.md, as input and output: the block has the input in its first 16 columns.
fn day_of_the_readme() -> (String, String) {
    let page = fs::read_to_string(repository().join("README.md")).expect("the page is there");
    let behind = page.split("Its input on the left, its output on the right:\n\n```text\n").nth(1).expect("the page has the example");
    let block = behind.split("```").next().expect("the example has an end");
    let (mut input, mut reports) = (Vec::new(), String::new());
    for line in block.lines() {
        let (left, right) = line.split_at(16);
        input.push(left.trim_end());
        reports += right;
        reports.push('\n');
    }
    (input.join("\n"), reports)
}

/// The page has the file's lines, the last without an ending, and what the program writes for them; so does the plain implementation.
#[test]
fn the_day_of_the_readme() {
    let (input, reports) = day_of_the_readme();
    assert!(!reports.is_empty());
    let path = repository().join("examples/day.txt");
    assert_eq!(fs::read_to_string(&path).expect("the file is there"), input);
    gives(input.as_bytes(), &reports);
    // by the command of the page: standard input is the file
    let mut child = start(File::open(path).expect("the file opens").into());
    let mut written = Vec::new();
    child.stdout.take().expect("a pipe").read_to_end(&mut written).expect("it writes");
    assert_same(&written, &reports);
    assert_ended(child);
}

#[test]
fn the_seven_lines() {
    gives(
        b"010000\n01010100\n01020101\n01030102\n01040103\n010503000204\n010503000204\n",
        "1 K 1 0 0 1\n2 G 2 1 1 1\n3 G 3 2 1 1\n4 G 4 3 1 1\n5 G 5 4 1 1\n6 S 6 3 2 6\n7 R5 6 3 2 0\n",
    );
}

/// A path of five whose ends are linked, and the refusals of a link; one with a count, or with fewer codes, is garbled.
#[test]
fn links() {
    gives(
        b"020000\n010000\n01010100\n01020101\n01030102\n01040103\n020400\n020004\n020303\n020305\n020505\n02\n0200\n02000400\n020103\n020204",
        "1 R4 0 0 0 0\n2 K 1 0 0 1\n3 G 2 1 1 1\n4 G 3 2 1 1\n5 G 4 3 1 1\n6 G 5 4 1 1\n7 S 5 2 5 5\n8 R14 5 2 5 0\n9 R13 5 2 5 0\n\
         10 R4 5 2 5 0\n11 R4 5 2 5 0\n12 R9 5 2 5 0\n13 R9 5 2 5 0\n14 R9 5 2 5 0\n15 K 5 2 4 2\n16 R9 5 2 4 0\n",
    );
}

/// A depot among yards, a chain through them, a yard that is a shorter way, and the refusals of a yard, which are a depot's.
#[test]
fn yards() {
    gives(b"040000\n", "1 K 1 0 0 1\n");
    gives(
        b"04000101\n010000\n04010100\n04020101\n040100\n01030102\n0404020003\n04050103\n0405010\n040600\n0406020503\n0406010A\n01060105",
        "1 R8 0 0 0 0\n2 K 1 0 0 1\n3 K 2 0 0 1\n4 K 3 0 0 1\n5 R5 3 0 0 0\n6 G 4 3 1 1\n7 S 5 2 1 5\n8 K 6 2 1 1\n9 R9 6 2 1 0\n\
         10 R6 6 2 1 0\n11 R7 6 2 1 0\n12 R8 6 2 1 0\n13 R9 6 2 1 0\n",
    );
    // links of yards with each other, with a depot, and past them
    gives(
        b"010000\n04010100\n04020101\n04030102\n01040103\n020301\n020204\n020004\n020103\n020202\n",
        "1 K 1 0 0 1\n2 K 2 0 0 1\n3 K 3 0 0 1\n4 K 4 0 0 1\n5 G 5 4 1 1\n6 S 5 3 1 5\n7 K 5 3 1 2\n8 S 5 1 1 5\n9 R14 5 1 1 0\n10 R13 5 1 1 0\n",
    );
    // 256 yards, and none of them delivers
    let mut input = yard_line(0, &[]);
    input.extend((1..=255).flat_map(|code| yard_line(code, &[code as u8 - 1])));
    let reports: String = (1..=256).map(|number| format!("{number} K {number} 0 0 1\n")).collect();
    gives(&input, &reports);
}

#[test]
fn little_inputs() {
    gives(b"", "");
    gives(b"\n", "1 R9 0 0 0 0\n");
    gives(b"\n\n010000\n\n", "1 R9 0 0 0 0\n2 R9 0 0 0 0\n3 K 1 0 0 1\n4 R9 1 0 0 0\n");
    gives(b"010000", "1 R9 0 0 0 0\n");
    gives(b"010000\n01010100", "1 K 1 0 0 1\n2 R9 1 0 0 0\n");
    gives(b"0", "1 R9 0 0 0 0\n");
}

#[test]
fn bytes_that_no_line_may_have() {
    // small letters
    gives(b"010a00\n010A00\n010b010A\n010B010a\n", "1 R9 0 0 0 0\n2 K 1 0 0 1\n3 R9 1 0 0 0\n4 R9 1 0 0 0\n");
    // 0D before 0A, and alone
    gives(b"010000\r\n010000\n\r\n\r", "1 R9 0 0 0 0\n2 K 1 0 0 1\n3 R9 1 0 0 0\n4 R9 1 0 0 0\n");
    // NUL bytes
    gives(b"\0010000\n010000\n0101\0100\n\0\n\0", "1 R9 0 0 0 0\n2 K 1 0 0 1\n3 R9 1 0 0 0\n4 R9 1 0 0 0\n5 R9 1 0 0 0\n");
    follow(&[0; 100_000]);
    // bytes above 127, and every byte in a line of its own
    gives(b"\xB010000\n010000\n01010\x8A0\n\xFF\n\xFF", "1 R9 0 0 0 0\n2 K 1 0 0 1\n3 R9 1 0 0 0\n4 R9 1 0 0 0\n5 R9 1 0 0 0\n");
    let each: Vec<u8> = (0..=255).flat_map(|byte| [b"010".as_slice(), &[byte], b"00\n"].concat()).collect();
    follow(&each);
}

/// Some digits in front, 0 many times, and something behind.
fn around(front: &str, times: usize, behind: &str) -> Vec<u8> {
    format!("{front}{}{behind}", "0".repeat(times)).into_bytes()
}

/// 255 neighbours that do not rise are read in 517 bytes with the ending, and one byte less or more is garbled.
#[test]
fn lines_of_516_to_518_bytes() {
    for (times, number) in [(509, 9), (510, 7), (511, 9)] {
        let input = around("01AAFF", times, "\n010000\n");
        assert_eq!(input.len(), 6 + times + 8);
        gives(&input, &format!("1 R{number} 0 0 0 0\n2 K 1 0 0 1\n"));
        gives(&around("01AAFF", times, ""), "1 R9 0 0 0 0\n");
    }
    // 255 opens beside all others, once they are open
    let mut input = notice_line(0, &[]);
    input.extend((1..255).flat_map(|code| notice_line(code, &[0])));
    input.extend(longest_line());
    let reports = run(&input);
    assert_same(&reports, &output(&input));
    assert!(reports.ends_with(b"\n256 K 256 2 32131 1\n"));
}

#[test]
fn lines_of_megabytes() {
    let reports = "1 K 1 0 0 1\n2 R9 1 0 0 0\n3 G 2 1 1 1\n";
    gives(&around("010000\n", 5_000_000, "\n01010100\n"), reports);
    gives(&around("010000\n", 3_000_000, "010000\n01010100\n"), reports);
    gives(&around("", 4_000_000, ""), "1 R9 0 0 0 0\n");
    gives(&around("010000\n", 65_536 * 8 - 7, "\n01010100\n"), reports);
}

/// So many lines, as no shift has: a network of 200 depots that opens over the first half, links among them, and lines between that are refused in every
/// way.
fn many_lines(count: usize) -> Vec<u8> {
    let mut dice = Dice::new(30_000_000);
    let growth = Growth::new(&mut dice, Shape::Shortcuts).with_yards(&mut dice);
    let refused = ["", "010", "020000", "02000001", "0105", "01FF0101FE", "0105020100", "0105FF", "0100\r", "01050105", "04050105"];
    let mut input = Vec::new();
    let mut opened = 0;
    for i in 0..count {
        if i % 2_500 == 7 && opened < 200 {
            input.extend(growth.line(&mut dice, opened, 200));
            opened += 1;
        } else if i % 10_000 == 5_003 {
            let open = &growth.order[..opened];
            input.extend(link_line(dice.pick(open) as u8, dice.pick(open) as u8));
        } else {
            input.extend_from_slice(dice.pick(&refused).as_bytes());
            input.push(0x0A);
        }
    }
    input
}

/// A million lines are answered. The program then ends, though its input goes on, and does not read it to the end.
#[test]
fn more_than_a_million_lines() {
    let mut input = many_lines(1_000_050);
    let million = input.split_inclusive(|&b| b == 0x0A).take(1_000_000).map(<[u8]>::len).sum::<usize>();
    let expected = output(&input);
    assert_eq!(expected.lines().count(), 1_000_000);
    assert!(expected.contains(" S "));
    assert_same(&run(&input), &expected);

    input.resize(million + 20_000_000, 0x0A);
    let path = Path::new(env!("CARGO_TARGET_TMPDIR")).join("more_than_a_million_lines.txt");
    fs::write(&path, &input).expect("the file is written");
    let mut file = File::open(&path).expect("the file opens");
    let mut child = start(file.try_clone().expect("a second handle").into());
    let mut reports = Vec::new();
    child.stdout.take().expect("a pipe").read_to_end(&mut reports).expect("it writes");
    assert_same(&reports, &expected);
    assert_ended(child);
    // the two handles share their place
    let read = file.stream_position().expect("a place") as usize;
    assert!((million..million + 1_000_000).contains(&read), "{read} bytes read, the lines have {million}");
    fs::remove_file(path).expect("the file goes");
}

#[test]
fn exactly_a_million_lines_and_one_less() {
    for (count, end) in [(999_999, ""), (1_000_000, ""), (999_999, "010000"), (1_000_000, "010000")] {
        let mut input = vec![0x0A; count];
        input.extend_from_slice(end.as_bytes());
        let lines = (count + usize::from(!end.is_empty())).min(1_000_000);
        let reports: String = (1..=lines).map(|number| format!("{number} R9 0 0 0 0\n")).collect();
        gives(&input, &reports);
    }
}

/// Histories that are somewhat valid, with yards and links, and with refused and garbled lines between.
#[test]
fn many_inputs() {
    for seed in 0..300 {
        let mut dice = Dice::new(31_000_000 + seed);
        let size = 1 + dice.below(if seed % 10 == 0 { 256 } else { 40 });
        follow(&some_input(&mut dice, size));
    }
}

#[test]
fn growths_of_256_depots() {
    for (seed, shape) in SHAPES.into_iter().enumerate() {
        let mut dice = Dice::new(32_000_000 + seed as u64);
        let growth = Growth::new(&mut dice, shape);
        let input: Vec<u8> = (0..256).flat_map(|i| growth.line(&mut dice, i, 256)).collect();
        assert_eq!(output(&input).lines().filter(|line| !line.contains('R')).count(), 256);
        follow(&input);
        // the same shape with yards
        let growth = growth.with_yards(&mut dice);
        follow(&(0..256).flat_map(|i| growth.line(&mut dice, i, 256)).collect::<Vec<u8>>());
    }
}

/// A path or a tree of 256 depots, and every link of some codes with all others.
#[test]
fn links_of_256_depots() {
    for (seed, shape) in [Shape::Path, Shape::Heap].into_iter().enumerate() {
        let mut dice = Dice::new(34_000_000 + seed as u64);
        let growth = Growth::new(&mut dice, shape);
        let mut input: Vec<u8> = (0..256).flat_map(|i| growth.line(&mut dice, i, 256)).collect();
        for code in [0, 63, 64, 255] {
            let mut others: Vec<u8> = (0..=255).collect();
            dice.shuffle(&mut others);
            input.extend(others.iter().flat_map(|&other| if other % 2 == 0 { link_line(code, other) } else { link_line(other, code) }));
        }
        let expected = output(&input);
        assert_eq!(expected.lines().filter(|line| line.contains(" R13 ")).count(), 4);
        assert!(expected.contains(" R14 ") && expected.contains(" S "));
        assert_same(&run(&input), &expected);
    }
}

/// Two bunches of depots at the ends of a path, long or short: thousands of farthest pairs, of which openings and links make some nearer, and then all.
#[test]
fn bunches_on_a_path() {
    for (seed, length) in [6, 20, 40, 61, 62, 63, 64, 80].into_iter().enumerate() {
        let mut dice = Dice::new(35_000_000 + seed as u64);
        let mut input = notice_line(0, &[]);
        input.extend((1..length).flat_map(|code| notice_line(code, &[code as u8 - 1])));
        for code in length..220 {
            let end = if dice.once_in(2) { 0 } else { length - 1 };
            input.extend(notice_line(code, &[end as u8]));
        }
        for code in 220..256 {
            let mut near = [dice.below(code) as u8, dice.below(length) as u8];
            near.sort();
            input.extend(notice_line(code, &near[usize::from(near[0] == near[1])..]));
            input.extend(link_line(dice.below(code) as u8, dice.below(length) as u8));
            input.extend(link_line(dice.below(length) as u8, dice.below(length) as u8));
        }
        let expected = output(&input);
        let most = |field: usize| expected.lines().map(|line| line.split(' ').nth(field).expect("a field").parse::<usize>().expect("a number")).max();
        assert_eq!((most(3), most(4) > Some(3000), expected.contains(" S ")), (Some(length + 1), true, true));
        assert_same(&run(&input), &expected);
    }
}

/// The program on a pipe that stays open, and its reports line by line as they come.
struct Talk {
    child: Child,
    stdin: Option<ChildStdin>,
    reports: Receiver<String>,
}

impl Talk {
    fn begin() -> Talk {
        let mut child = start(Stdio::piped());
        let (stdin, stdout) = (child.stdin.take(), child.stdout.take().expect("a pipe"));
        let (sender, reports) = channel();
        thread::spawn(move || {
            for line in BufReader::new(stdout).lines() {
                sender.send(line.expect("a report is text")).expect("the test goes on");
            }
        });
        Talk { child, stdin, reports }
    }

    fn send(&mut self, bytes: &[u8]) {
        self.stdin.as_mut().expect("the pipe is open").write_all(bytes).expect("the program reads");
    }

    fn assert_report(&self, expected: Option<&str>) {
        let report = self.reports.recv_timeout(LONG).expect("the report comes before more is sent");
        assert_eq!(Some(report.as_str()), expected);
    }

    /// Waits a little, and no report comes.
    fn assert_quiet(&self) {
        assert_eq!(self.reports.recv_timeout(Duration::from_millis(3)), Err(RecvTimeoutError::Timeout), "a report of half a line");
    }

    /// The program ends its output by itself.
    fn assert_ended(self) {
        assert_eq!(self.reports.recv_timeout(LONG), Err(RecvTimeoutError::Disconnected), "more reports than lines");
        assert_ended(self.child);
    }
}

/// Lines in pieces of one to five bytes, with pauses: a report comes when its line has come, before more is sent, and not earlier. The last stretch
/// is a line only when the input ends.
#[test]
fn a_scanner_on_a_pipe() {
    let mut dice = Dice::new(33_000_000);
    let mut input = some_input(&mut dice, 12);
    input.truncate(1_500);
    input.extend_from_slice(b"\n\n0144");
    let expected = output(&input);
    let mut reports = expected.lines();
    let mut talk = Talk::begin();
    let mut rest = &input[..];
    while !rest.is_empty() {
        let line = rest.iter().position(|&b| b == 0x0A).map_or(rest.len(), |end| end + 1);
        let (piece, more) = rest.split_at(line.min(1 + dice.below(5)));
        talk.send(piece);
        if piece.ends_with(b"\n") {
            talk.assert_report(reports.next());
        } else {
            talk.assert_quiet();
        }
        rest = more;
    }
    assert_eq!(reports.clone().count(), 1);
    talk.stdin = None;
    talk.assert_report(reports.next());
    talk.assert_ended();
}

/// Several lines at once and the begin of another: all their reports come before more is sent.
#[test]
fn lines_in_bursts() {
    let input = many_lines(1_000);
    let expected = output(&input);
    let mut reports = expected.lines();
    let mut talk = Talk::begin();
    for piece in input.chunks(333) {
        talk.send(piece);
        for _ in piece.iter().filter(|&&b| b == 0x0A) {
            talk.assert_report(reports.next());
        }
        talk.assert_quiet();
    }
    assert_eq!(reports.next(), None);
    talk.stdin = None;
    talk.assert_ended();
}

/// The millionth line ends the program, though its input does not end: it does not wait for more.
#[test]
fn a_million_lines_on_a_pipe_that_stays_open() {
    let mut talk = Talk::begin();
    talk.send(&vec![0x0A; 1_000_000]);
    for number in 1..=1_000_000 {
        talk.assert_report(Some(&format!("{number} R9 0 0 0 0")));
    }
    assert!(talk.stdin.is_some());
    talk.assert_ended();
}

// ---- what goes wrong is said

/// The day's lines as standard input, and another standard output.
fn day_to(stdout: Stdio) -> (String, String) {
    let day = File::open(repository().join("examples/day.txt")).expect("the file opens");
    failed(Command::new(program("follow")).stdin(day).stdout(stdout).stderr(Stdio::piped()).spawn().expect("the program starts"))
}

#[test]
fn a_full_device() {
    let full = File::options().write(true).open("/dev/full").expect("the device opens");
    assert_eq!(day_to(full.into()).1, "follow: standard output: No space left on device\n");
}

#[test]
fn an_output_that_cannot_be_written() {
    let reading = File::open("/dev/null").expect("the device opens");
    assert_eq!(day_to(reading.into()).1, "follow: standard output: Bad file descriptor\n");
}

#[test]
fn a_closed_output() {
    let child = Command::new("sh")
        .args(["-c", "exec \"$0\" >&-"])
        .arg(program("follow"))
        .stdin(File::open(repository().join("examples/day.txt")).expect("the file opens"))
        .stderr(Stdio::piped())
        .spawn()
        .expect("the shell starts");
    assert_eq!(failed(child).1, "follow: standard output: Bad file descriptor\n");
}

#[test]
fn a_directory_as_input() {
    let child = start(File::open(repository()).expect("the folder opens").into());
    assert_eq!(failed(child), (String::new(), "follow: standard input: Is a directory\n".into()));
}

/// What had come before the read that fails is answered, the last stretch too, and then it is said.
#[test]
fn a_read_that_would_block() {
    let (mut here, there) = UnixStream::pair().expect("a pair of sockets");
    here.write_all(b"010000\n01010100\n0102").expect("the socket takes it");
    there.set_nonblocking(true).expect("a socket can");
    let child = start(OwnedFd::from(there).into());
    let reports = "1 K 1 0 0 1\n2 G 2 1 1 1\n3 R9 2 1 1 0\n".to_string();
    assert_eq!(failed(child), (reports, "follow: standard input: Resource temporarily unavailable\n".into()));
}

/// With `--help` as its only argument the program prints its usage, and reads nothing. Any other argument is wrong usage, which is said on standard error.
#[test]
fn usage() {
    let with = |arguments: &[&str]| {
        let mut child = Command::new(program("follow"))
            .args(arguments)
            .stdin(Stdio::piped())
            .stdout(Stdio::piped())
            .stderr(Stdio::piped())
            .spawn()
            .expect("the program starts");
        let open = child.stdin.take();
        let all = ended(child);
        drop(open);
        all
    };
    let (status, written, said) = with(&["--help"]);
    assert_eq!((status, said.as_str()), (0, ""));
    assert!(written.starts_with("Usage: follow < NOTICES > REPORTS\n"), "{written}");
    let words = "G |K |S |taken|lonely|unsorted|unknown|garbled|020105|absent|itself|linked|yard|1,000,000 lines|status";
    for word in words.split('|') {
        assert!(written.contains(word), "{word}");
    }
    for arguments in [&["-h"][..], &[""], &["notices.txt"], &["--help", "--help"], &["--help", ""], &["", "--help"], &["--hel"], &["--helpx"], &["-"], &["--"]] {
        let (status, written, said) = with(arguments);
        assert_eq!((status, written.as_str()), (2, ""), "{arguments:?}");
        assert!(said.starts_with("Usage: follow < NOTICES > REPORTS") && said.matches('\n').count() == 1 && said.ends_with('\n'), "{said}");
    }
}

/// A usage that cannot be written is a write that failed.
#[test]
fn usage_to_a_full_device() {
    let full = File::options().write(true).open("/dev/full").expect("the device opens");
    let child = Command::new(program("follow")).arg("--help").stdout(full).stderr(Stdio::piped()).spawn().expect("the program starts");
    assert_eq!(failed(child).1, "follow: standard output: No space left on device\n");
}
