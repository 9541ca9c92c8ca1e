//! The network report by the plain implementation, at values that were worked out by hand; and the program `survey` as a process, its whole output byte for
//! byte beside the plain implementation.
mod inputs;
mod plain;
mod process;

use inputs::lines::{notice_line, opening_line, some_input};
use inputs::{Dice, Growth, Shape, SHAPES};
use plain::stream::LINES;
use plain::summary::Mean;
use plain::survey::{output, FILES};
use plain::{Network, TODAY};
use process::{assert_same, ended, failed, program, repository, written_and_said};
use std::env;
use std::ffi::OsStr;
use std::fs::{self, File};
use std::io::Write;
use std::os::unix::ffi::OsStrExt;
use std::os::unix::fs::PermissionsExt;
use std::path::{Path, PathBuf};
use std::process::{Child, Command, Stdio};
use std::sync::atomic::{AtomicUsize, Ordering};
use std::sync::mpsc::channel;
use std::thread;
use std::time::Duration;

/// The network of these links, and of the depots that they name.
fn network(links: &[(usize, usize)]) -> Network {
    let mut network = Network::empty();
    for &(u, v) in links {
        network.open.extend([u, v]);
        network.link(u, v);
    }
    network
}

/// The path of this many depots, from 0 on.
fn path(size: usize) -> Network {
    network(&(1..size).map(|v| (v - 1, v)).collect::<Vec<_>>())
}

/// Sum, pairs, quotient and remainder, and the counts that are not 0, each with its eccentricity.
fn summary(network: &Network) -> ([u64; 4], Vec<(usize, u16)>) {
    let summary = network.summary(TODAY).expect("two depots or more");
    let Mean { sum, pairs, quotient, remainder } = summary.mean;
    assert_eq!(summary.counts.len(), 256);
    let counts = summary.counts.into_iter().enumerate().filter(|&(_, n)| n != 0).collect();
    ([sum, pairs, quotient, remainder], counts)
}

/// On the path of seven 6 pairs are one handover apart, 5 two, 4 three, 3 four, 2 five and 1 six: 6 + 10 + 12 + 12 + 10 + 6 = 56 over 6 + 5 + 4 + 3 + 2
/// + 1 = 21 pairs, and 56 = 2 × 21 + 14. The middle, 3, has eccentricity 3; 2 and 4 have 4, 1 and 5 have 5, the ends 6.
#[test]
fn the_path_of_seven() {
    assert_eq!(summary(&path(7)), ([56, 21, 2, 14], vec![(3, 1), (4, 2), (5, 2), (6, 2)]));
}

/// One link: its pair is one apart, and both ends have eccentricity 1.
#[test]
fn two_depots() {
    assert_eq!(summary(&network(&[(7, 200)])), ([1, 1, 1, 0], vec![(1, 2)]));
}

/// A ring of five: 5 pairs are linked, the other 5 two apart: 15 = 1 × 10 + 5. No depot is farther than two from another.
#[test]
fn a_ring_of_five() {
    assert_eq!(summary(&network(&[(9, 0), (0, 64), (64, 255), (255, 3), (3, 9)])), ([15, 10, 1, 5], vec![(2, 5)]));
}

/// A middle with four depots about it: 4 pairs are linked, and 4 × 3 / 2 = 6 are two apart: 4 + 12 = 16 = 1 × 10 + 6.
#[test]
fn a_star_of_five() {
    assert_eq!(summary(&network(&[(100, 1), (100, 2), (100, 254), (100, 255)])), ([16, 10, 1, 6], vec![(1, 1), (2, 4)]));
}

/// The longest path: a distance d occurs 256 − d times, and the sum over d of d (256 − d) is (256³ − 256) / 6 = 2,796,160, over 256 × 255 / 2 = 32,640
/// pairs: 85 × 32,640 = 2,774,400, and 21,760 are left. From the two middles the far end is 128 away, and each eccentricity up to 255 has two depots.
#[test]
fn the_longest_path() {
    assert_eq!(summary(&path(256)), ([2_796_160, 32_640, 85, 21_760], (128..256).map(|e| (e, 2)).collect()));
}

#[test]
fn too_few() {
    let mut network = Network::empty();
    assert_eq!(network.summary(TODAY), None);
    network.open.insert(5);
    assert_eq!(network.summary(TODAY), None);
}

// ---- the program

const PATH: &str = "010000\n01010100\n01020101\n";
const PAIR: &str = "010A00\n010B010A\n";

/// Longer than the program ever takes.
const LONG: Duration = Duration::from_secs(60);

/// A folder with the files of one run, which it takes along when it goes.
struct Folder(PathBuf);

impl Folder {
    fn new() -> Folder {
        static COUNT: AtomicUsize = AtomicUsize::new(0);
        let number = COUNT.fetch_add(1, Ordering::Relaxed);
        let path = Path::new(env!("CARGO_TARGET_TMPDIR")).join(format!("survey-{}-{number}", std::process::id()));
        fs::create_dir_all(&path).expect("the folder is made");
        Folder(path)
    }

    /// With a path of three depots and a pair, by names that say so.
    fn with_two() -> Folder {
        let folder = Folder::new();
        folder.put("path.txt", PATH);
        folder.put("pair.txt", PAIR);
        folder
    }

    fn put(&self, name: impl AsRef<Path>, bytes: impl AsRef<[u8]>) {
        fs::write(self.0.join(name), bytes).expect("the file is written");
    }

    fn put_fifo(&self, name: &str) -> PathBuf {
        let path = self.0.join(name);
        assert!(Command::new("mkfifo").arg(&path).status().expect("mkfifo starts").success());
        path
    }

    /// The program in this folder, by these names.
    fn command<N: AsRef<OsStr>>(&self, names: &[N]) -> Command {
        let mut command = Command::new(program("survey"));
        command.current_dir(&self.0).args(names).stdin(Stdio::null()).stdout(Stdio::piped()).stderr(Stdio::piped());
        command
    }

    fn start<N: AsRef<OsStr>>(&self, names: &[N]) -> Child {
        self.command(names).spawn().expect("the program starts")
    }

    fn run<N: AsRef<OsStr>>(&self, names: &[N]) -> (String, String) {
        written_and_said(self.start(names))
    }

    /// Something goes wrong: its status is 1, and each line that it says is of one of the names.
    fn fails<N: AsRef<OsStr>>(&self, names: &[N]) -> (String, String) {
        let (status, written, said) = ended(self.start(names));
        assert_eq!(status, 1);
        (written, said)
    }
}

impl Drop for Folder {
    fn drop(&mut self) {
        let _ = fs::remove_dir_all(&self.0);
    }
}

/// Runs the program on files of these contents: it writes what the plain implementation does, and says nothing. That is the output.
fn survey<F: AsRef<[u8]>>(files: &[F]) -> String {
    let folder = Folder::new();
    let names: Vec<String> = (1..=files.len()).map(|number| format!("{number}.txt")).collect();
    for (name, file) in names.iter().zip(files) {
        folder.put(name, file);
    }
    let (written, said) = folder.run(&names);
    assert_same(written.as_bytes(), &output(files));
    assert_eq!(said, "");
    written
}

/// The same, the output standing here in full.
fn gives<F: AsRef<[u8]>>(files: &[F], reports: &str) {
    assert_same(survey(files).as_bytes(), reports);
}

/// The example: a ring of seven with two depots behind each other at one of its own, and a network with two lines that are refused. The ring has
/// 7 × 12 / 2 = 42, and the two 19 and 26 to its depots and 1 between them.
#[test]
fn the_example() {
    let names = ["examples/north.txt", "examples/south.txt"];
    let reports = "88 36 2 16\n39 21 1 18\n127 57 2 13\n";
    let files = names.map(|name| fs::read(repository().join(name)).expect("the file is there"));
    assert_same(output(&files).as_bytes(), reports);
    let mut command = Command::new(program("survey"));
    command.current_dir(repository()).args(names).stdout(Stdio::piped()).stderr(Stdio::piped());
    assert_eq!(written_and_said(command.spawn().expect("the program starts")), (reports.into(), "".into()));
}

/// A path of three has 1 + 1 + 2 = 4 over 3 pairs, one of two 1 over 1: together 5 over 4, which is not the mean of 4/3 and 1.
#[test]
fn two_files() {
    gives(&[PATH, PAIR], "4 3 1 1\n1 1 1 0\n5 4 1 1\n");
}

/// A link is followed too: the path becomes a triangle, whose 3 pairs are linked.
#[test]
fn a_file_with_a_link() {
    gives(&[format!("{PATH}020002\n")], "3 3 1 0\n3 3 1 0\n");
}

#[test]
fn no_files() {
    gives::<&str>(&[], "0 0 0 0\n");
}

/// Two depots with two yards between them are three apart; a third yard beside both makes it two. Yards are neither summed up nor counted.
#[test]
fn files_with_yards() {
    let between = "010000\n04010100\n04020101\n01030102\n";
    gives(&[between.to_string(), format!("{between}0404020003\n"), PAIR.into()], "3 1 3 0\n2 1 2 0\n1 1 1 0\n6 3 2 0\n");
    // the path of seven with a yard in its middle, and one whose last depot is a yard
    let path = |yard: usize| -> Vec<u8> {
        let beside = |code: usize| if code == 0 { vec![] } else { vec![code as u8 - 1] };
        (0..7).flat_map(|code| opening_line(code == yard, code, &beside(code))).collect()
    };
    gives(&[path(3), path(6)], "44 15 2 14\n35 15 2 5\n79 30 2 19\n");
    // a link of two yards
    gives(&[format!("{between}04040102\n020104\n")], "3 1 3 0\n3 1 3 0\n");
}

/// An empty file, one without a good line, and one with a single depot are refused, and add nothing; so are yards, alone or with one depot among them.
#[test]
fn refused_maps() {
    gives(&["", "no notice\n", "010000\n"], "R15\nR15\nR15\n0 0 0 0\n");
    gives(&["", PAIR, "010000\n010000\n"], "R15\n1 1 1 0\nR15\n1 1 1 0\n");
    let yards = "040000\n04010100\n04020101\n";
    gives(&[yards.to_string(), format!("{yards}01030101\n"), PAIR.into()], "R15\nR15\n1 1 1 0\n1 1 1 0\n");
}

/// Lines that are refused are passed over; a last stretch without 0A is garbled, though it would have opened a depot.
#[test]
fn bad_lines() {
    gives(&["010A00\n01\n\n010B0105\n010B010A\n010C010B"], "1 1 1 0\n1 1 1 0\n");
}

/// A file that ends within a line says nothing of the next: each begins with an empty line and an empty map.
#[test]
fn a_file_that_is_cut_off() {
    gives(&["010A00\n010B01", "0A\n010A00\n", PAIR], "R15\nR15\n1 1 1 0\n1 1 1 0\n");
}

/// Two files of one name are two maps: each begins empty.
#[test]
fn the_same_file_twice() {
    let folder = Folder::with_two();
    assert_eq!(output(&[PAIR, PAIR]), "1 1 1 0\n1 1 1 0\n2 2 1 0\n");
    assert_eq!(folder.run(&["pair.txt", "pair.txt"]), ("1 1 1 0\n1 1 1 0\n2 2 1 0\n".into(), "".into()));
}

/// Past the first 1,000 nothing is reported or added; nor is it opened, or it would be said that it is not there. How many these are is said, and the status
/// is that of the others.
#[test]
fn files_past_the_most() {
    let folder = Folder::with_two();
    let mut names = vec!["pair.txt"; FILES - 1];
    let lines = |count| "1 1 1 0\n".repeat(count);
    assert_eq!(folder.run(&names), (lines(FILES - 1) + "999 999 1 0\n", "".into()));
    names.push("path.txt");
    let whole = lines(FILES - 1) + "4 3 1 1\n1003 1002 1 1\n";
    assert_same(output(&[vec![PAIR; FILES - 1], vec![PATH, PATH]].concat()).as_bytes(), &whole);
    assert_eq!(folder.run(&names), (whole.clone(), "".into()));
    for (more, count) in [("path.txt", "1 file"), ("missing.txt", "2 files"), ("", "3 files")] {
        names.push(more);
        let (written, said) = folder.run(&names);
        assert_same(written.as_bytes(), &whole);
        assert!(said.starts_with("survey: ") && said.contains(count) && said.matches('\n').count() == 1 && said.ends_with('\n'), "{said}");
    }
    // what goes wrong among the first is said besides, and is the status
    names[0] = "missing.txt";
    let (written, said) = folder.fails(&names);
    assert!(
        written.starts_with("R15\n1 1 1 0\n")
            && said.contains("missing.txt: No such file")
            && said.contains("3 files")
            && said.lines().count() == 2
    );
}

/// The greatest sums: 1,000 of the longest path, each 2,796,160 over 32,640 pairs, of which 21,760 are left over 85 times the pairs.
#[test]
fn the_longest_path_a_thousand_times() {
    let folder = Folder::new();
    let mut file = notice_line(0, &[]);
    file.extend((0..255).flat_map(|code| notice_line(code as usize + 1, &[code])));
    assert_eq!(output(&[&file]), "2796160 32640 85 21760\n2796160 32640 85 21760\n");
    folder.put("longest.txt", file);
    let lines = "2796160 32640 85 21760\n".repeat(FILES);
    assert_eq!(folder.run(&["longest.txt"; FILES]), (lines + "2796160000 32640000 85 21760000\n", "".into()));
}

/// Each file is closed behind it: a process that may have ten open goes through a hundred.
#[test]
fn few_descriptors() {
    let folder = Folder::with_two();
    let mut command = Command::new("sh");
    command.args(["-c", "ulimit -n 10 && exec \"$0\" \"$@\""]).arg(program("survey")).args(["pair.txt"; 100]);
    command.current_dir(&folder.0).stdout(Stdio::piped()).stderr(Stdio::piped());
    let child = command.spawn().expect("the shell starts");
    assert_eq!(written_and_said(child), ("1 1 1 0\n".repeat(100) + "100 100 1 0\n", "".into()));
}

/// As the stream does, a file is followed for 1,000,000 lines.
#[test]
fn lines_past_the_most() {
    let most = |garbled: u32| format!("{}{PAIR}", "\n".repeat(garbled as usize));
    gives(&[most(LINES - 2), most(LINES - 1), PAIR.into()], "1 1 1 0\nR15\n1 1 1 0\n2 2 1 0\n");
}

/// A read brings 65,536 bytes at most: wherever the first ends in the notices, they are followed.
#[test]
fn notices_across_two_reads() {
    let files: Vec<String> = (0..=PATH.len()).map(|cut| format!("{}\n{PATH}", "0".repeat(65_535 - cut))).collect();
    assert_eq!(files[PATH.len() - 1].len(), 65_537);
    assert_eq!(survey(&files), "4 3 1 1\n".repeat(26) + "104 78 1 26\n");
}

/// Lines of 10,000 bytes between the notices of 256 depots.
#[test]
fn a_file_of_megabytes() {
    let mut dice = Dice::new(40_000_000);
    let growth = Growth::new(&mut dice, Shape::Regional);
    let mut file = Vec::new();
    for i in 0..256 {
        file.extend(growth.line(&mut dice, i, 256));
        file.resize(file.len() + 9_999, b'0');
        file.push(0x0A);
    }
    assert!(survey(&[file]).contains(" 32640 "));
}

/// Histories that are somewhat valid, with yards and links and with refused and garbled lines between; none to six of them.
#[test]
fn many_files() {
    for seed in 0..60 {
        let mut dice = Dice::new(41_000_000 + seed);
        let files: Vec<Vec<u8>> = (0..dice.below(7))
            .map(|_| {
                let size = 1 + dice.below(if seed % 10 == 0 { 256 } else { 40 });
                some_input(&mut dice, size)
            })
            .collect();
        survey(&files);
    }
}

/// Every shape of 256 depots, in one run, and the same with yards.
#[test]
fn growths_of_256_depots() {
    let mut dice = Dice::new(42_000_000);
    let mut files = Vec::new();
    for shape in SHAPES {
        let growth = Growth::new(&mut dice, shape);
        files.push((0..256).flat_map(|i| growth.line(&mut dice, i, 256)).collect::<Vec<u8>>());
        let growth = growth.with_yards(&mut dice);
        files.push((0..256).flat_map(|i| growth.line(&mut dice, i, 256)).collect());
    }
    assert_eq!(survey(&files).lines().filter(|line| line.contains(" 32640 ")).count(), SHAPES.len());
}

// ---- names

/// Every argument names a file, whatever it begins with, but for `--help` alone: so a file of that name is `./--help`.
#[test]
fn names_that_look_like_options() {
    let folder = Folder::new();
    let names = ["--help", "-h", "--", "-"];
    let lines: String = names.iter().map(|name| format!("survey: {name}: No such file or directory\n")).collect();
    assert_eq!(folder.fails(&names), ("R15\n".repeat(4) + "0 0 0 0\n", lines));
    for name in names {
        folder.put(name, PATH);
    }
    assert_eq!(folder.run(&names), ("4 3 1 1\n".repeat(4) + "16 12 1 4\n", "".into()));
    for name in ["-h", "--", "-", "./--help"] {
        assert_eq!(folder.run(&[name]), ("4 3 1 1\n4 3 1 1\n".into(), "".into()));
    }
    assert_eq!(folder.run(&["--help", "--help"]), ("4 3 1 1\n4 3 1 1\n8 6 1 2\n".into(), "".into()));
}

#[test]
fn usage() {
    let folder = Folder::with_two();
    folder.put("--help", PATH);
    let (written, said) = folder.run(&["--help"]);
    assert!(written.starts_with("Usage: survey "), "{written}");
    for word in ["R15", "1,000 files", "./--help", "status"] {
        assert!(written.contains(word), "{word}");
    }
    assert_eq!(said, "");
    let full = File::options().write(true).open("/dev/full").expect("the device opens");
    let child = folder.command(&["--help"]).stdout(full).spawn().expect("the program starts");
    assert_eq!(failed(child).1, "survey: standard output: No space left on device\n");
}

#[test]
fn a_name_that_is_no_text() {
    let folder = Folder::new();
    let name = OsStr::from_bytes(b"a\xFF \n\xC3");
    folder.put(name, PAIR);
    let output = folder.start(&[name]).wait_with_output().expect("it ends");
    assert_eq!((output.status.code(), output.stdout.as_slice()), (Some(1), b"R15\n0 0 0 0\n".as_slice()));
    assert_eq!(output.stderr, b"survey: a\xFF \n\xC3: Invalid or incomplete multibyte or wide character\n");
}

/// 4,095 bytes name a file; with one more, or with 256 between two slashes, they are too long for the system.
#[test]
fn long_names() {
    let folder = Folder::with_two();
    let name = |size: usize| format!(".{}pair.txt", "/".repeat(size - 9));
    assert_eq!(folder.run(&[name(4_095)]), ("1 1 1 0\n1 1 1 0\n".into(), "".into()));
    for long in [name(4_096), name(4_097), name(100_000), "x".repeat(256)] {
        let (written, said) = folder.fails(&["path.txt", &long, "pair.txt"]);
        assert_eq!(written, "4 3 1 1\nR15\n1 1 1 0\n5 4 1 1\n");
        assert!(said.starts_with("survey: ") && said.ends_with(": File name too long\n") && said.lines().count() == 1, "{said}");
    }
}

// ---- what goes wrong is said

/// Between a path and a pair, a name of which this is said counts as an empty map, and the run goes on.
fn is_refused(folder: &Folder, name: &str, words: &str) {
    assert_eq!(output(&[PATH, "", PAIR]), "4 3 1 1\nR15\n1 1 1 0\n5 4 1 1\n");
    assert_eq!(
        folder.fails(&["path.txt", name, "pair.txt"]),
        ("4 3 1 1\nR15\n1 1 1 0\n5 4 1 1\n".into(), format!("survey: {name}: {words}\n"))
    );
}

#[test]
fn a_missing_file() {
    is_refused(&Folder::with_two(), "missing.txt", "No such file or directory");
    is_refused(&Folder::with_two(), "pair.txt/", "Not a directory");
}

#[test]
fn an_empty_name() {
    is_refused(&Folder::with_two(), "", "No such file or directory");
}

#[test]
fn a_directory() {
    is_refused(&Folder::with_two(), ".", "Is a directory");
}

/// Root may read every file, so that nothing can be tried then.
#[test]
fn a_file_that_may_not_be_read() {
    let folder = Folder::with_two();
    folder.put("secret.txt", PAIR);
    let path = folder.0.join("secret.txt");
    fs::set_permissions(&path, PermissionsExt::from_mode(0o000)).expect("the mode is set");
    if File::open(path).is_err() {
        is_refused(&folder, "secret.txt", "Permission denied");
    }
}

/// The program's own memory has nothing at its begin: it can be opened, and the first read fails.
#[test]
fn a_read_that_fails_at_once() {
    is_refused(&Folder::with_two(), "/proc/self/mem", "Input/output error");
}

/// With process/cut.rs before the C library 27 bytes come of the first file, then a read fails: the path's three lines count, the begin of the fourth does
/// not. What is interrupted is tried again, and the second file is followed to its end.
#[test]
fn a_read_that_fails_midway() {
    let folder = Folder::with_two();
    folder.put("longer.txt", format!("{PATH}01030102\n"));
    assert_eq!(PATH.len(), 25);
    let library = folder.0.join("cut.so");
    let source = Path::new(env!("CARGO_MANIFEST_DIR")).join("tests/process/cut.rs");
    let rustc = env::var_os("RUSTC").unwrap_or_else(|| "rustc".into());
    let mut compile = Command::new(rustc);
    compile.args(["--crate-type", "cdylib", "-C", "panic=abort", "-o"]).arg(&library).arg(source);
    assert!(compile.status().expect("rustc starts").success());
    let child = folder.command(&["longer.txt", "pair.txt"]).env("LD_PRELOAD", &library).spawn().expect("the program starts");
    assert_eq!(failed(child), ("4 3 1 1\n1 1 1 0\n5 4 1 1\n".into(), "survey: longer.txt: Input/output error\n".into()));
}

/// The run ends at the first line that cannot be written: that the second file is not there is not said.
fn ends_at_the_output(stdout: Stdio, words: &str) {
    let folder = Folder::with_two();
    let child = folder.command(&["pair.txt", "missing.txt"]).stdout(stdout).spawn().expect("the program starts");
    assert_eq!(failed(child).1, format!("survey: standard output: {words}\n"));
}

#[test]
fn a_full_device() {
    let full = || File::options().write(true).open("/dev/full").expect("the device opens");
    ends_at_the_output(full().into(), "No space left on device");
    let folder = Folder::new();
    let child = folder.command::<&str>(&[]).stdout(full()).spawn().expect("the program starts");
    assert_eq!(failed(child).1, "survey: standard output: No space left on device\n");
}

#[test]
fn an_output_that_cannot_be_written() {
    ends_at_the_output(File::open("/dev/null").expect("the device opens").into(), "Bad file descriptor");
}

/// The first file that is opened gets the descriptor of the standard output then, and nothing is written to it.
#[test]
fn a_closed_output() {
    let folder = Folder::with_two();
    let mut command = Command::new("sh");
    command.args(["-c", "exec \"$0\" pair.txt missing.txt >&-"]).arg(program("survey")).current_dir(&folder.0).stderr(Stdio::piped());
    assert_eq!(failed(command.spawn().expect("the shell starts")).1, "survey: standard output: Bad file descriptor\n");
    assert_eq!(fs::read_to_string(folder.0.join("pair.txt")).expect("it is there"), PAIR);
}

// ---- files that come bit by bit

/// Feeds a fifo from a thread of its own, which waits till the program opens it; so the thread is not waited for.
fn feed(fifo: PathBuf, with: impl FnOnce(File) + Send + 'static) {
    thread::spawn(move || with(File::options().write(true).open(fifo).expect("the fifo opens")));
}

/// What the program writes and says, unless it takes too long.
fn in_time(child: Child) -> (String, String) {
    let (sender, both) = channel();
    thread::spawn(move || sender.send(written_and_said(child)));
    both.recv_timeout(LONG).expect("the program ends, and waits for nothing")
}

/// Pieces of one to five bytes, with pauses.
#[test]
fn a_fifo_that_is_fed_in_pieces() {
    let folder = Folder::with_two();
    let fifo = folder.put_fifo("fifo");
    let mut dice = Dice::new(43_000_000);
    let mut file = some_input(&mut dice, 12);
    file.truncate(1_500);
    let expected = output(&[PATH.as_bytes(), &file, PAIR.as_bytes()]);
    assert!(!expected.contains("R15"));
    let child = folder.start(&["path.txt", "fifo", "pair.txt"]);
    feed(fifo, move |mut fifo| {
        let mut rest = &file[..];
        while !rest.is_empty() {
            let (piece, more) = rest.split_at(rest.len().min(1 + dice.below(5)));
            fifo.write_all(piece).expect("the program reads");
            thread::sleep(Duration::from_micros(300));
            rest = more;
        }
    });
    assert_eq!(in_time(child), (expected, "".into()));
}

/// The millionth line ends a file, though more could come: the program does not wait for it.
#[test]
fn a_million_lines_of_a_fifo_that_stays_open() {
    let folder = Folder::with_two();
    let fifo = folder.put_fifo("fifo");
    let child = folder.start(&["fifo", "path.txt"]);
    let (keep, kept) = channel();
    feed(fifo, move |mut fifo| {
        fifo.write_all(PAIR.as_bytes()).expect("the program reads");
        fifo.write_all(&vec![0x0A; LINES as usize - 2]).expect("the program reads");
        keep.send(fifo).expect("the test goes on");
    });
    assert_eq!(in_time(child), ("1 1 1 0\n4 3 1 1\n5 4 1 1\n".into(), "".into()));
    drop(kept);
}

/// On a closed pipe the write fails: that is said, and ends the run.
#[test]
fn a_closed_pipe() {
    let folder = Folder::with_two();
    let fifo = folder.put_fifo("fifo");
    let mut child = folder.start(&["fifo", "pair.txt"]);
    drop(child.stdout.take());
    // A process that another test is just starting may hold our end for a moment more.
    thread::sleep(Duration::from_millis(500));
    feed(fifo, drop);
    let output = child.wait_with_output().expect("it ends");
    assert_eq!((output.status.code(), output.stderr.as_slice()), (Some(1), b"survey: standard output: Broken pipe\n".as_slice()));
}
