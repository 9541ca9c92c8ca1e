//! The programs that the benchmark sets beside Zorpedi (bench/), as processes beside the plain implementation: what they need says nothing unless what they
//! write is right. None of them touches the archive.
#[path = "../src/bin/bench/inputs.rs"]
#[allow(dead_code)]
mod bench_inputs;
mod inputs;
mod plain;
mod process;

use inputs::lines::some_input;
use inputs::Dice;
use plain::{stream, survey};
use process::{assert_same, repository, written_and_said};
use std::env;
use std::fs::{self, File};
use std::path::{Path, PathBuf};
use std::process::{Command, Stdio};

/// A folder of this name for what a test writes.
fn folder(name: &str) -> PathBuf {
    let path = Path::new(env!("CARGO_TARGET_TMPDIR")).join(name);
    fs::create_dir_all(&path).expect("the folder is made");
    path
}

/// The program of bench/ with this name, compiled.
fn compiled(name: &str) -> PathBuf {
    let program = folder("bench").join(name);
    let rustc = env::var_os("RUSTC").unwrap_or_else(|| "rustc".into());
    let mut compile = Command::new(rustc);
    compile.args(["-C", "opt-level=3", "-A", "warnings", "-o"]).arg(&program);
    compile.arg(repository().join("bench").join(format!("{name}.rs")));
    assert!(compile.status().expect("rustc starts").success());
    program
}

/// Inputs with yards and without, with links and with lines that are refused or do not read; and those of the benchmark but for the longest.
fn all_inputs() -> Vec<Vec<u8>> {
    let by_chance = (0..400).map(|seed| {
        let mut dice = Dice::new(70_000_000 + seed);
        let size = 1 + dice.below(if seed % 10 == 0 { 256 } else { 40 });
        some_input(&mut dice, size)
    });
    let growths = [bench_inputs::regional(), bench_inputs::yards(), bench_inputs::links(), bench_inputs::ring(), bench_inputs::alternate()];
    let many_pairs = [bench_inputs::star(), bench_inputs::complete(), bench_inputs::dense()];
    by_chance.chain(growths).chain(many_pairs).collect()
}

fn output_of(program: &Path, file: &Path) -> String {
    let child = Command::new(program).stdin(File::open(file).expect("it opens")).stdout(Stdio::piped()).stderr(Stdio::piped()).spawn();
    let (written, said) = written_and_said(child.expect("the program starts"));
    assert_eq!(said, "");
    written
}

/// The number, answer, depots, chain and pairs of each report.
fn without_searches(reports: &str) -> String {
    reports.lines().map(|line| line.rsplit_once(' ').expect("a report has fields").0.to_string() + "\n").collect()
}

/// `fast` writes every report, and `naive` all fields but the last: it searches otherwise.
#[test]
fn fast_and_naive() {
    let (fast, naive) = (compiled("fast"), compiled("naive"));
    let file = folder("bench").join("input.txt");
    let (mut shrank, mut yards) = (0, 0);
    for input in all_inputs() {
        fs::write(&file, &input).expect("the file is written");
        let reports = stream::output(&input);
        shrank += reports.lines().filter(|line| line.contains(" S ")).count();
        yards += usize::from(!survey::followed(&input).network.yards.is_empty());
        assert_same(output_of(&fast, &file).as_bytes(), &reports);
        assert_same(output_of(&naive, &file).as_bytes(), &without_searches(&reports));
    }
    println!("{shrank} lines shortened a chain, {yards} inputs have yards");
    assert!(shrank > 400 && yards > 150);
}

/// All inputs as files of one run.
#[test]
fn reports_of_files() {
    let programs = [compiled("survey"), compiled("survey_tables")];
    let folder = folder("bench-files");
    let files = all_inputs();
    let names: Vec<String> = (1..=files.len()).map(|number| format!("{number}.txt")).collect();
    for (name, file) in names.iter().zip(&files) {
        fs::write(folder.join(name), file).expect("the file is written");
    }
    let lines = survey::output(&files);
    assert!(lines.contains("R15\n"));
    for program in programs {
        let mut command = Command::new(program);
        let child = command.current_dir(&folder).args(&names).stdout(Stdio::piped()).stderr(Stdio::piped()).spawn();
        let (written, said) = written_and_said(child.expect("the program starts"));
        assert_same(written.as_bytes(), &lines);
        assert_eq!(said, "");
    }
    fs::remove_dir_all(folder).expect("the folder goes");
}
