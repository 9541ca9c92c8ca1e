//! The network reports of many files: the program `survey` beside two without proofs that write the same. bench/survey.rs does no more than the lines need,
//! and the goal is judged by it; bench/survey_tables.rs also fills what the report call hands over.
use crate::times::Time;
use crate::{compile, inputs, instructions, times, Outcome};
use std::fs;
use std::path::{Path, PathBuf};
use std::process::{Command, Stdio};

/// As many as one run takes.
const FILES: u64 = 1_000;

/// So many of them when instructions are counted, which takes some hundred times as long.
const COUNTED: usize = 100;

const RUNS: usize = 5;

/// A value for each of the three programs.
struct Three<T> {
    zorpedi: T,
    plain: T,
    tables: T,
}

/// A region of 256 depots in each file, no two alike.
fn make_files(work: &Path) -> Outcome<Vec<PathBuf>> {
    let folder = work.join("regions");
    fs::create_dir_all(&folder)?;
    let mut files = Vec::new();
    for seed in 1..=FILES {
        let file = folder.join(format!("{seed}.txt"));
        fs::write(&file, inputs::region(seed))?;
        files.push(file);
    }
    Ok(files)
}

fn output_of(program: &Path, files: &[PathBuf]) -> Outcome<Vec<u8>> {
    Ok(Command::new(program).args(files).stderr(Stdio::inherit()).output()?.stdout)
}

fn check_outputs(programs: &Three<PathBuf>, files: &[PathBuf]) -> Outcome<()> {
    let reports = output_of(&programs.zorpedi, files)?;
    if reports.split_inclusive(|&b| b == b'\n').count() != files.len() + 1 {
        return Err("survey has not a line for each file and one more".into());
    }
    for (program, source) in [(&programs.plain, "bench/survey.rs"), (&programs.tables, "bench/survey_tables.rs")] {
        if reports != output_of(program, files)? {
            return Err(format!("survey has another output than {source}").into());
        }
    }
    Ok(())
}

/// The instructions for some files, less those of a run without any.
fn count(program: &Path, files: &[PathBuf]) -> Outcome<f64> {
    let nothing = Path::new("/dev/null");
    Ok(instructions::count(program, files, nothing)?.less(instructions::count(program, &[], nothing)?).whole)
}

fn time(programs: &Three<PathBuf>, files: &[PathBuf], output: &Path) -> Outcome<Three<Time>> {
    let (mut zorpedi, mut plain, mut tables) = (Vec::new(), Vec::new(), Vec::new());
    let run = |program: &Path| times::run_process(program, files, Path::new("/dev/null"), output);
    for _ in 0..RUNS {
        zorpedi.push(run(&programs.zorpedi)?);
        plain.push(run(&programs.plain)?);
        tables.push(run(&programs.tables)?);
    }
    Ok(Three { zorpedi: Time::of(zorpedi), plain: Time::of(plain), tables: Time::of(tables) })
}

/// Compares the outputs of all files, then prints the instructions of some of them and the times of all. Instructions judge the goal.
pub fn print(root: &Path, work: &Path) -> Outcome<()> {
    let programs = Three {
        zorpedi: root.join("target/bin/survey"),
        plain: compile(root, work, "survey")?,
        tables: compile(root, work, "survey_tables")?,
    };
    if !programs.zorpedi.is_file() {
        return Err("target/bin/survey is not there: run `tools/programs`".into());
    }
    let files = make_files(work)?;
    check_outputs(&programs, &files)?;
    println!("\nThe three outputs for {FILES} regions of 256 depots are the same.");
    println!("\n| Network reports | Zorpedi | without proofs | with tables | Zorpedi / without | Zorpedi / with tables | Goal: Zorpedi / without at most 1.5 |");
    println!("|---|---|---|---|---|---|---|");
    if instructions::are_counted()? {
        let some = &files[..COUNTED];
        let n = Three {
            zorpedi: count(&programs.zorpedi, some)?,
            plain: count(&programs.plain, some)?,
            tables: count(&programs.tables, some)?,
        };
        let (ratio, beside) = (n.zorpedi / n.plain, n.zorpedi / n.tables);
        let met = if ratio <= 1.5 { "met" } else { "NOT met" };
        let [zorpedi, plain, tables] = [n.zorpedi, n.plain, n.tables].map(|number| number / 1e6);
        println!("| million instructions, {COUNTED} files | {zorpedi:.2} | {plain:.2} | {tables:.2} | {ratio:.3} | {beside:.3} | {met} |");
    }
    let t = time(&programs, &files, &work.join("output.txt"))?;
    let (ratio, beside) = (t.zorpedi.least / t.plain.least, t.zorpedi.least / t.tables.least);
    let (zorpedi, plain, tables) = (t.zorpedi.text(), t.plain.text(), t.tables.text());
    println!("| least time (median), {FILES} files | {zorpedi} | {plain} | {tables} | {ratio:.2} | {beside:.2} | |");
    Ok(())
}
