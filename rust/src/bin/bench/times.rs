//! Times: in memory and as a process, all programs in turns. The least is what the program takes where nothing else runs; the median says how far the
//! machine was from that.
use crate::{Input, Outcome, Places, Three};
use std::fs::File;
use std::path::{Path, PathBuf};
use std::process::Command;
use std::time::Instant;
use zorpedi::Stream;

/// Nanoseconds of many runs.
#[derive(Clone, Copy)]
pub struct Time {
    pub least: f64,
    pub median: f64,
}

impl Time {
    /// The least and the median of many runs.
    pub fn of(mut runs: Vec<f64>) -> Time {
        runs.sort_by(f64::total_cmp);
        Time { least: runs[0], median: runs[runs.len() / 2] }
    }

    /// The least, and the median in brackets.
    pub fn text(self) -> String {
        format!("{} ({})", text_of(self.least), text_of(self.median))
    }

    /// The least of several turns, and the median of their medians.
    fn of_turns(turns: &[Time]) -> Time {
        let least = Time::of(turns.iter().map(|turn| turn.least).collect()).least;
        let median = Time::of(turns.iter().map(|turn| turn.median).collect()).median;
        Time { least, median }
    }
}

/// Turns of the in-memory runs; each turn has one run of each program's repetitions.
const TURNS: usize = 9;

/// The stream in memory, as fast.rs has it: the input in one piece, reports into 256 KiB that are thrown away when full.
fn run_stream(input: &[u8], out: &mut [u8]) -> Outcome<f64> {
    let mut stream = Stream::new();
    let start = Instant::now();
    let mut rest = input;
    while !rest.is_empty() {
        let fed = stream.feed(rest, out)?;
        rest = &rest[fed.used..];
    }
    stream.finish(out)?;
    Ok(start.elapsed().as_nanos() as f64)
}

/// The least and the median that a program of bench/ prints when it is given a number of repetitions.
fn repeated(program: &Path, input: &Input, reps: usize) -> Outcome<Time> {
    let output = Command::new(program).arg(reps.to_string()).stdin(File::open(&input.file)?).output()?;
    let text = String::from_utf8(output.stdout)?;
    let mut times = text.split_whitespace().map(str::parse);
    match (times.next(), times.next()) {
        (Some(Ok(least)), Some(Ok(median))) => Ok(Time { least, median }),
        _ => Err(format!("{} printed no times", program.display()).into()),
    }
}

pub fn in_memory(places: &Places, input: &Input) -> Outcome<Three<Time>> {
    let mut out = vec![0; 1 << 18];
    let (mut zorpedi, mut fast, mut naive) = (Vec::new(), Vec::new(), Vec::new());
    for _ in 0..TURNS {
        let runs = (0..input.reps).map(|_| run_stream(&input.bytes, &mut out)).collect::<Outcome<Vec<f64>>>()?;
        zorpedi.push(Time::of(runs));
        fast.push(repeated(&places.fast, input, input.reps)?);
        naive.push(repeated(&places.naive, input, input.naive_reps)?);
    }
    Ok(Three { zorpedi: Time::of_turns(&zorpedi), fast: Time::of_turns(&fast), naive: Time::of_turns(&naive) })
}

/// Nanoseconds from start to end of a process.
pub fn run_process(program: &Path, arguments: &[PathBuf], input: &Path, output: &Path) -> Outcome<f64> {
    let (stdin, stdout) = (File::open(input)?, File::create(output)?);
    let start = Instant::now();
    let status = Command::new(program).args(arguments).stdin(stdin).stdout(stdout).status()?;
    let time = start.elapsed().as_nanos() as f64;
    if !status.success() {
        return Err(format!("{} failed", program.display()).into());
    }
    Ok(time)
}

pub fn as_process(places: &Places, input: &Input) -> Outcome<Three<Time>> {
    let output = places.work.join("output.txt");
    let (mut zorpedi, mut fast, mut naive) = (Vec::new(), Vec::new(), Vec::new());
    for _ in 0..input.process_runs {
        zorpedi.push(run_process(&places.follow, &[], &input.file, &output)?);
        fast.push(run_process(&places.fast, &[], &input.file, &output)?);
        naive.push(run_process(&places.naive, &[], &input.file, &output)?);
    }
    Ok(Three { zorpedi: Time::of(zorpedi), fast: Time::of(fast), naive: Time::of(naive) })
}

pub fn text_of(ns: f64) -> String {
    if ns < 1e3 {
        format!("{ns:.0} ns")
    } else if ns < 1e6 {
        format!("{:.1} µs", ns / 1e3)
    } else {
        format!("{:.2} ms", ns / 1e6)
    }
}

/// Least and median of each program, and the ratios of the least.
pub fn print_table(title: &str, inputs: &[Input], times: &[Three<Time>]) {
    println!("\n| {title}: least (median) | Zorpedi | fast | naive | Zorpedi / fast | naive / Zorpedi |");
    println!("|---|---|---|---|---|---|");
    for (input, three) in inputs.iter().zip(times) {
        let least = three.map(|time| time.least);
        println!(
            "| {} | {} | {} | {} | {:.2} | {:.2} |",
            input.name,
            three.zorpedi.text(),
            three.fast.text(),
            three.naive.text(),
            least.zorpedi / least.fast,
            least.naive / least.zorpedi
        );
    }
}
