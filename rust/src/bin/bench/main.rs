//! The benchmark: Zorpedi beside a search from every depot (bench/naive.rs) and the best unverified program of the same rules (bench/fast.rs), and the
//! network reports beside those of bench/survey.rs and bench/survey_tables.rs, all in one run and in turns. `bench/run` builds what it needs and starts
//! it. It prints tables in Markdown.
mod inputs;
mod instructions;
mod search;
mod surveys;
mod times;

use instructions::{Counts, Profile};
use std::error::Error;
use std::fs::{self, File};
use std::path::{Path, PathBuf};
use std::process::{Command, Stdio};
use times::Time;
use zorpedi::Stream;

type Outcome<T> = Result<T, Box<dyn Error>>;

/// An input, and how often it is run in one turn.
struct Input {
    name: &'static str,
    bytes: Vec<u8>,
    file: PathBuf,
    reps: usize,
    naive_reps: usize,
    process_runs: usize,
}

/// A value for each of the three programs.
#[derive(Clone, Copy)]
struct Three<T> {
    zorpedi: T,
    fast: T,
    naive: T,
}

impl<T> Three<T> {
    fn map<U>(self, of: impl Fn(T) -> U) -> Three<U> {
        Three { zorpedi: of(self.zorpedi), fast: of(self.fast), naive: of(self.naive) }
    }
}

impl Three<Profile> {
    fn counts(&self) -> Three<Counts> {
        Three { zorpedi: self.zorpedi.counts, fast: self.fast.counts, naive: self.naive.counts }
    }
}

struct Places {
    work: PathBuf,
    follow: PathBuf,
    fast: PathBuf,
    naive: PathBuf,
}

fn main() -> Outcome<()> {
    if search::is_child()? {
        return Ok(());
    }
    let root = Path::new(env!("CARGO_MANIFEST_DIR")).join("..");
    let work = root.join("target/bench");
    fs::create_dir_all(&work)?;
    let places = Places {
        follow: root.join("target/bin/follow"),
        fast: compile(&root, &work, "fast")?,
        naive: compile(&root, &work, "naive")?,
        work,
    };
    if !places.follow.is_file() {
        return Err("target/bin/follow is not there: run `tools/programs`".into());
    }
    let inputs = make_inputs(&places)?;
    for input in &inputs {
        check_outputs(&places, input)?;
    }
    println!("The four outputs of each input are the same (of naive the first five fields).");
    let profiles = if instructions::are_counted()? { Some(instructions::profile_all(&places, &inputs)?) } else { None };
    let counts = profiles.as_ref().map(|all| all.iter().map(Three::counts).collect::<Vec<_>>());
    match &counts {
        Some(counts) => instructions::print_table(&inputs, counts),
        None => println!("\nvalgrind is not there: no instructions are counted, and the goals are not judged."),
    }
    let memory: Vec<Three<Time>> = inputs.iter().map(|input| times::in_memory(&places, input)).collect::<Outcome<_>>()?;
    let process: Vec<Three<Time>> = inputs.iter().map(|input| times::as_process(&places, input)).collect::<Outcome<_>>()?;
    times::print_table("In memory", &inputs, &memory);
    times::print_table("As a process, file to file", &inputs, &process);
    if let Some(counts) = counts {
        print_goals(&counts, &memory, &process);
    }
    if let Some(profiles) = &profiles {
        instructions::print_functions(&inputs, profiles);
    }
    search::print(&root, &places.work, &inputs[0])?;
    surveys::print(&root, &places.work)
}

fn compile(root: &Path, work: &Path, name: &str) -> Outcome<PathBuf> {
    let rustc = std::env::var_os("RUSTC").unwrap_or_else(|| "rustc".into());
    let program = work.join(name);
    let source = root.join("bench").join(format!("{name}.rs"));
    let status = Command::new(rustc).args(["-C", "opt-level=3", "-A", "warnings", "-o"]).arg(&program).arg(&source).status()?;
    if !status.success() {
        return Err(format!("{} does not compile", source.display()).into());
    }
    Ok(program)
}

fn make_inputs(places: &Places) -> Outcome<Vec<Input>> {
    let all = [
        ("regional growth to 256 depots", inputs::regional(), 101, 5, 41),
        ("ring that closes", inputs::ring(), 41, 3, 41),
        ("worst case for skipping", inputs::alternate(), 9, 5, 41),
        ("a million lines", inputs::million(), 3, 3, 15),
        ("star", inputs::star(), 41, 5, 41),
        ("complete network", inputs::complete(), 41, 5, 41),
        // no goal
        ("dense network", inputs::dense(), 41, 5, 41),
        ("links after regional growth", inputs::links(), 41, 3, 41),
        ("regional growth with yards", inputs::yards(), 101, 5, 41),
    ];
    let mut made = Vec::new();
    for (i, (name, bytes, reps, naive_reps, process_runs)) in all.into_iter().enumerate() {
        let file = places.work.join(format!("input{i}.txt"));
        fs::write(&file, &bytes)?;
        made.push(Input { name, bytes, file, reps, naive_reps, process_runs });
    }
    Ok(made)
}

// ---- outputs

fn output_of(program: &Path, input: &Input) -> Outcome<Vec<u8>> {
    let output = Command::new(program).stdin(File::open(&input.file)?).stderr(Stdio::inherit()).output()?;
    Ok(output.stdout)
}

fn check_outputs(places: &Places, input: &Input) -> Outcome<()> {
    let mut streamed = Vec::new();
    let mut stream = Stream::new();
    stream.push(&input.bytes, &mut streamed)?;
    stream.end(&mut streamed)?;
    let five = |line: &[u8]| line.split(|&b| b == b' ').take(5).map(<[u8]>::to_vec).collect::<Vec<_>>();
    let fields = |output: &[u8]| output.split(|&b| b == b'\n').map(five).collect::<Vec<_>>();
    for (name, same) in [
        ("follow", output_of(&places.follow, input)? == streamed),
        ("fast", output_of(&places.fast, input)? == streamed),
        ("naive", fields(&output_of(&places.naive, input)?) == fields(&streamed)),
    ] {
        if !same {
            return Err(format!("{}: {name} has another output than zorpedi_feed", input.name).into());
        }
    }
    Ok(())
}

// ---- goals

/// A goal: a limit for the ratio of two programs on one input.
struct Goal {
    name: &'static str,
    input: usize,
    ratio: fn(Three<f64>) -> f64,
    is_met: fn(f64) -> bool,
}

const GOALS: [Goal; 10] = [
    Goal { name: "regional growth: Zorpedi / fast, at most 1.25", input: 0, ratio: to_fast, is_met: |r| r <= 1.25 },
    Goal { name: "regional growth: naive / Zorpedi, at least 25", input: 0, ratio: from_naive, is_met: |r| r >= 25.0 },
    Goal { name: "ring: Zorpedi / fast, at most 1.1", input: 1, ratio: to_fast, is_met: |r| r <= 1.1 },
    Goal { name: "worst case: Zorpedi / fast, at most 1.2", input: 2, ratio: to_fast, is_met: |r| r <= 1.2 },
    Goal { name: "worst case: naive / Zorpedi, at least 1.3", input: 2, ratio: from_naive, is_met: |r| r >= 1.3 },
    Goal { name: "a million lines: Zorpedi / fast, at most 1.5", input: MILLION, ratio: to_fast, is_met: |r| r <= 1.5 },
    Goal { name: "star: Zorpedi / fast, at most 2.5", input: 4, ratio: to_fast, is_met: |r| r <= 2.5 },
    Goal { name: "star: naive / Zorpedi, at least 1", input: 4, ratio: from_naive, is_met: |r| r >= 1.0 },
    Goal { name: "complete network: Zorpedi / fast, at most 2.5", input: 5, ratio: to_fast, is_met: |r| r <= 2.5 },
    Goal { name: "complete network: naive / Zorpedi, at least 1", input: 5, ratio: from_naive, is_met: |r| r >= 1.0 },
];

/// The input whose goal is judged by times of processes: in memory it waits for the memory that its reports go to.
const MILLION: usize = 3;

fn to_fast(n: Three<f64>) -> f64 {
    n.zorpedi / n.fast
}

fn from_naive(n: Three<f64>) -> f64 {
    n.naive / n.zorpedi
}

/// Goals are judged by the instructions of the programs' own code, and by the medians of times, which depend on the machine and on what else it does: of
/// processes for a million lines, in memory for all else. The ratios of the least times stand beside them.
fn print_goals(counts: &[Three<Counts>], memory: &[Three<Time>], process: &[Three<Time>]) {
    println!("\n| Goal | By instructions | Met | By medians of times | Met | By least times |");
    println!("|---|---|---|---|---|---|");
    let yes = |is_met: bool| if is_met { "yes" } else { "NO" };
    for Goal { name, input, ratio, is_met } in GOALS {
        let times = if input == MILLION { process[input] } else { memory[input] };
        let counted = ratio(counts[input].map(|n| n.own));
        let [median, least] = [times.map(|time| time.median), times.map(|time| time.least)].map(ratio);
        println!("| {name} | {counted:.2} | {} | {median:.2} | {} | {least:.2} |", yes(is_met(counted)), yes(is_met(median)));
    }
}
