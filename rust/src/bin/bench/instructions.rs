//! Instructions, counted by valgrind: the same in every run, whatever else the machine does.
use crate::{Input, Outcome, Places, Three};
use std::collections::BTreeMap;
use std::fs::{self, File};
use std::io::ErrorKind;
use std::path::{Path, PathBuf};
use std::process::{Command, Stdio};

/// Whether valgrind is installed.
pub fn are_counted() -> Outcome<bool> {
    match Command::new("valgrind").arg("--version").stdout(Stdio::null()).status() {
        Ok(status) => Ok(status.success()),
        Err(error) if error.kind() == ErrorKind::NotFound => Ok(false),
        Err(error) => Err(error.into()),
    }
}

/// The instructions of a process.
#[derive(Clone, Copy)]
pub struct Counts {
    /// Those of the program's own code, without libraries: of a large memset the C library's are counted by the byte, which is no measure of time.
    pub own: f64,
    pub whole: f64,
}

impl Counts {
    pub fn less(self, other: Counts) -> Counts {
        Counts { own: self.own - other.own, whole: self.whole - other.whole }
    }
}

/// The instructions of each function of a program's own code, by its name as the program has it.
pub type Functions = BTreeMap<String, f64>;

/// What a process took in all, and by functions of its own code.
pub struct Profile {
    pub counts: Counts,
    pub functions: Functions,
}

impl Profile {
    fn less(mut self, other: &Profile) -> Profile {
        self.counts = self.counts.less(other.counts);
        for (name, number) in &other.functions {
            *self.functions.entry(name.clone()).or_default() -= number;
        }
        self
    }

    /// Each function that takes a fiftieth or more of the program's own code, the greatest first.
    fn text(&self) -> String {
        let mut greatest: Vec<(&String, f64)> = self.functions.iter().map(|(name, number)| (name, *number)).collect();
        greatest.retain(|(_, number)| 50.0 * number >= self.counts.own);
        greatest.sort_by(|x, y| y.1.total_cmp(&x.1));
        // what stands behind a name in angle brackets or behind a plus sign is the compiler's own
        let short = |name: &str| name.split(['<', '+']).next().unwrap_or(name).trim_end_matches("::").to_string();
        let texts = greatest.into_iter().map(|(name, number)| format!("`{}` {:.2}", short(name), number / 1e6));
        texts.collect::<Vec<_>>().join(", ")
    }
}

/// Runs a program under callgrind.
pub fn profile(program: &Path, arguments: &[PathBuf], input: &Path) -> Outcome<Profile> {
    let file = std::env::temp_dir().join(format!("zorpedi-bench-{}.callgrind", std::process::id()));
    let mut valgrind = Command::new("valgrind");
    valgrind.args(["--tool=callgrind", "--compress-strings=no", "--compress-pos=no"]);
    valgrind.arg(format!("--callgrind-out-file={}", file.display())).arg(program).args(arguments);
    let output = valgrind.stdin(File::open(input)?).stdout(Stdio::null()).output()?;
    if !output.status.success() {
        let text = String::from_utf8_lossy(&output.stderr);
        return Err(format!("valgrind counted nothing for {}:\n{text}", program.display()).into());
    }
    let text = fs::read_to_string(&file)?;
    fs::remove_file(&file)?;
    read_profile(&text, &program.canonicalize()?)
}

/// Reads what callgrind wrote: lines `ob=` and `fn=` name the object and the function whose lines follow, each a place and its instructions. The line after one
/// of `calls=` is what the called function took, and stands there again.
fn read_profile(text: &str, program: &Path) -> Outcome<Profile> {
    let (mut whole, mut own, mut functions) = (0.0, 0.0, Functions::new());
    let (mut is_own, mut function, mut is_call) = (false, "", false);
    for line in text.lines() {
        if let Some(object) = line.strip_prefix("ob=") {
            is_own = Path::new(object) == program;
        } else if let Some(name) = line.strip_prefix("fn=") {
            function = name;
        } else if line.starts_with("calls=") {
            is_call = true;
        } else if line.starts_with(|c: char| c.is_ascii_digit()) {
            let number = line.split(' ').nth(1).ok_or("callgrind wrote a line without a count")?.parse::<f64>()?;
            if is_call {
                is_call = false;
            } else {
                whole += number;
                if is_own {
                    own += number;
                    *functions.entry(function.to_string()).or_default() += number;
                }
            }
        }
    }
    if own == 0.0 {
        return Err(format!("callgrind counted nothing of {}", program.display()).into());
    }
    Ok(Profile { counts: Counts { own, whole }, functions })
}

/// The instructions of a process.
pub fn count(program: &Path, arguments: &[PathBuf], input: &Path) -> Outcome<Counts> {
    Ok(profile(program, arguments, input)?.counts)
}

fn profile_three(places: &Places, input: &Path) -> Outcome<Three<Profile>> {
    let profile = |program: &Path| profile(program, &[], input);
    Ok(Three { zorpedi: profile(&places.follow)?, fast: profile(&places.fast)?, naive: profile(&places.naive)? })
}

/// What each program takes for each input: that of the process, less what it takes for an empty input to be loaded and to fill its buffers once.
pub fn profile_all(places: &Places, inputs: &[Input]) -> Outcome<Vec<Three<Profile>>> {
    let nothing = profile_three(places, Path::new("/dev/null"))?;
    let less = |all: Three<Profile>| Three {
        zorpedi: all.zorpedi.less(&nothing.zorpedi),
        fast: all.fast.less(&nothing.fast),
        naive: all.naive.less(&nothing.naive),
    };
    inputs.iter().map(|input| profile_three(places, &input.file).map(less)).collect()
}

/// Of each program the instructions of its own code, and of the whole process in brackets; the ratios are of the former.
pub fn print_table(inputs: &[Input], counts: &[Three<Counts>]) {
    println!("\n| Million instructions | Zorpedi | fast | naive | Zorpedi / fast | naive / Zorpedi |");
    println!("|---|---|---|---|---|---|");
    for (input, counts) in inputs.iter().zip(counts) {
        let text = counts.map(|n| format!("{:.2} ({:.2})", n.own / 1e6, n.whole / 1e6));
        let own = counts.map(|n| n.own);
        println!(
            "| {} | {} | {} | {} | {:.2} | {:.2} |",
            input.name,
            text.zorpedi,
            text.fast,
            text.naive,
            own.zorpedi / own.fast,
            own.naive / own.zorpedi
        );
    }
}

/// Where the instructions go, by functions as they were compiled: one that was written into its only caller counts there.
pub fn print_functions(inputs: &[Input], profiles: &[Three<Profile>]) {
    println!("\n| Million instructions by function | Zorpedi | fast |");
    println!("|---|---|---|");
    for (input, three) in inputs.iter().zip(profiles) {
        println!("| {} | {} | {} |", input.name, three.zorpedi.text(), three.fast.text());
    }
}
