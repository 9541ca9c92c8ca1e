//! One search, in times and instructions, beside that of bench/core.rs.
use crate::times::{self, Time};
use crate::{compile, instructions, Input, Outcome};
use std::fs;
use std::path::{Path, PathBuf};
use std::process::{Command, Stdio};
use std::time::Instant;
use zorpedi::{Map, Stream};

/// The word by which the benchmark starts itself anew, to be counted.
const CHILD: &str = "search";

/// So many sweeps are timed, and so many are counted.
const SWEEPS: usize = 201;
const COUNTED: usize = 16;

/// The map after some notices.
fn map_after(notices: &[u8]) -> Outcome<Map> {
    let mut stream = Stream::new();
    stream.push(notices, &mut Vec::new())?;
    Ok(stream.into_map())
}

/// The codes of a map for which a search is tried: those that are open, and those that are not, from which a search is refused after all checks.
fn codes(map: &Map, is_open: bool) -> Vec<u8> {
    (0..=255).filter(|&code| map.is_open(code) == is_open).collect()
}

/// Nanoseconds of one call in each of many sweeps of about 256 calls. Refusals count as calls.
fn sweep(map: &Map, codes: &[u8], sweeps: usize) -> Vec<f64> {
    let rounds = 256 / codes.len();
    let mut times = Vec::new();
    for _ in 0..sweeps {
        let start = Instant::now();
        for _ in 0..rounds {
            for &code in codes {
                let _ = std::hint::black_box(map.search(code));
            }
        }
        times.push(start.elapsed().as_nanos() as f64 / (rounds * codes.len()) as f64);
    }
    times
}

/// Whether this process is one that is counted; then it has made its sweeps: `search FILE open|closed SWEEPS`.
pub fn is_child() -> Outcome<bool> {
    let arguments: Vec<String> = std::env::args().skip(1).collect();
    let [word, file, which, sweeps] = arguments.as_slice() else {
        return Ok(false);
    };
    if word != CHILD {
        return Ok(false);
    }
    let map = map_after(&fs::read(file)?)?;
    sweep(&map, &codes(&map, which == "open"), sweeps.parse()?);
    Ok(true)
}

/// The instructions of one call: those of many sweeps, less those of none.
fn count_calls(program: &Path, arguments: &[&str], input: &Path, calls: usize) -> Outcome<f64> {
    let count = |sweeps: usize| {
        let mut all: Vec<PathBuf> = arguments.iter().map(PathBuf::from).collect();
        all.push(sweeps.to_string().into());
        instructions::count(program, &all, input)
    };
    Ok(count(COUNTED)?.less(count(0)?).own / (COUNTED * calls) as f64)
}

/// What one call takes.
struct Taken {
    time: f64,
    instructions: Option<f64>,
}

impl Taken {
    fn less(self, other: &Taken) -> Taken {
        let instructions = self.instructions.zip(other.instructions).map(|(all, some)| all - some);
        Taken { time: (self.time - other.time).max(0.0), instructions }
    }

    fn print(&self, name: &str) {
        let counted = self.instructions.map_or("not counted".to_string(), |n| format!("{n:.0}"));
        println!("| {name} | {} | {counted} |", times::text_of(self.time));
    }
}

fn zorpedi_calls(file: &Path, map: &Map, is_open: bool) -> Outcome<Taken> {
    let codes = codes(map, is_open);
    let time = Time::of(sweep(map, &codes, SWEEPS)).median;
    let which = if is_open { "open" } else { "closed" };
    let name = file.to_str().ok_or("the folder's name is no text")?;
    let calls = 256 / codes.len() * codes.len();
    let program = std::env::current_exe()?;
    let count = || count_calls(&program, &[CHILD, name, which], Path::new("/dev/null"), calls);
    let instructions = if instructions::are_counted()? { Some(count()?) } else { None };
    Ok(Taken { time, instructions })
}

fn fast_search(program: &Path, file: &Path, open: usize) -> Outcome<Taken> {
    let mut timed = Command::new(program);
    timed.arg(SWEEPS.to_string()).stdin(fs::File::open(file)?).stderr(Stdio::inherit());
    let text = String::from_utf8(timed.output()?.stdout)?;
    let time = text.split_whitespace().nth(1).ok_or("bench/search.rs printed no times")?.parse()?;
    let count = || count_calls(program, &[], file, open);
    let instructions = if instructions::are_counted()? { Some(count()?) } else { None };
    Ok(Taken { time, instructions })
}

/// `zorpedi_search` on the whole regional map, with all checks of the map; and the search inside it, beside that of the program without proofs. The search
/// inside is told on the map before its last opening, where one code is closed: a search from that code is refused after all checks, so that the difference
/// is the search alone.
pub fn print(root: &Path, work: &Path, regional: &Input) -> Outcome<()> {
    let program = compile(root, work, "search")?;
    let file = work.join("before.txt");
    let before: Vec<u8> = regional.bytes.split_inclusive(|&b| b == b'\n').take(255).flatten().copied().collect();
    fs::write(&file, &before)?;
    let (whole, map) = (map_after(&regional.bytes)?, map_after(&before)?);
    println!("\n| One search of the regional map | Median time | Instructions |");
    println!("|---|---|---|");
    zorpedi_calls(&regional.file, &whole, true)?.print("zorpedi_search, 256 depots, with all checks of the map");
    let checks = zorpedi_calls(&file, &map, false)?;
    zorpedi_calls(&file, &map, true)?.less(&checks).print("the search inside it, 255 depots");
    fast_search(&program, &file, 255)?.print("the search of fast, 255 depots");
    fast_search(&program, &regional.file, 256)?.print("the search of fast, 256 depots");
    Ok(())
}
