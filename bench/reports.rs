// The lines of a run over notice files, what `survey` writes, without proofs. survey.rs and survey_tables.rs include it, and each says how it sums a network:
// `summary` gives the sum of the distances over all pairs, and the pairs. Each file is followed as by the stream, chain and pairs kept.
const CHECK: bool = false;
include!("core.rs");

use std::ffi::OsStr;

// Follows a file from the empty map, as far as it can be read.
fn follow(name: &OsStr, buf: &mut [u8], m: &mut Map, sc: &mut Scratch) -> io::Result<()> {
    let file = File::open(name)?;
    let mut src = Src { buf, pos: 0, end: 0, eof: false, file: &file, failed: None };
    let mut lines = 0;
    while lines < 1_000_000 && src.more() {
        take_line(&mut src, m, sc);
        lines += 1;
    }
    src.failed.map_or(Ok(()), Err)
}

fn put_mean(out: &mut impl Write, sum: u64, pairs: u64) -> io::Result<()> {
    writeln!(out, "{sum} {pairs} {} {}", sum.checked_div(pairs).unwrap_or(0), sum.checked_rem(pairs).unwrap_or(0))
}

fn run() -> io::Result<()> {
    let mut m: Box<Map> = zeroed();
    let mut sc: Box<Scratch> = zeroed();
    let mut buf = vec![0; CAP + PAD];
    let mut out = io::stdout().lock();
    let (mut sum, mut pairs) = (0, 0);
    for name in std::env::args_os().skip(1).take(1000) {
        unsafe { std::ptr::write_bytes(&mut *m as *mut Map, 0, 1); }
        if let Err(error) = follow(&name, &mut buf, &mut m, &mut sc) {
            eprintln!("survey: {}: {error}", name.to_string_lossy());
        }
        match summary(&mut m, &mut sc) {
            None => writeln!(out, "R15")?,
            Some((s, p)) => {
                put_mean(&mut out, s, p)?;
                sum += s;
                pairs += p;
            }
        }
    }
    put_mean(&mut out, sum, pairs)
}

fn main() {
    if let Err(error) = run() {
        eprintln!("survey: standard output: {error}");
    }
}
