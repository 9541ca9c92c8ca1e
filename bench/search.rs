// One search of the best unverified program: after the notices on standard input, so many sweeps as the argument says of a search from every open depot.
// Prints the least and the median of a search's nanoseconds, over the sweeps.
const CHECK: bool = false;
include!("core.rs");

use std::mem::ManuallyDrop;
use std::os::fd::FromRawFd;
use std::time::Instant;

fn main() {
    let sweeps: usize = std::env::args().nth(1).and_then(|text| text.parse().ok()).expect("a number of sweeps");
    let stdin = ManuallyDrop::new(unsafe { File::from_raw_fd(0) });
    let mut m: Box<Map> = zeroed();
    let mut sc: Box<Scratch> = zeroed();
    let mut buf = vec![0; CAP + PAD];
    let mut src = Src { buf: &mut buf, pos: 0, end: 0, eof: false, file: &stdin, failed: None };
    while src.more() { take_line(&mut src, &mut m, &mut sc); }
    let open: Vec<usize> = (0..256).filter(|&c| has(&m.open, c)).collect();
    let mut times = Vec::new();
    for _ in 0..sweeps {
        let start = Instant::now();
        for &c in &open { std::hint::black_box(search(&mut m, &mut sc, c)); }
        times.push(start.elapsed().as_nanos() as f64 / open.len() as f64);
    }
    times.sort_by(f64::total_cmp);
    if sweeps > 0 { println!("{} {}", times[0], times[sweeps / 2]); }
}
