//! The program `survey`: what one run writes for some files.
use super::opening::Map;
use super::shape::{Shape, TODAY};
use super::stream::{answer, LINES};
use super::summary::Mean;

/// The most files of one run.
pub const FILES: usize = 1_000;

/// The map that an input leaves, from the empty one on. A file that is not there, or that cannot be read, is an empty input, and one that fails midway
/// is what was read of it.
pub fn followed(input: &[u8]) -> Map {
    followed_on(TODAY, input)
}

/// The same on a map of this shape.
fn followed_on(shape: &'static Shape, input: &[u8]) -> Map {
    let mut map = Map::of_shape(shape);
    for (_, line) in (0..LINES).zip(input.split_inclusive(|&b| b == 0x0A)) {
        answer(&mut map, line);
    }
    map
}

fn line_of(mean: Mean) -> String {
    format!("{} {} {} {}\n", mean.sum, mean.pairs, mean.quotient, mean.remainder)
}

/// The whole output of a run: a line for each of the first files, in order, and the line of all their pairs together. A map with fewer than two depots
/// that deliver is refused, and adds nothing.
pub fn output<F: AsRef<[u8]>>(files: &[F]) -> String {
    output_of(TODAY, files)
}

/// The same on maps of this shape.
pub fn output_of<F: AsRef<[u8]>>(shape: &'static Shape, files: &[F]) -> String {
    let mut lines = String::new();
    let (mut sum, mut pairs) = (0, 0);
    for file in files.iter().take(FILES) {
        match followed_on(shape, file.as_ref()).network.summary(shape) {
            None => lines += "R15\n",
            Some(summary) => {
                lines += &line_of(summary.mean);
                sum += summary.mean.sum;
                pairs += summary.mean.pairs;
            }
        }
    }
    lines + &line_of(Mean::of(sum, pairs))
}
