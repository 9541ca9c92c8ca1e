//! What the tests try: networks of many shapes that grow depot by depot, notice lines good and garbled, inputs of a stream, outcomes
//! of calls. What is random is pseudo-random from a fixed seed, so that a failure comes again.
// Each test uses a part of it.
#![allow(dead_code, unused_imports)]
pub mod dice;
pub mod growths;
pub mod lines;
pub mod outcomes;

pub use dice::Dice;
pub use growths::{Growth, Shape, SHAPES};
