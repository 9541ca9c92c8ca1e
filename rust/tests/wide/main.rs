//! The wide map by the plain implementation alone: codes of two bytes, rows in order of arrival,
//! frames of both widths, closings. It is held to values that were worked out by hand; to the rules
//! once more, by rows and with distances that are found in another way; and to the narrow map,
//! where the two have to agree. No call of the archive has such a map.
#[path = "../inputs/mod.rs"]
mod inputs;
#[path = "../plain/mod.rs"]
mod plain;

mod by_rows;
mod steps;

mod closings;
mod definitions;
mod frames;
mod memory;
mod narrow;
mod worked;
