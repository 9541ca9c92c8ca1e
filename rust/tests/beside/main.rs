//! Every C function beside a plain implementation of the rules: the same answer, and the same value in every element of every buffer, scratch
//! memory and what stands behind the lent part included. What is true of the figures is held to a search from every depot as well.
#[path = "../inputs/mod.rs"]
mod inputs;
#[path = "../plain/mod.rs"]
mod plain;

mod both;
mod expected;
mod lent;
mod maps;
mod raw;
mod tally;
mod truth;

mod batches;
mod calls;
mod cuts;
mod few;
mod histories;
mod lines;
mod links;
mod near;
mod networks;
mod refusals;
mod sentences;
mod sizes;
mod streams;
mod summaries;
mod worked;
mod yards;
