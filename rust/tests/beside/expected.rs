//! What each C function has to do to the memory that it is lent, by the plain implementation. Each function answers the number that the C function
//! has to answer.
use crate::lent::{Buffer, Lent};
use crate::plain::lines::{frame_of, line_of, notice_of, report_of, Fields};
use crate::plain::memory::{Marks, Memory, Searched};
use crate::plain::network::{Distances, Pairs};
use crate::plain::opening::{reckoning, Opened, Work};
use crate::plain::summary::Mean;
use crate::plain::{stream, words, Figures, Map, Network, TODAY};

pub use crate::plain::memory::CLOSED;

pub const SEARCHED: u16 = TODAY.searched;
pub const OTHER: u16 = TODAY.other;

/// The greatest number of depots, and the words of a row and of a table.
pub const PLACES: usize = TODAY.places;
pub const WORDS: usize = TODAY.words();
pub const TABLE: usize = TODAY.table();

/// The words of the record: open set, number open, chain, pair count, yard set.
pub const RECORD: usize = TODAY.record();
pub const NUMBER: usize = WORDS;
pub const CHAIN: usize = WORDS + 1;
pub const COUNT: usize = WORDS + 2;
pub const YARDS: usize = WORDS + 3;

// ---- what stands in the memory

/// The bits of a table, as (row, place).
pub fn bits_of_table(table: &[u64]) -> Pairs {
    words::bits_of_table(WORDS, table)
}

fn memory(m: &Lent) -> Memory {
    let record = &m.record.data;
    Memory {
        shape: TODAY,
        open: record[..WORDS].to_vec(),
        number: record[NUMBER],
        chain: record[CHAIN],
        count: record[COUNT],
        yards: record[YARDS..RECORD].to_vec(),
        codes: Vec::new(),
        links: m.links.data[..TABLE].to_vec(),
        pairs: m.pairs.data[..TABLE].to_vec(),
    }
}

/// The network that stands in the memory, sound or not.
pub fn network(m: &Lent) -> Network {
    Network::of(TODAY, &m.record.data[..WORDS], &m.record.data[YARDS..RECORD], &m.links.data)
}

/// The map that stands in the memory, links and figures being sound.
fn map(m: &Lent) -> Map {
    memory(m).map()
}

/// The same where figures are not asked for, and are passed over.
fn map_of_links(m: &Lent) -> Map {
    Memory { chain: 0, pairs: vec![0; TABLE], ..memory(m) }.map()
}

/// Writes open set, number open, yard set, link table, chain, pair count and pair table.
pub fn store_map(m: &mut Lent, map: &Map) {
    let mut memory = memory(m);
    memory.store(map);
    let record = &mut m.record.data;
    record[..WORDS].copy_from_slice(&memory.open);
    record[NUMBER] = memory.number;
    record[YARDS..RECORD].copy_from_slice(&memory.yards);
    m.links.data[..TABLE].copy_from_slice(&memory.links);
    store_figures(m, &map.figures);
}

/// Writes chain, pair count and pair table.
pub fn store_figures(m: &mut Lent, figures: &Figures) {
    m.record.data[CHAIN] = figures.chain as u64;
    m.record.data[COUNT] = figures.pairs.len() as u64;
    m.pairs.data[..TABLE].copy_from_slice(&words::table_of_bits(WORDS, figures.pairs.iter().copied()));
}

/// Writes what a search leaves in hop table and layer rows.
fn store_search(m: &mut Lent, map: &Map, distances: &Distances) {
    let searched = Searched::of(TODAY, &map.rows, distances);
    m.hops.data[..PLACES].copy_from_slice(&searched.hops);
    m.even.data[..WORDS].copy_from_slice(&searched.even);
    m.odd.data[..WORDS].copy_from_slice(&searched.odd);
}

/// Writes bound table, skip table, hop table and layer rows.
fn store_work(m: &mut Lent, map: &Map, work: &Work) {
    let marks = Marks::of(TODAY, &map.rows, work);
    m.bounds.data[..PLACES].copy_from_slice(&marks.bounds);
    m.skips.data[..PLACES].copy_from_slice(&marks.skips);
    if let Some(distances) = &work.last {
        store_search(m, map, distances);
    }
}

/// The number of places that are marked as searched.
pub fn searches(m: &Lent) -> u16 {
    m.skips.data[..PLACES].iter().filter(|&&mark| mark == SEARCHED).count() as u16
}

/// Codes as the plain implementation has them.
fn wide(codes: &[u8]) -> Vec<usize> {
    codes.iter().map(|&code| code.into()).collect()
}

// ---- the refusals of memory

fn is_short<T>(buffer: &Buffer<T>, size: usize) -> bool {
    buffer.lent < size
}

fn is_map_short(m: &Lent) -> bool {
    is_short(&m.record, RECORD)
        || is_short(&m.links, TABLE)
        || is_short(&m.pairs, TABLE)
        || is_short(&m.hops, PLACES)
        || is_short(&m.bounds, PLACES)
        || is_short(&m.skips, PLACES)
        || is_short(&m.even, WORDS)
        || is_short(&m.odd, WORDS)
}

/// 2 and 3 of a call that looks at the links only; the sizes are right.
fn links_refusal(m: &Lent) -> u8 {
    memory(m).links_refusal()
}

/// 2 and 3 of a call that looks at the figures too.
fn map_refusal(m: &Lent) -> u8 {
    memory(m).refusal()
}

// ---- the calls on a map

pub fn empty(m: &mut Lent) -> u8 {
    if is_short(&m.record, RECORD) || is_short(&m.links, TABLE) || is_short(&m.pairs, TABLE) {
        return 1;
    }
    m.record.data[..RECORD].fill(0);
    m.links.data[..TABLE].fill(0);
    m.pairs.data[..TABLE].fill(0);
    0
}

fn is_search_short(m: &Lent) -> bool {
    is_short(&m.record, RECORD)
        || is_short(&m.links, TABLE)
        || is_short(&m.hops, PLACES)
        || is_short(&m.even, WORDS)
        || is_short(&m.odd, WORDS)
}

/// 1 to 4 of a call that searches from a depot.
fn search_refusal(m: &Lent, code: u8) -> u8 {
    if is_search_short(m) {
        return 1;
    }
    match links_refusal(m) {
        0 if !network(m).open.contains(&code.into()) => 4,
        refusal => refusal,
    }
}

pub fn search(m: &mut Lent, code: u8) -> u8 {
    let refusal = search_refusal(m, code);
    if refusal != 0 {
        return refusal;
    }
    let map = map_of_links(m);
    let distances = map.network.distances(code.into());
    store_search(m, &map, &distances);
    m.eccentricity = map.network.eccentricity(&distances) as u16;
    m.depth = distances.depth() as u16;
    0
}

pub fn within(m: &mut Lent, code: u8, k: u32) -> u8 {
    if is_short(&m.codes, PLACES) {
        return 1;
    }
    let refusal = search_refusal(m, code);
    if refusal != 0 {
        return refusal;
    }
    let map = map_of_links(m);
    store_search(m, &map, &map.network.distances(code.into()));
    let codes = map.network.within(code.into(), k);
    for (place, &code) in m.codes.data.iter_mut().zip(&codes) {
        *place = code as u8;
    }
    m.count = codes.len() as u16;
    0
}

pub fn nearest(m: &mut Lent, code: u8) -> u8 {
    let refusal = search_refusal(m, code);
    if refusal != 0 {
        return refusal;
    }
    let map = map_of_links(m);
    match map.network.nearest(code.into(), &wide(&m.input())) {
        None => 10,
        Some((found, distance)) => {
            store_search(m, &map, &map.network.distances(code.into()));
            (m.found, m.distance) = (found as u8, distance as u16);
            0
        }
    }
}

/// The searches go by rising code, so that hop table and layer rows are those from the highest that delivers.
pub fn summary(m: &mut Lent) -> u8 {
    if is_search_short(m) || is_short(&m.counts, PLACES) {
        return 1;
    }
    let refusal = links_refusal(m);
    if refusal != 0 {
        return refusal;
    }
    let map = map_of_links(m);
    match (map.network.summary(TODAY), map.network.delivering().last()) {
        (Some(summary), Some(highest)) => {
            store_search(m, &map, &map.network.distances(highest));
            m.counts.data[..PLACES].copy_from_slice(&summary.counts);
            let Mean { sum, pairs, quotient, remainder } = summary.mean;
            (m.sum, m.pair_number, m.quotient, m.remainder) = (sum, pairs, quotient, remainder);
            0
        }
        _ => 15,
    }
}

pub fn reckon(m: &mut Lent) -> u8 {
    if is_map_short(m) {
        return 1;
    }
    let refusal = links_refusal(m);
    if refusal != 0 {
        return refusal;
    }
    let map = map_of_links(m);
    let work = reckoning(&map.network);
    store_figures(m, &work.figures);
    store_work(m, &map, &work);
    m.searches = searches(m);
    0
}

pub fn open(m: &mut Lent, code: u8) -> u8 {
    let neighbours = wide(&m.input());
    change(m, |map| map.open(code.into(), &neighbours))
}

pub fn open_yard(m: &mut Lent, code: u8) -> u8 {
    let neighbours = wide(&m.input());
    change(m, |map| map.open_yard(code.into(), &neighbours))
}

pub fn link(m: &mut Lent, first: u8, second: u8) -> u8 {
    change(m, |map| map.link(first.into(), second.into()))
}

/// An opening or a link: what every such call refuses first, and what an accepted one leaves.
fn change(m: &mut Lent, call: impl FnOnce(&mut Map) -> Result<Opened, u8>) -> u8 {
    if is_map_short(m) {
        return 1;
    }
    let refusal = map_refusal(m);
    if refusal != 0 {
        return refusal;
    }
    let mut map = map(m);
    match call(&mut map) {
        Err(refusal) => refusal,
        Ok(changed) => {
            store_map(m, &map);
            store_work(m, &map, &changed.work);
            m.searches = searches(m);
            changed.letter
        }
    }
}

/// Scratch is as the last accepted opening leaves it, which writes all of it; where no line is accepted nothing of the map is written.
pub fn open_batch(m: &mut Lent) -> u8 {
    if is_map_short(m) || is_short(&m.left, 64) {
        return 1;
    }
    let refusal = map_refusal(m);
    if refusal != 0 {
        return refusal;
    }
    let mut map = map(m);
    match map.open_batch(&m.input()) {
        Err(refusal) => refusal,
        Ok(batch) => {
            if let Some(work) = &batch.last {
                store_map(m, &map);
                store_work(m, &map, work);
            }
            m.left.data[..batch.left.len()].copy_from_slice(&batch.left);
            m.left_count = batch.left.len() as u8;
            0
        }
    }
}

// ---- the lines

pub fn read_notice(m: &mut Lent) -> u8 {
    if is_short(&m.frame, TODAY.frame) {
        return 1;
    }
    match frame_of(TODAY, &m.input()) {
        None => 9,
        Some((frame, used)) => {
            m.frame.data[..frame.len()].copy_from_slice(&frame);
            m.length = frame.len();
            m.used = used;
            0
        }
    }
}

pub fn write_notice(m: &mut Lent) -> u8 {
    if is_short(&m.line, TODAY.line) {
        return 1;
    }
    let frame = m.input();
    if notice_of(TODAY, &frame).is_none() {
        return 9;
    }
    let line = line_of(&frame);
    m.line.data[..line.len()].copy_from_slice(line.as_bytes());
    m.length = line.len();
    0
}

pub fn report(m: &mut Lent, fields: Fields) -> u8 {
    if is_short(&m.out, 48) {
        return 1;
    }
    let line = report_of(fields);
    m.out.data[..line.len()].copy_from_slice(line.as_bytes());
    m.length = line.len();
    0
}

// ---- the stream

fn stream_refusal(m: &Lent) -> u8 {
    if is_map_short(m) || is_short(&m.line, TODAY.line) || is_short(&m.out, 48) || m.held > TODAY.line {
        return 1;
    }
    map_refusal(m)
}

fn is_stopped(m: &Lent, written: usize) -> bool {
    m.lines >= stream::LINES || m.out.lent - written < 48
}

/// The bytes that are held are a line: it is answered and reported behind what is written.
fn take_line(m: &mut Lent, written: usize) -> usize {
    let mut map = map(m);
    let (answer, opened) = stream::answer(&mut map, &m.line.data[..m.held]);
    if let Some(opened) = &opened {
        store_map(m, &map);
        store_work(m, &map, &opened.work);
    }
    m.lines += 1;
    m.held = 0;
    let report = stream::report(&map, m.lines, answer, &opened);
    m.out.data[written..written + report.len()].copy_from_slice(report.as_bytes());
    written + report.len()
}

pub fn feed(m: &mut Lent) -> u8 {
    let refusal = stream_refusal(m);
    if refusal != 0 {
        return refusal;
    }
    let (mut used, mut written) = (0, 0);
    for byte in m.input() {
        if is_stopped(m, written) {
            break;
        }
        used += 1;
        if m.held < TODAY.line {
            m.line.data[m.held] = byte;
            m.held += 1;
        }
        if byte == 0x0A {
            written = take_line(m, written);
        }
    }
    m.used = used;
    m.written = written;
    0
}

pub fn finish(m: &mut Lent) -> u8 {
    let refusal = stream_refusal(m);
    if refusal != 0 {
        return refusal;
    }
    m.written = if m.held == 0 || is_stopped(m, 0) { 0 } else { take_line(m, 0) };
    0
}
