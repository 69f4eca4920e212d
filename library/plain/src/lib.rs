//! The seven operations (SPECIFICATION 12) over lent slices, in plain Rust.
//!
//! Nothing here is proved. It was written from the rules alone, without the proved code, and serves
//! two ends: the differential test compares the verified library with it, and the benchmark measures
//! the library against it. Left means the draft, right the contract. Each operation takes the tick length first, in
//! milliseconds (SPECIFICATION 4.7).

#![forbid(unsafe_code)]

pub mod codes;
mod implementation;
mod joining;
mod moves;
mod pairing;
mod reader;
mod record;
mod rows;
mod safe;
mod search;
mod table;
mod token;

pub use record::RECORD_ENTRIES;
pub use record::{Assignment, Channel, Comparison, Comparisons, Direction, Edge, Label, Location, Name, Record, Sign};
pub use search::search_counted;

use moves::System;
use safe::{prune, write_keep, SafeSet};

/// What a refused call returns: the code, the file mark and two values.
#[derive(Clone, Copy, Debug, PartialEq, Eq)]
pub struct Refusal {
    pub code: usize,
    pub file: usize,
    pub p: usize,
    pub q: usize,
}

impl Refusal {
    fn new(code: usize, file: usize, p: usize, q: usize) -> Refusal {
        Refusal { code, file, p, q }
    }
}

/// The answer of the safe-state operation.
#[derive(Clone, Copy, Debug, PartialEq, Eq)]
pub struct Safe {
    pub count: usize,
    pub start: bool,
}

/// The answer of the widest-table operation.
#[derive(Clone, Copy, Debug, PartialEq, Eq)]
pub struct Widest {
    pub pairs: usize,
    pub start: bool,
}

/// A text longer than this is refused with code 1.
pub const TEXT_LIMIT: usize = 32_768;

/// The longest tick in milliseconds; the shortest is 1.
pub const TICK_LIMIT: usize = 60_000;

/// Two texts that were read and whose channels pair up, ready for a walk over pairs of states.
struct Pair {
    left: System,
    /// The right's moves stand in the order of the left's channels.
    right: System,
    safe: SafeSet,
}

/// Reads a text and judges codes 24 and 1 to 11.
pub fn read(tick_length: usize, text: &[u8]) -> Result<Record, Refusal> {
    read_one(tick_length, text).map(|(record, _)| record)
}

/// Marks the safe states in `keep` and counts them.
pub fn safe_states(tick_length: usize, text: &[u8], keep: &mut [u8]) -> Result<Safe, Refusal> {
    let (_, system) = read_one(tick_length, text)?;
    judge_keep(system.states, keep)?;
    let safe = SafeSet::of(&system);
    write_keep(&safe, keep);
    Ok(Safe { count: safe.count, start: safe.member[system.start] })
}

/// Judges whether the text is an implementation (SPECIFICATION 8.6): codes 22 and 23 after those of reading.
pub fn implementation(tick_length: usize, text: &[u8]) -> Result<(), Refusal> {
    let (_, system) = read_one(tick_length, text)?;
    implementation::judge(&system).map_err(|fault| Refusal::new(fault.code, 1, fault.p, fault.q))
}

/// Searches for the least of the shortest departures; gives its length, 0 if there is none.
pub fn search(
    tick_length: usize,
    left: &[u8],
    right: &[u8],
    keep: &mut [u8],
    back: &mut [u32],
    line: &mut [u32],
    run: &mut [u32],
) -> Result<usize, Refusal> {
    search_counted(tick_length, left, right, keep, back, line, run).map(|(steps, _)| steps)
}

/// Checks that the given table is a refinement relation; gives the number of its pairs.
pub fn check(tick_length: usize, left: &[u8], right: &[u8], keep: &mut [u8], table: &[u8]) -> Result<usize, Refusal> {
    check_with(tick_length, left, right, keep, table, table::check)
}

/// The same by rows of 64 pairs a word.
pub fn check_by_rows(
    tick_length: usize,
    left: &[u8],
    right: &[u8],
    keep: &mut [u8],
    table: &[u8],
) -> Result<usize, Refusal> {
    check_with(tick_length, left, right, keep, table, rows::check)
}

fn check_with(
    tick_length: usize,
    left: &[u8],
    right: &[u8],
    keep: &mut [u8],
    table: &[u8],
    judge: fn(&Pair, &table::Shape, &[u8]) -> Result<usize, Refusal>,
) -> Result<usize, Refusal> {
    let pair = read_pair(tick_length, left, right)?;
    judge_keep(pair.left.states, keep)?;
    let shape = table::Shape::of(&pair);
    if !shape.fits(table) {
        return Err(Refusal::new(codes::OTHER_TABLE, 0, 0, 0));
    }
    write_keep(&pair.safe, keep);
    judge_start(&pair)?;
    judge(&pair, &shape, table)
}

/// Writes the largest refinement relation as a table; gives its pairs and whether the start is one.
pub fn widest(
    tick_length: usize,
    left: &[u8],
    right: &[u8],
    keep: &mut [u8],
    table: &mut [u8],
) -> Result<Widest, Refusal> {
    widest_with(tick_length, left, right, keep, table, table::widest)
}

/// The same by rows of 64 pairs a word.
pub fn widest_by_rows(
    tick_length: usize,
    left: &[u8],
    right: &[u8],
    keep: &mut [u8],
    table: &mut [u8],
) -> Result<Widest, Refusal> {
    widest_with(tick_length, left, right, keep, table, rows::widest)
}

fn widest_with(
    tick_length: usize,
    left: &[u8],
    right: &[u8],
    keep: &mut [u8],
    table: &mut [u8],
    make: fn(&Pair, &table::Shape, &mut [u8]) -> Widest,
) -> Result<Widest, Refusal> {
    let pair = read_pair(tick_length, left, right)?;
    judge_keep(pair.left.states, keep)?;
    let shape = table::Shape::of(&pair);
    if table.len() < shape.bytes() {
        return Err(Refusal::new(codes::TABLE_TOO_SHORT, 0, shape.bytes(), 0));
    }
    write_keep(&pair.safe, keep);
    judge_start(&pair)?;
    Ok(make(&pair, &shape, table))
}

/// Writes the conjunction of two texts into `out` as a text; gives its length (SPECIFICATION 12.10).
pub fn join(tick_length: usize, left: &[u8], right: &[u8], out: &mut [u8]) -> Result<usize, Refusal> {
    let Two { left: (left_record, _), right: (right_record, _), partner } = read_two(tick_length, left, right)?;
    let names: Vec<&[u8]> = left_record.channels.iter().map(|channel| channel.name.spelling(left)).collect();
    let Some(text) = joining::text(&left_record, &right_record, &partner, &names) else {
        return Err(Refusal::new(codes::LIMIT_EXCEEDED, 0, 0, 0));
    };
    if out.len() < text.len() {
        return Err(Refusal::new(codes::OUT_TOO_SHORT, 0, text.len(), 0));
    }
    out[..text.len()].copy_from_slice(&text);
    Ok(text.len())
}

/// Whether a text is accepted and has parallel edges (SPECIFICATION 7.2).
pub fn has_parallel_edges(tick_length: usize, text: &[u8]) -> bool {
    read_one(tick_length, text).is_ok_and(|(record, _)| moves::edges_meet(&record))
}

/// Whether a text is accepted and an edge of it sets a clock to more than 0 ticks (SPECIFICATION 5.4).
pub fn has_late_clocks(tick_length: usize, text: &[u8]) -> bool {
    let is_late = |edge: &Edge| edge.assignments.iter().flatten().any(|assignment| assignment.value > 0);
    read_one(tick_length, text).is_ok_and(|(record, _)| record.edges.iter().any(is_late))
}

/// Whether in a state of a text, accepted or not, two edges or more give moves by a channel, all of which lead to one
/// state: the edges are parallel there.
pub fn are_parallel_at(tick_length: usize, text: &[u8], state: usize, channel: usize) -> bool {
    let judged = judge_tick(tick_length).and_then(|()| judge_length(text, 1));
    let Some(record) = judged.ok().and_then(|()| reader::read(tick_length, text).ok()) else {
        return false;
    };
    let reached = moves::reached(&record, state, channel);
    reached.len() > 1 && reached.iter().all(|other| *other == reached[0])
}

/// Code 24, before anything is looked at.
fn judge_tick(tick_length: usize) -> Result<(), Refusal> {
    if (1..=TICK_LIMIT).contains(&tick_length) {
        return Ok(());
    }
    Err(Refusal::new(codes::TICK_OUT_OF_RANGE, 0, tick_length, 0))
}

fn judge_length(text: &[u8], file: usize) -> Result<(), Refusal> {
    if text.len() > TEXT_LIMIT {
        return Err(Refusal::new(codes::TEXT_TOO_LONG, file, 0, 0));
    }
    Ok(())
}

/// Reads the text of an operation on one text: codes 24 and 1 to 11.
fn read_one(tick_length: usize, text: &[u8]) -> Result<(Record, System), Refusal> {
    judge_tick(tick_length)?;
    judge_length(text, 1)?;
    read_text(tick_length, text, 1)
}

/// Reads one text; the tick length and the text's length were judged before: codes 2 to 11.
fn read_text(tick_length: usize, text: &[u8], file: usize) -> Result<(Record, System), Refusal> {
    let marked = |fault: record::Fault| Refusal::new(fault.code, file, fault.p, fault.q);
    let mut record = reader::read(tick_length, text).map_err(marked)?;
    let system = System::of(&mut record).map_err(marked)?;
    Ok((record, system))
}

/// Two texts that were read, and for each of the left's steps the right's number.
struct Two {
    left: (Record, System),
    right: (Record, System),
    partner: Vec<usize>,
}

/// Reads both texts and pairs their channels: codes 24 and 1 to 12.
fn read_two(tick_length: usize, left: &[u8], right: &[u8]) -> Result<Two, Refusal> {
    judge_tick(tick_length)?;
    judge_length(left, 1)?;
    judge_length(right, 2)?;
    let (of_left, of_right) = (read_text(tick_length, left, 1)?, read_text(tick_length, right, 2)?);
    let partner = pairing::partners(left, &of_left.0, right, &of_right.0)?;
    Ok(Two { left: of_left, right: of_right, partner })
}

/// Reads both texts, pairs their channels and finds the left's safe states: codes 24 and 1 to 12.
fn read_pair(tick_length: usize, left: &[u8], right: &[u8]) -> Result<Pair, Refusal> {
    let Two { left: (_, mut left_system), right: (_, right_system), partner } = read_two(tick_length, left, right)?;
    let right_system = right_system.reordered(&partner);
    let safe = SafeSet::of(&left_system);
    prune(&mut left_system, &safe);
    Ok(Pair { left: left_system, right: right_system, safe })
}

fn judge_keep(states: usize, keep: &[u8]) -> Result<(), Refusal> {
    let need = states.div_ceil(8);
    if keep.len() < need {
        return Err(Refusal::new(codes::KEEP_TOO_SHORT, 0, need, 0));
    }
    Ok(())
}

/// Code 17: the left's start is not safe.
fn judge_start(pair: &Pair) -> Result<(), Refusal> {
    if pair.safe.member[pair.left.start] {
        return Ok(());
    }
    Err(Refusal::new(codes::START_NOT_SAFE, 1, pair.left.start, 0))
}
