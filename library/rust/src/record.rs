//! The record of a text, decoded from the numbers that the library hands out (SPECIFICATION 15.2).

use crate::raw::*;
use std::ops::Range;

/// A guard or an invariant has at most so many comparisons, and a text so many clocks.
const COMPARISON_LIMIT: usize = 4;
const CLOCK_LIMIT: usize = 3;

/// How the edges use a channel. One that no edge names counts as an output that never happens.
#[derive(Clone, Copy, Debug, PartialEq, Eq)]
#[allow(missing_docs)]
pub enum Direction {
    Unused,
    Input,
    Output,
}

/// A channel; its name is a range of bytes of the text.
#[derive(Clone, Debug, PartialEq, Eq)]
#[allow(missing_docs)]
pub struct Channel {
    pub name: Range<usize>,
    pub direction: Direction,
}

/// `<=`, `>=`, `==`, `<` or `>`.
#[derive(Clone, Copy, Debug, PartialEq, Eq)]
#[allow(missing_docs)]
pub enum Sign {
    AtMost,
    AtLeast,
    Equal,
    Less,
    Greater,
}

/// A clock, numbered from 0, compared with a constant in ticks.
#[derive(Clone, Copy, Debug, PartialEq, Eq)]
#[allow(missing_docs)]
pub struct Comparison {
    pub clock: usize,
    pub sign: Sign,
    pub bound: usize,
}

/// A location; its name is a range of bytes of the text.
#[derive(Clone, Debug, PartialEq, Eq)]
#[allow(missing_docs)]
pub struct Location {
    pub name: Range<usize>,
    pub invariant: Vec<Comparison>,
}

/// An input or an output channel, numbered from 1.
#[derive(Clone, Copy, Debug, PartialEq, Eq)]
#[allow(missing_docs)]
pub enum Label {
    Input(usize),
    Output(usize),
}

/// What an edge sets a clock to, in ticks. `value` is that of the last assignment. `largest` is the largest value that is
/// written in one: it counts towards the clock's values, and so towards the number of states, also where a later
/// assignment overrides it.
#[derive(Clone, Copy, Debug, PartialEq, Eq)]
#[allow(missing_docs)]
pub struct Assignment {
    pub value: usize,
    pub largest: usize,
}

/// An edge between two locations, numbered from 0; `assignments` has for each clock what the edge sets it to, if it does.
#[derive(Clone, Debug, PartialEq, Eq)]
#[allow(missing_docs)]
pub struct Edge {
    pub source: usize,
    pub target: usize,
    pub label: Label,
    pub guard: Vec<Comparison>,
    pub assignments: [Option<Assignment>; CLOCK_LIMIT],
}

/// The record of a text that was read.
#[derive(Clone, Debug, PartialEq, Eq)]
#[allow(missing_docs)]
pub struct Record {
    pub channels: Vec<Channel>,
    pub clocks: Vec<Range<usize>>,
    pub locations: Vec<Location>,
    pub init: usize,
    pub edges: Vec<Edge>,
    pub states: usize,
}

/// A name's byte place and length, the first two numbers of an item.
fn name(n: &[usize]) -> Range<usize> {
    n[0]..n[0] + n[1]
}

fn comparison(n: &[usize]) -> Comparison {
    let sign = match n[1] {
        0 => Sign::AtMost,
        1 => Sign::AtLeast,
        2 => Sign::Equal,
        3 => Sign::Less,
        _ => Sign::Greater,
    };
    Comparison { clock: n[0], sign, bound: n[2] }
}

/// A count, then room for four comparisons, of which the first `count` are those of the text.
fn constraint(n: &[usize]) -> Vec<Comparison> {
    n[1..].chunks(COMPARISON_ENTRIES).take(n[0]).map(comparison).collect()
}

fn channel(n: &[usize]) -> Channel {
    let direction = match n[2] {
        0 => Direction::Unused,
        1 => Direction::Input,
        _ => Direction::Output,
    };
    Channel { name: name(n), direction }
}

fn location(n: &[usize]) -> Location {
    Location { name: name(n), invariant: constraint(&n[2..]) }
}

fn assignment(n: &[usize]) -> Option<Assignment> {
    (n[0] == 1).then(|| Assignment { value: n[1], largest: n[2] })
}

fn edge(n: &[usize]) -> Edge {
    let label = if n[2] == 1 { Label::Input(n[3]) } else { Label::Output(n[3]) };
    let (guard, assigned) = n[4..].split_at(1 + COMPARISON_LIMIT * COMPARISON_ENTRIES);
    let assignments = std::array::from_fn(|clock| assignment(&assigned[clock * ASSIGNMENT_ENTRIES..]));
    Edge { source: n[0], target: n[1], label, guard: constraint(guard), assignments }
}

/// The first `count` items of a part of the record.
fn items<T>(part: &[usize], entries: usize, count: usize, item: impl Fn(&[usize]) -> T) -> Vec<T> {
    part.chunks(entries).take(count).map(item).collect()
}

impl Record {
    /// The record from its numbers, as `megzhoi.h` lists them.
    pub(crate) fn from_numbers(n: &[usize; RECORD_ENTRIES]) -> Record {
        Record {
            channels: items(&n[CHANNELS..CLOCKS], CHANNEL_ENTRIES, n[CHANNEL_COUNT], channel),
            clocks: items(&n[CLOCKS..LOCATIONS], CLOCK_ENTRIES, n[CLOCK_COUNT], name),
            locations: items(&n[LOCATIONS..EDGES], LOCATION_ENTRIES, n[LOCATION_COUNT], location),
            init: n[INIT],
            edges: items(&n[EDGES..], EDGE_ENTRIES, n[EDGE_COUNT], edge),
            states: n[STATE_COUNT],
        }
    }
}
