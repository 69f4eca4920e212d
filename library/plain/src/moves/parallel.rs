//! Where edges meet: several give moves by one channel in one state (SPECIFICATION 7.2). No operation asks for it;
//! tests do, to know what they tried.

use super::{offset, state_count, Box3, Grid, STATE_LIMIT};
use crate::record::{Edge, Record, CLOCK_LIMIT};

/// Whether two edges give moves by one channel in some state whose invariant holds. In an accepted text such edges are
/// parallel.
pub fn edges_meet(record: &Record) -> bool {
    let grid = Grid::new(record.values());
    let rooms = grid.rooms(record);
    let domains: Vec<Box3> = record.edges.iter().map(|edge| grid.domain(edge, &rooms)).collect();
    let meet = |i: usize, j: usize| {
        let (one, other): (&Edge, &Edge) = (&record.edges[i], &record.edges[j]);
        let together = one.source == other.source && one.label == other.label;
        together && !domains[i].and(&domains[j]).is_empty()
    };
    (0..record.edges.len()).any(|j| (0..j).any(|i| meet(i, j)))
}

/// The states that are reached by a channel from a state whose invariant holds, one for each edge that gives a move.
/// There are none where the text has no such state.
pub fn reached(record: &Record, state: usize, channel: usize) -> Vec<usize> {
    let (grid, states) = (Grid::new(record.values()), state_count(record));
    if states > STATE_LIMIT || state >= states {
        return Vec::new();
    }
    let (location, rooms) = (state / grid.volume, grid.rooms(record));
    let values: [usize; CLOCK_LIMIT] =
        std::array::from_fn(|clock| state % grid.volume / grid.stride[clock] % grid.values[clock]);
    let gives = |edge: &&Edge| {
        let fits = edge.source == location && edge.label.channel() == channel;
        fits && grid.domain(edge, &rooms).holds(values)
    };
    record.edges.iter().filter(gives).map(|edge| grid.assigned(edge) + offset(&grid.kept(edge), values)).collect()
}
