//! The widest table and the check row by row, 64 pairs at a time.
//!
//! Row s has one bit for each right state t. By one step the left goes from s to one state u, and the
//! right's moves are few runs of states that go to states in a row, to one state or nowhere. So what stays
//! of row s by that step is row u in shifted ranges, and whole words are cut at once.

mod bits;
mod order;
mod removal;
mod steps;

use crate::codes;
use crate::moves::{System, NONE};
use crate::table::Shape;
use crate::{Pair, Refusal, Widest};
use bits::{and, is_empty, valid_row, write_row, Rows};
use removal::Removal;
use steps::{all_steps, step_cut};

/// Writes the widest table and counts its pairs.
pub fn widest(pair: &Pair, shape: &Shape, table: &mut [u8]) -> Widest {
    let mut removal = Removal::new(pair);
    while removal.pass() {}
    let rows = &removal.rows;
    let raster = shape.write_header(table);
    for (row, bytes) in rows.all().zip(raster.chunks_exact_mut(shape.row)) {
        write_row(row, bytes);
    }
    Widest { pairs: rows.count(), start: rows.holds(pair.left.start, pair.right.start) }
}

/// Codes 18 to 20, else the number of pairs set. A row that loses nothing by any step passes whole.
pub fn check(pair: &Pair, shape: &Shape, table: &[u8]) -> Result<usize, Refusal> {
    let (left, right) = (&pair.left, &pair.right);
    let rows = Rows::given(shape.raster(table), shape, right.states);
    if !rows.holds(left.start, right.start) {
        return Err(Refusal::new(codes::START_PAIR_NOT_SET, 0, left.start, right.start));
    }
    let steps = all_steps(right);
    let allowed = valid_row(right, rows.words);
    let mut cut = vec![0; rows.words];
    for (s, row) in rows.all().enumerate().filter(|(_, row)| !is_empty(row)) {
        cut.copy_from_slice(row);
        match pair.safe.member[s] {
            true => and(&mut cut, &allowed),
            false => cut.fill(0),
        }
        for (step, u) in moves_of(left, s) {
            step_cut(&steps[step], &mut cut, rows.row(u));
        }
        if cut != *row {
            return Err(first_fault(pair, &rows, s));
        }
    }
    Ok(rows.count())
}

/// The lowest pair of a row that is not allowed or breaks a rule, with the least step that it fails.
fn first_fault(pair: &Pair, rows: &Rows, s: usize) -> Refusal {
    let right = &pair.right;
    for t in (0..right.states).filter(|t| rows.holds(s, *t)) {
        if !(pair.safe.member[s] && right.valid[t]) {
            return Refusal::new(codes::PAIR_NOT_ALLOWED, 0, s, t);
        }
        let fails = |(step, u): &(usize, usize)| {
            let reached = right.row(t)[*step];
            reached == NONE || !rows.holds(*u, reached.into())
        };
        if let Some((step, _)) = moves_of(&pair.left, s).find(fails) {
            return Refusal::new(codes::RULE_BROKEN, 0, step, s * right.states + t);
        }
    }
    unreachable!("a row that loses a pair has one that fails")
}

/// The steps a state makes, from the least up, and where each leads.
fn moves_of(system: &System, state: usize) -> impl Iterator<Item = (usize, usize)> + '_ {
    let moves = system.row(state).iter().enumerate();
    moves.filter(|(_, reached)| **reached != NONE).map(|(step, reached)| (step, usize::from(*reached)))
}
