//! The removal of pairs from the widest table, row by row.

use super::bits::{and, is_empty, row_of, valid_row, Rows};
use super::moves_of;
use super::order::Order;
use super::steps::{all_steps, step_cut, Step};
use crate::moves::{System, NONE};
use crate::Pair;

/// The removal of pairs until every pair that is left meets the rules.
pub struct Removal<'a> {
    left: &'a System,
    steps: Vec<Step>,
    pub rows: Rows,
    order: Order,
    /// When each row was last looked at and when it last changed; `now` rises with every change.
    looked_at: Vec<u32>,
    changed_at: Vec<u32>,
    now: u32,
    /// The row being looked at.
    row: Vec<u64>,
}

impl Removal<'_> {
    /// All rows as they are after each was looked at once while all others were full.
    pub fn new(pair: &Pair) -> Removal<'_> {
        let (left, right) = (&pair.left, &pair.right);
        let rows = Rows::empty(left.states, right.states);
        let full = valid_row(right, rows.words);
        let mut removal = Removal {
            left,
            steps: all_steps(right),
            order: Order::of(left, &pair.safe.member),
            looked_at: vec![0; left.states],
            changed_at: vec![0; left.states],
            now: 1,
            row: vec![0; rows.words],
            rows,
        };
        removal.fill(&full, &masks(right, full.len()));
        removal
    }

    /// Starts each row from the full one, cut by the masks of the steps that the left makes there. Rows of
    /// equal steps mostly stand together.
    fn fill(&mut self, full: &[u64], masks: &[Vec<u64>]) {
        let mut made = None;
        for s in self.order.states.iter().copied() {
            let steps = moves_of(self.left, s).fold(0_u32, |steps, (step, _)| steps | 1 << step);
            if made != Some(steps) {
                made = Some(steps);
                self.row.copy_from_slice(full);
                moves_of(self.left, s).for_each(|(step, _)| and(&mut self.row, &masks[step]));
            }
            self.rows.row_mut(s).copy_from_slice(&self.row);
            self.changed_at[s] = u32::from(self.row != full);
        }
    }

    /// Goes through the rows in their order, back a little where that serves; says whether one changed.
    pub fn pass(&mut self) -> bool {
        let (mut place, mut changed) = (0, false);
        while place < self.order.states.len() {
            let s = self.order.states[place];
            if self.look(s) {
                changed = true;
                place = self.order.after_change(place, s);
            } else {
                place += 1;
            }
        }
        changed
    }

    /// Cuts a row by the steps whose targets changed since it was last looked at; says whether it changed.
    fn look(&mut self, s: usize) -> bool {
        let looked_at = self.looked_at[s];
        let mut due = moves_of(self.left, s).filter(|(_, u)| self.changed_at[*u] > looked_at).peekable();
        if due.peek().is_none() {
            return false;
        }
        self.looked_at[s] = self.now;
        let row = self.rows.row(s);
        if is_empty(row) {
            return false;
        }
        self.row.copy_from_slice(row);
        for (step, u) in due {
            step_cut(&self.steps[step], &mut self.row, self.rows.row(u));
        }
        if self.row == row {
            return false;
        }
        self.rows.row_mut(s).copy_from_slice(&self.row);
        self.now += 1;
        self.changed_at[s] = self.now;
        true
    }
}

/// For each step the right states that make it; a move leads to a state whose invariant holds.
fn masks(right: &System, words: usize) -> Vec<Vec<u64>> {
    let mask = |step: usize| row_of(words, (0..right.states).filter(|t| right.row(*t)[step] != NONE));
    (0..right.steps).map(mask).collect()
}
