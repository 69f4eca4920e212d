//! Clocks that start late (SPECIFICATION 5.4, 6.3): models and whole texts whose edges set clocks to more than 0.

use crate::milliseconds::{numerals, replaced, value};
use crate::model::{Assignment, Comparison, Edge, Model};
use crate::random::Random;

/// Of a hundred assignments, how many stay at 0.
const AT_ZERO: usize = 35;

/// Of a hundred assignments of an input's edge, and of an output's, how many are to a value that the target's invariant
/// forbids; the text of such an input is mostly refused.
const FORBIDDEN_INPUT: usize = 1;
const FORBIDDEN_OUTPUT: usize = 8;

/// Of a hundred edges with assignments, how many have one more that is overridden.
const OVERRIDDEN: usize = 15;

/// Of a hundred assignments of an only clock, how many are to a value far above the other constants, and up to which.
const FAR: usize = 1;
const FAR_VALUE: usize = 30;

impl Model {
    /// Gives the assignments, which are to 0, other values: most that the target's invariant allows, some that it
    /// forbids. Some edges assign a clock twice.
    pub(crate) fn start_late(&mut self, random: &mut Random) {
        let top = self.top();
        let only_clock = self.clocks.len() == 1;
        for edge in &mut self.edges {
            let invariant = self.locations.iter().find(|(name, _)| *name == edge.target).map_or(&[][..], |(_, i)| i);
            for assignment in &mut edge.assignments {
                let most = largest_allowed(invariant, &assignment.clock);
                let forbidden = random.chance(if edge.input { FORBIDDEN_INPUT } else { FORBIDDEN_OUTPUT });
                assignment.value = match most {
                    _ if random.chance(AT_ZERO) => 0,
                    Some(most) if forbidden => most + random.between(1, 2),
                    Some(most) => random.between(0, most),
                    None if only_clock && random.chance(FAR) => random.between(0, FAR_VALUE),
                    None => random.between(0, top + 1),
                };
            }
            if random.chance(OVERRIDDEN) {
                edge.override_one(random, top + 1);
            }
        }
    }

    /// An assignment to a value one more or less.
    pub(crate) fn vary_value(&mut self, random: &mut Random) {
        let mut assignments: Vec<&mut Assignment> =
            self.edges.iter_mut().flat_map(|edge| &mut edge.assignments).collect();
        if assignments.is_empty() {
            return;
        }
        let place = random.below(assignments.len());
        let value = &mut assignments[place].value;
        *value = if random.chance(50) { *value + 1 } else { value.saturating_sub(1) };
    }
}

impl Edge {
    /// Puts one more assignment of a clock that is assigned before the one that is there, to a value of at most `most`.
    /// What the edge does stays as it was.
    pub(crate) fn override_one(&mut self, random: &mut Random, most: usize) {
        if self.assignments.is_empty() {
            return;
        }
        let place = random.below(self.assignments.len());
        let overridden = Assignment { value: random.between(0, most), ..self.assignments[place].clone() };
        self.assignments.insert(random.below(place + 1), overridden);
    }

    /// The value that the edge sets a clock to, if it assigns it.
    pub fn assigned(&self, clock: &str) -> Option<usize> {
        self.assignments.iter().rev().find(|assignment| assignment.clock == clock).map(|assignment| assignment.value)
    }

    /// The assignments without those that are overridden.
    pub(crate) fn last_assignments(&self) -> Vec<Assignment> {
        let counts = |place: &usize| {
            let clock = &self.assignments[*place].clock;
            self.assignments[place + 1..].iter().all(|later| later.clock != *clock)
        };
        (0..self.assignments.len()).filter(counts).map(|place| self.assignments[place].clone()).collect()
    }
}

/// The largest value that an invariant allows a clock; `None` where it allows each.
fn largest_allowed(invariant: &[Comparison], clock: &str) -> Option<usize> {
    let of_clock = invariant.iter().filter(|comparison| comparison.clock == clock);
    of_clock.map(|comparison| if comparison.sign == "<" { comparison.bound - 1 } else { comparison.bound }).min()
}

/// A text of this crate with each clock that is set to 0 set to so many ticks.
pub fn started_late(text: &[u8], ticks: usize) -> Vec<u8> {
    let assigned = numerals(text).into_iter().filter(|numeral| numeral.is_assigned);
    let at_zero = assigned.filter(|numeral| value(&text[numeral.place.clone()]) == Some(0));
    let written: Vec<_> = at_zero.map(|numeral| (numeral.place, ticks.to_string())).collect();
    replaced(text, &written)
}
