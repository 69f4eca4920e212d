//! Parallel edges (SPECIFICATION 7.2): models with edges doubled, exactly or with a difference, and whole texts with
//! each edge twice.

use crate::model::{Assignment, Comparison, Edge, Model, SIGNS};
use crate::random::Random;

/// Limits of SPECIFICATION 4.3.
const COMPARISON_LIMIT: usize = 4;
const EDGE_LIMIT: usize = 128;
const TEXT_LIMIT: usize = 32_768;

/// Of a hundred doubles, how many lead to the state of the first edge wherever both give moves.
const ALIKE: usize = 90;

/// Of a hundred edges that are doubled, how many get a third edge.
const THREE: usize = 30;

impl Model {
    /// Doubles one to three edges, or makes three of them; most doubles are parallel to the first edge, wherever they
    /// stand among the others.
    pub(crate) fn double_some(&mut self, random: &mut Random) {
        for _ in 0..random.between(1, 3) {
            let is_alike = random.chance(ALIKE);
            self.double_one(random, is_alike);
        }
    }

    /// The same model with one to three edges doubled, or three of them made, all parallel: its moves are as they were.
    pub fn with_parallel_edges(&self, random: &mut Random) -> Model {
        let mut model = self.clone();
        for _ in 0..random.between(1, 3) {
            model.double_one(random, true);
        }
        model
    }

    /// Puts one more edge beside a random one, or two more, at random places.
    pub(crate) fn double_one(&mut self, random: &mut Random, is_alike: bool) {
        if self.edges.is_empty() {
            return;
        }
        let edge = random.pick(&self.edges).clone();
        let more = if random.chance(THREE) { 2 } else { 1 };
        for _ in 0..more {
            let double = match is_alike {
                true => self.parallel(random, &edge),
                false => self.differing(random, &edge),
            };
            let place = random.below(self.edges.len() + 1);
            self.edges.insert(place, double);
        }
    }

    /// An edge that leads to the states of a given one: that one again, with its assignments in another order and one
    /// more that is overridden, with more comparisons, or, where a clock is at the value to which one of the two sets
    /// it, with or without that assignment.
    fn parallel(&self, random: &mut Random, edge: &Edge) -> Edge {
        let mut double = edge.clone();
        match random.below(10) {
            0..=3 => (),
            4..=5 => {
                double.assignments = edge.last_assignments();
                random.shuffle(&mut double.assignments);
                double.override_one(random, self.top());
            }
            6..=7 => double.guard.extend(self.comparisons(random, 2, &SIGNS)),
            _ if self.clocks.is_empty() => (),
            _ => {
                let clock = random.pick(&self.clocks).clone();
                let value = edge.assigned(&clock).unwrap_or_else(|| self.low_value(random));
                double.toggle(&clock, value);
                double.guard.push(at(random, clock, value));
            }
        }
        // A guard over the limit is narrowed no further; without its end it would be wider than that of the first edge.
        match double.guard.len() > COMPARISON_LIMIT {
            true => edge.clone(),
            false => double,
        }
    }

    /// An edge by the same channel that may lead elsewhere: it has another target, another assignment, or no guard.
    fn differing(&self, random: &mut Random, edge: &Edge) -> Edge {
        let mut double = edge.clone();
        match random.below(6) {
            0..=1 => double.target = random.pick(&self.locations).0.clone(),
            2..=3 if !self.clocks.is_empty() => {
                let (clock, value) = (random.pick(&self.clocks), self.low_value(random));
                double.toggle(clock, value);
            }
            4 if !double.assignments.is_empty() => {
                let last = double.assignments.len() - 1;
                double.assignments[last].value = self.low_value(random);
            }
            _ => double.guard.clear(),
        }
        double
    }

    /// Half of the time 0, else any value up to the largest constant.
    fn low_value(&self, random: &mut Random) -> usize {
        match random.chance(50) {
            true => 0,
            false => random.between(0, self.top()),
        }
    }
}

impl Edge {
    /// Sets a clock that was not assigned to a value, and does not assign one that was.
    fn toggle(&mut self, clock: &String, value: usize) {
        match self.assigned(clock) {
            Some(_) => self.assignments.retain(|assignment| assignment.clock != *clock),
            None => self.assignments.push(Assignment { clock: clock.clone(), value }),
        }
    }
}

/// That a clock is at a value; at 0 by one of three signs.
fn at(random: &mut Random, clock: String, value: usize) -> Comparison {
    let (sign, bound) = match value {
        0 => *random.pick(&[("==", 0), ("<=", 0), ("<", 1)]),
        value => ("==", value),
    };
    Comparison { clock, sign, bound }
}

/// A text of this crate with each edge twice, one behind the other, so that each move has two edges. `None` where it
/// has no edges, or the doubled text would pass the limit of edges or of bytes.
pub fn each_edge_twice(text: &[u8]) -> Option<Vec<u8>> {
    /// Behind the last edge: the rest of the process, and what follows it.
    const BEHIND: usize = 2;
    let (front, edges) = std::str::from_utf8(text).ok()?.split_once("trans")?;
    // Of what follows `trans`, only an edge and the process end in this brace.
    let parts: Vec<&str> = edges.split('}').collect();
    let (edges, behind) = parts.split_at(parts.len().checked_sub(BEHIND)?);
    let twice = |part: &&str| {
        let edge = part.trim_start_matches(|byte: char| byte == ',' || byte.is_ascii_whitespace());
        format!("{edge}}},\n{edge}}}")
    };
    let doubled: Vec<String> = edges.iter().map(twice).collect();
    let text = format!("{front}trans\n{}{}", doubled.join(",\n"), behind.join("}"));
    let text = text.trim_ascii_end().as_bytes().to_vec();
    (2 * edges.len() <= EDGE_LIMIT && text.len() <= TEXT_LIMIT).then_some(text)
}
