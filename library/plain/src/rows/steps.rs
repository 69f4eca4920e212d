//! What a step of the right does to a row: runs of states that go one way, and ranges of bits cut by them.

use super::bits::{bit_of, onward, through, word_of, WORD};
use crate::moves::{System, NONE};

/// Where the states of a run go.
#[derive(Clone, Copy)]
enum Way {
    Nowhere,
    /// All to one state.
    One(usize),
    /// The first to this state, the others to those that follow.
    Along(usize),
}

/// Right states in a row, `first` to `last`, that go one way.
struct Run {
    first: usize,
    last: usize,
    way: Way,
}

/// The runs of a step.
fn runs(right: &System, step: usize) -> Vec<Run> {
    let mut runs: Vec<Run> = Vec::new();
    for t in 0..right.states {
        let reached = Some(right.row(t)[step]).filter(|reached| *reached != NONE).map(usize::from);
        let joins = |run: &mut Run| if right.valid[t] { run.takes(t, reached) } else { run.takes_any(t, right.states) };
        match runs.last_mut().is_some_and(joins) {
            true => runs.last_mut().expect("a run").last = t,
            false => runs.push(Run { first: t, last: t, way: reached.map_or(Way::Nowhere, Way::Along) }),
        }
    }
    runs
}

impl Run {
    /// Whether the state after a run's last goes its way. A run of one state may become either kind.
    fn takes(&mut self, t: usize, reached: Option<usize>) -> bool {
        match (self.way, reached) {
            (Way::Nowhere, None) => true,
            (Way::One(target), Some(reached)) => target == reached,
            (Way::Along(target), Some(reached)) if reached == target + (t - self.first) => true,
            (Way::Along(target), Some(reached)) if self.first == self.last && reached == target => {
                self.way = Way::One(target);
                true
            }
            _ => false,
        }
    }

    /// Whether a run may go over a state whose invariant does not hold: its bit is set in no row, so any way
    /// will do that leads to a state.
    fn takes_any(&self, t: usize, states: usize) -> bool {
        !matches!(self.way, Way::Along(target) if target + (t - self.first) >= states)
    }
}

/// 64 bits of a row from any bit on: those of a word from `shift` on, and the first of the next.
#[derive(Clone, Copy, PartialEq)]
struct Place {
    word: usize,
    shift: u32,
}

impl Place {
    /// The place whose bits fall on the word of state `t`, where `t` is to get the bit of `reached`.
    fn onto(t: usize, reached: usize) -> Place {
        let bit = WORD + reached - t % WORD;
        Place { word: bit / WORD, shift: (bit % WORD) as u32 }
    }

    fn bits(self, row: &[u64]) -> u64 {
        joined(row[self.word], row[self.word + 1], self.shift)
    }
}

/// 64 bits of two words in a row from bit `shift` on, which is under 64.
fn joined(word: u64, next: u64, shift: u32) -> u64 {
    word << shift | next >> 1 >> (63 - shift)
}

/// Where the pairs of a piece have to be set.
#[derive(Clone, Copy, PartialEq)]
enum Source {
    /// All in one bit of a word.
    Bit { word: usize, bit: u64 },
    /// Each in its own bit.
    Along(Place),
}

/// Parts of short runs within one word that have one source.
struct Piece {
    mask: u64,
    source: Source,
}

impl Piece {
    /// What of the piece stays.
    fn kept(&self, row: &[u64]) -> u64 {
        match self.source {
            Source::Bit { word, bit } if row[word] & bit == 0 => 0,
            Source::Bit { .. } => self.mask,
            Source::Along(place) => place.bits(row) & self.mask,
        }
    }
}

/// What a step does to a row: long runs, of more than 64 states, one by one, short runs gathered by the word
/// they lie in.
enum Cut {
    Long(Run),
    /// The bits `others` of the word belong to long runs; of the rest stays what a piece keeps.
    Short {
        word: usize,
        others: u64,
        pieces: Vec<Piece>,
    },
}

/// All that one step does to a row.
pub struct Step {
    cuts: Vec<Cut>,
}

pub fn all_steps(right: &System) -> Vec<Step> {
    (0..right.steps).map(|step| Step::of(runs(right, step))).collect()
}

impl Step {
    fn of(runs: Vec<Run>) -> Step {
        let mut step = Step { cuts: Vec::new() };
        for run in runs {
            if run.last - run.first >= WORD {
                step.cuts.push(Cut::Long(run));
            } else {
                step.add_short(&run);
            }
        }
        step
    }

    /// Adds a short run, of 64 states at most: it lies in one word or in two.
    fn add_short(&mut self, run: &Run) {
        let (first, last) = (word_of(run.first), word_of(run.last));
        if first == last {
            self.add_piece(run.first, onward(run.first) & through(run.last), run);
        } else {
            self.add_piece(run.first, onward(run.first), run);
            self.add_piece(run.last / WORD * WORD, through(run.last), run);
        }
    }

    /// Adds the part of a run from state `t` on that the mask has in its word.
    fn add_piece(&mut self, t: usize, mask: u64, run: &Run) {
        let source = match run.way {
            Way::Nowhere => None,
            Way::One(target) => Some(Source::Bit { word: word_of(target), bit: bit_of(target) }),
            Way::Along(target) => Some(Source::Along(Place::onto(t, target + (t - run.first)))),
        };
        let (others, pieces) = self.short_cut(word_of(t));
        *others &= !mask;
        match pieces.iter_mut().find(|piece| Some(piece.source) == source) {
            Some(piece) => piece.mask |= mask,
            None => pieces.extend(source.map(|source| Piece { mask, source })),
        }
    }

    /// What is gathered of a word, which is the last cut's or a new one.
    fn short_cut(&mut self, of: usize) -> (&mut u64, &mut Vec<Piece>) {
        if !matches!(self.cuts.last(), Some(Cut::Short { word, .. }) if *word == of) {
            self.cuts.push(Cut::Short { word: of, others: u64::MAX, pieces: Vec::new() });
        }
        match self.cuts.last_mut() {
            Some(Cut::Short { others, pieces, .. }) => (others, pieces),
            _ => unreachable!("the last cut is of short runs"),
        }
    }
}

/// Takes off the pairs of a row whose right state does not go by a step to one set in the source.
pub fn step_cut(step: &Step, row: &mut [u64], source: &[u64]) {
    for cut in &step.cuts {
        match cut {
            Cut::Long(run) => long_cut(run, row, source),
            Cut::Short { word, others, pieces } => {
                let bits = row[*word];
                if bits & !others != 0 {
                    let touched = pieces.iter().filter(|piece| bits & piece.mask != 0);
                    row[*word] = bits & touched.fold(*others, |kept, piece| kept | piece.kept(source));
                }
            }
        }
    }
}

fn long_cut(run: &Run, row: &mut [u64], source: &[u64]) {
    match run.way {
        Way::One(target) if source[word_of(target)] & bit_of(target) != 0 => (),
        Way::One(_) | Way::Nowhere => clear_range(row, run.first, run.last),
        Way::Along(target) => and_range(row, source, run, target),
    }
}

fn clear_range(row: &mut [u64], first: usize, last: usize) {
    let (low, high) = (word_of(first), word_of(last));
    row[low] &= !onward(first);
    row[low + 1..high].fill(0);
    row[high] &= !through(last);
}

/// Cuts a long run, which lies in more than one word, by the range of the source from `target` on.
fn and_range(row: &mut [u64], source: &[u64], run: &Run, target: usize) {
    let (low, high) = (word_of(run.first), word_of(run.last));
    let Place { word, shift } = Place::onto(run.first, target);
    let between = high - low - 1;
    row[low] &= joined(source[word], source[word + 1], shift) | !onward(run.first);
    let words = &source[word + 1..][..between + 2];
    for ((bits, word), next) in row[low + 1..high].iter_mut().zip(words).zip(&words[1..]) {
        *bits &= joined(*word, *next, shift);
    }
    row[high] &= joined(words[between], words[between + 1], shift) | !through(run.last);
}
