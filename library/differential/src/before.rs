//! The linked library against an older build of it, on pairs of texts.
//!
//! An older build may be from before edges that lead to one state made one move: it refuses with 11 where this one goes
//! on (SPECIFICATION 7.2). Such a refusal is told by the state and the channel that it names. Or it may be from before a
//! clock could start late: it refuses with 2 every numeral in an assignment but 0 (SPECIFICATION 3.2). Such a refusal is
//! told by what stands at the place that it names. What this build then does cannot be held against the older one, and
//! is held against plain Rust. Every other difference is a failure.

use crate::cases::{self, Given};
use crate::compare::{self, Made};
use crate::counts::Counts;
use crate::{agrees, number, random_of, OnAText, OnTwoTexts};
use crate::{CHECK, IMPLEMENTATION, JOIN, READ, SAFE_STATES, SEARCH, WIDEST};
use boundary::{Build, ByPairs, Layout, Operations, ONLY_TICK};
use plain::codes::{MISFIT, TWO_EDGES};
use std::process::ExitCode;
use texts::Random;

/// The calls made on each pair of texts to hold two builds against each other, by their place in `OPERATIONS`:
/// one table is made, and several tables, whole and damaged ones, are checked.
const ON_A_PAIR: [(usize, OnTwoTexts); 8] = [
    (WIDEST, compare::widest),
    (SEARCH, compare::search),
    (CHECK, compare::check),
    (CHECK, compare::check),
    (CHECK, compare::check),
    (CHECK, compare::check),
    (CHECK, compare::check),
    (CHECK, compare::check),
];

/// The calls made on each text of a pair and on a third one.
const ON_ONE: [(usize, OnAText); 2] = [(READ, compare::read), (SAFE_STATES, compare::safe_states)];

/// Why a call cannot be held against the older build: it refuses what was no part of the rules then.
#[derive(Clone, Copy, PartialEq, Eq)]
enum Refused {
    LateClock,
    ParallelEdges,
}

/// The older build and what came of the calls.
struct Comparison {
    before: Build,
    counts: Counts,
    /// Calls that were held against the older build, and those that were held against plain Rust in its place, by the
    /// reason.
    compared: u64,
    late: u64,
    parallel: u64,
}

/// The linked library and an older build on pairs by kind and, every fourth, on random ones.
pub fn run() -> ExitCode {
    let Some(before) = Build::before() else {
        println!("MEGZHOI_BEFORE names no older build");
        return ExitCode::FAILURE;
    };
    let (pairs, first) = (number("MEGZHOI_PAIRS", 4_000), number("MEGZHOI_SEED", 1));
    let strict = number("MEGZHOI_STRICT", 1) != 0;
    let mut comparison = Comparison { before, counts: Counts::default(), compared: 0, late: 0, parallel: 0 };
    let mut passed_over = 0;
    for seed in (0..pairs).map(|i| first.wrapping_add(i)) {
        let random = &mut random_of(seed);
        let given = pair_for(&before, random);
        if !strict && (has_strict_sign(&given.left) || has_strict_sign(&given.right)) {
            passed_over += 1;
            continue;
        }
        if !comparison.agrees_on_a_pair(random, &given) {
            println!("repeat with MEGZHOI_SEED={seed} MEGZHOI_PAIRS=1");
            return ExitCode::FAILURE;
        }
    }
    comparison.print();
    let pairs = pairs - passed_over;
    println!("{pairs} pairs of texts from seed {first}: no difference from the older build");
    ExitCode::SUCCESS
}

/// Whether the bytes have a strict sign: a `<` or `>` that is no part of `<=`, `>=` or `->`.
fn has_strict_sign(text: &[u8]) -> bool {
    let is_sign = |i: usize| match text[i] {
        b'<' => text.get(i + 1) != Some(&b'='),
        b'>' => text.get(i + 1) != Some(&b'=') && (i == 0 || text[i - 1] != b'-'),
        _ => false,
    };
    (0..text.len()).any(is_sign)
}

/// A tick length that the older build can be called with.
fn tick_length_for(before: &Build, random: &mut Random) -> usize {
    match before.takes_tick_length() {
        true => cases::tick_length(random),
        false => ONLY_TICK,
    }
}

/// Two texts of a kind or, every fourth time, random ones.
fn pair_for(before: &Build, random: &mut Random) -> Given {
    let tick_length = tick_length_for(before, random);
    let make = if random.chance(75) { cases::two_of_a_kind } else { cases::two_texts };
    let (left, right) = make(random, tick_length);
    Given { tick_length, left, right }
}

/// An older build may lack the implementation check; what it says of an empty text does not matter here.
fn has_implementation(before: &Build) -> bool {
    before.implementation(ONLY_TICK, &[]).is_some()
}

/// An older build may be without the joining; what it says of empty texts does not matter here.
fn has_join(before: &Build) -> bool {
    before.join(ONLY_TICK, &[], &[], &mut []).is_some()
}

/// What the other, an older build, refused a text for, if it is one of the two:
/// - with 2, at a numeral of an assignment whose value is not 0;
/// - with 11, in a state of the marked text in which several edges give moves by the channel and all of them lead to one
///   state.
fn refused_for(made: &Made) -> Option<Refused> {
    let refusal = made.other;
    let text = refusal.file.checked_sub(1).and_then(|place| made.texts().nth(place))?;
    match refusal.code {
        MISFIT if is_late(text, refusal.p) => Some(Refused::LateClock),
        TWO_EDGES if plain::are_parallel_at(made.tick_length, text, refusal.p, refusal.q) => {
            Some(Refused::ParallelEdges)
        }
        _ => None,
    }
}

/// Whether at a place, up to which all tokens fit, there stands the numeral of an assignment that is not 0. Before it is
/// `=`, which is a token of assignments alone; `<=`, `>=` and `==` are others.
fn is_late(text: &[u8], place: usize) -> bool {
    let (before, numeral) = text.split_at(place.min(text.len()));
    let is_assigned = match before.trim_ascii_end() {
        [.., b'<' | b'>' | b'=', b'='] => false,
        before => before.ends_with(b"="),
    };
    let mut digits = numeral.iter().take_while(|byte| byte.is_ascii_digit());
    is_assigned && digits.any(|digit| *digit != b'0')
}

impl Comparison {
    /// Makes a call and holds it against the older build or, where that one refuses a late clock or parallel edges,
    /// against plain Rust.
    fn agrees(&mut self, operation: usize, mut call: impl FnMut(&dyn Operations) -> Made) -> bool {
        let mut refused = None;
        let agreed = agrees(&mut self.counts, operation, || {
            let made = call(&self.before);
            refused = refused_for(&made);
            match refused {
                None => made,
                Some(_) => call(&ByPairs),
            }
        });
        let count = match refused {
            None => &mut self.compared,
            Some(Refused::LateClock) => &mut self.late,
            Some(Refused::ParallelEdges) => &mut self.parallel,
        };
        *count += 1;
        agreed
    }

    /// The calls on two texts, reading and the safe states of both and of a third one, and, where the older build has
    /// them, the implementation check of the three, and the joining of the two and of two others.
    fn agrees_on_a_pair(&mut self, random: &mut Random, given: &Given) -> bool {
        for (operation, call) in ON_A_PAIR {
            if !self.agrees(operation, |other| call(random, other, given.clone())) {
                return false;
            }
        }
        let third = cases::text_to_judge(random, given.tick_length);
        let before = self.before;
        for text in [&given.left, &given.right, &third] {
            for (operation, call) in ON_ONE {
                if !self.agrees(operation, |other| call(random, other, given.tick_length, text.clone())) {
                    return false;
                }
            }
        }
        for text in [&given.left, &given.right, &third].into_iter().filter(|_| has_implementation(&before)) {
            let judge = |other: &dyn Operations| compare::implementation(other, given.tick_length, text.clone());
            if !self.agrees(IMPLEMENTATION, |other| judge(other).expect("both have it")) {
                return false;
            }
        }
        let others = crate::texts_to_join(random, |random| tick_length_for(&before, random));
        let mut to_join = [given.clone(), others].into_iter().filter(|_| has_join(&before));
        to_join
            .all(|given| self.agrees(JOIN, |other| compare::join(random, other, given.clone()).expect("both have it")))
    }

    fn print(&self) {
        self.counts.print();
        if !has_implementation(&self.before) {
            println!("the older build has no implementation check, and that of this one was not compared");
        }
        if !has_join(&self.before) {
            println!("the older build does not join texts, and what this one joins was not compared");
        }
        if !self.before.takes_tick_length() {
            println!("the older build takes no tick length, and both were called with {ONLY_TICK}");
        }
        if self.before.layout() != Layout::Now {
            println!(
                "the older build has another layout of the record, and its numbers were compared as they stand now"
            );
        }
        println!("{} calls were held against the older build", self.compared);
        if self.late > 0 {
            println!("{} calls more, which it refuses for a late clock, against plain Rust", self.late);
        }
        if self.parallel > 0 {
            println!("{} calls more, which it refuses for parallel edges, against plain Rust", self.parallel);
        }
    }
}
