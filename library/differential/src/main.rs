//! Random calls of the verified library over its C boundary, each compared with plain Rust:
//! the code, the three numbers and every lent slice whole.
//!
//! MEGZHOI_CALLS is the number of calls (200,000), MEGZHOI_SEED the first seed (1). Call i of a run
//! uses the seed plus i alone, so a failing call is repeated by its own seed and MEGZHOI_CALLS=1.
//!
//! With the word `before` the library is compared with an older build of it instead, a shared object that
//! MEGZHOI_BEFORE names, on pairs of texts by kind and random ones; MEGZHOI_PAIRS is their number (4,000).
//! MEGZHOI_STRICT=0 passes over pairs with a strict sign, for an older build that does not read it. Whether the older
//! build takes a tick length, and how it lays out a record, is seen from what it answers; where it takes none, both are
//! called with 1. Where it refuses a late clock with 2, or parallel edges with 11, the library is compared with plain
//! Rust (before.rs).

#![forbid(unsafe_code)]

mod before;
mod cases;
mod compare;
mod counts;

use boundary::{ByPairs, Operations};
use cases::Given;
use compare::Made;
use counts::Counts;
use std::panic::{catch_unwind, AssertUnwindSafe};
use std::process::ExitCode;
use texts::Random;

struct Operation {
    name: &'static str,
    call: fn(&mut Random) -> Made,
    /// Codes that can occur.
    codes: &'static [usize],
    two_texts: bool,
}

/// The places of the operations in `OPERATIONS`.
const READ: usize = 0;
const SAFE_STATES: usize = 1;
const SEARCH: usize = 2;
const CHECK: usize = 3;
const WIDEST: usize = 4;
const IMPLEMENTATION: usize = 5;
const JOIN: usize = 6;

const OPERATIONS: [Operation; 7] = [
    Operation {
        name: "read",
        call: |random| on_a_text(compare::read, random),
        codes: &[0, 1, 2, 3, 4, 5, 6, 7, 8, 9, 10, 11, 24],
        two_texts: false,
    },
    Operation {
        name: "safe states",
        call: |random| on_a_text(compare::safe_states, random),
        codes: &[0, 1, 2, 3, 4, 5, 6, 7, 8, 9, 10, 11, 13, 24],
        two_texts: false,
    },
    Operation {
        name: "search",
        call: |random| on_two_texts(compare::search, random),
        codes: &[0, 1, 2, 3, 4, 5, 6, 7, 8, 9, 10, 11, 12, 13, 15, 17, 21, 24],
        two_texts: true,
    },
    Operation {
        name: "check",
        call: |random| on_two_texts(compare::check, random),
        codes: &[0, 1, 2, 3, 4, 5, 6, 7, 8, 9, 10, 11, 12, 13, 16, 17, 18, 19, 20, 24],
        two_texts: true,
    },
    Operation {
        name: "widest",
        call: |random| on_two_texts(compare::widest, random),
        codes: &[0, 1, 2, 3, 4, 5, 6, 7, 8, 9, 10, 11, 12, 13, 14, 17, 24],
        two_texts: true,
    },
    Operation {
        name: "implementation",
        call: on_text_to_judge,
        codes: &[0, 1, 2, 3, 4, 5, 6, 7, 8, 9, 10, 11, 22, 23, 24],
        two_texts: false,
    },
    Operation {
        name: "join",
        call: on_texts_to_join,
        codes: &[0, 1, 2, 3, 4, 5, 6, 7, 8, 9, 10, 11, 12, 24, 25, 26],
        two_texts: true,
    },
];

/// A call on one text, compared with another's.
type OnAText = fn(&mut Random, &dyn Operations, usize, Vec<u8>) -> Made;

fn on_a_text(call: OnAText, random: &mut Random) -> Made {
    let tick_length = cases::tick_length(random);
    let text = cases::text(random, tick_length);
    call(random, &ByPairs, tick_length, text)
}

/// A call on two texts, compared with another's.
type OnTwoTexts = fn(&mut Random, &dyn Operations, Given) -> Made;

fn on_two_texts(call: OnTwoTexts, random: &mut Random) -> Made {
    let tick_length = cases::tick_length(random);
    let (left, right) = cases::two_texts(random, tick_length);
    call(random, &ByPairs, Given { tick_length, left, right })
}

fn on_text_to_judge(random: &mut Random) -> Made {
    let tick_length = cases::tick_length(random);
    let text = cases::text_to_judge(random, tick_length);
    compare::implementation(&ByPairs, tick_length, text).expect("both have it")
}

fn on_texts_to_join(random: &mut Random) -> Made {
    let given = texts_to_join(random, cases::tick_length);
    compare::join(random, &ByPairs, given).expect("both have it")
}

fn texts_to_join(random: &mut Random, tick_length: impl Fn(&mut Random) -> usize) -> Given {
    let tick_length = tick_length(random);
    let (left, right) = cases::two_to_join(random, tick_length);
    Given { tick_length, left, right }
}

/// Under this many calls a code may be missing by chance.
const ENOUGH: u64 = 50_000;

fn number(name: &str, default: u64) -> u64 {
    std::env::var(name).map_or(default, |value| value.parse().expect("a number"))
}

fn main() -> ExitCode {
    match std::env::args().nth(1).as_deref() {
        Some("before") => boundary::on_large_stack(before::run),
        _ => boundary::on_large_stack(run),
    }
}

fn random_of(seed: u64) -> Random {
    Random::new(seed.wrapping_mul(0x2545_f491_4f6c_dd1d))
}

/// Random calls, compared with plain Rust.
fn run() -> ExitCode {
    let (calls, first) = (number("MEGZHOI_CALLS", 200_000), number("MEGZHOI_SEED", 1));
    let mut counts = Counts::default();
    for seed in (0..calls).map(|i| first.wrapping_add(i)) {
        let random = &mut random_of(seed);
        let operation = random.below(OPERATIONS.len());
        if !agrees(&mut counts, operation, || (OPERATIONS[operation].call)(random)) {
            println!("repeat with MEGZHOI_SEED={seed} MEGZHOI_CALLS=1");
            return ExitCode::FAILURE;
        }
    }
    counts.print();
    let missing = counts.missing();
    if calls >= ENOUGH && !missing.is_empty() {
        println!("NEVER SEEN: {}", missing.join("; "));
        return ExitCode::FAILURE;
    }
    println!("{calls} calls from seed {first}: no difference");
    ExitCode::SUCCESS
}

/// Makes a call and counts what it came to; where the two differ, or one panics, reports it and says no.
fn agrees(counts: &mut Counts, operation: usize, call: impl FnOnce() -> Made) -> bool {
    let name = OPERATIONS[operation].name;
    let Ok(made) = catch_unwind(AssertUnwindSafe(call)) else {
        println!("PANIC in {name}");
        return false;
    };
    if !made.differences.is_empty() {
        println!("DIFFERENCE in {name}");
        report(&made);
        return false;
    }
    counts.add(operation, &made);
    true
}

fn report(made: &Made) {
    println!("tick length: {}", made.tick_length);
    println!("lengths: {}", made.lengths);
    for (what, bytes) in &made.given {
        println!("{what} ({} bytes): {}", bytes.len(), bytes.escape_ascii());
    }
    made.differences.iter().take(8).for_each(|difference| println!("{difference}"));
}
