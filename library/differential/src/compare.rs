//! One call made twice, by the library and by another (plain Rust or an older build), and everything it returns or
//! writes compared.

use crate::cases::{self, Given};
use boundary::{Build, Operations, Returned};
use plain::codes::{OUT_TOO_SHORT, RUN_TOO_SHORT};
use std::fmt::Debug;
use texts::Random;

/// What a call returns that is no refusal.
pub const SUCCESS: usize = 0;

/// What is given beside the texts.
const TABLE: &str = "table";

/// Entries after a lent slice; no call may touch them.
const BEYOND: usize = 16;

/// A call that was made: what it returned, and every difference found.
pub struct Made {
    pub returned: Returned,
    /// What the other returned.
    pub other: Returned,
    pub differences: Vec<String>,
    /// What was given, for a report.
    pub tick_length: usize,
    pub given: Vec<(&'static str, Vec<u8>)>,
    pub lengths: String,
}

/// What the library and the other returned.
struct Both {
    library: Returned,
    other: Returned,
}

impl Made {
    fn new(both: Both, tick_length: usize, given: Vec<(&'static str, Vec<u8>)>, lengths: String) -> Made {
        let mut made =
            Made { returned: both.library, other: both.other, differences: Vec::new(), tick_length, given, lengths };
        made.compare("returned", &both.library, &both.other);
        made
    }

    /// The texts that were given, in the order of their file marks.
    pub fn texts(&self) -> impl Iterator<Item = &[u8]> {
        self.given.iter().filter(|(what, _)| *what != TABLE).map(|(_, bytes)| &bytes[..])
    }

    fn compare<T: PartialEq + Debug + ?Sized>(&mut self, what: &str, library: &T, other: &T) {
        if library != other {
            self.differences.push(format!("{what}:\n  library {library:?}\n  other   {other:?}"));
        }
    }

    fn compare_lent<T: PartialEq + Debug>(&mut self, what: &str, library: &Lent<T>, other: &Lent<T>) {
        self.compare(what, &library.entries[..library.length], &other.entries[..other.length]);
        self.compare_beyond(what, library, other);
    }

    fn compare_beyond<T: PartialEq + Debug>(&mut self, what: &str, library: &Lent<T>, other: &Lent<T>) {
        let what = format!("past the end of {what}");
        self.compare(&what, &library.entries[library.length..], &other.entries[other.length..]);
    }
}

/// A slice to lend, filled with a random pattern, and some entries after it.
#[derive(Clone)]
struct Lent<T> {
    entries: Vec<T>,
    length: usize,
}

impl<T> Lent<T> {
    fn new(random: &mut Random, length: usize, entry: impl Fn(u64) -> T) -> Lent<T> {
        let entries = (0..length + BEYOND).map(|_| entry(random.next())).collect();
        Lent { entries, length }
    }

    fn slice(&mut self) -> &mut [T] {
        &mut self.entries[..self.length]
    }
}

fn lent_bytes(random: &mut Random, length: usize) -> Lent<u8> {
    Lent::new(random, length, |number| number as u8)
}

fn lent_words(random: &mut Random, length: usize) -> Lent<u32> {
    Lent::new(random, length, |number| number as u32)
}

/// The record of an older build may be laid out otherwise: its numbers are compared as they stand now.
pub fn read(random: &mut Random, other: &dyn Operations, tick_length: usize, text: Vec<u8>) -> Made {
    let length = match random.below(4) {
        0 => random.below(plain::RECORD_ENTRIES),
        1 => plain::RECORD_ENTRIES + random.below(9),
        _ => plain::RECORD_ENTRIES,
    };
    let mut library = Lent::new(random, length, |number| number as usize);
    let before = library.clone();
    let mut of_other = vec![0; other.layout().entries()];
    let both = Both {
        library: Build::LINKED.read(tick_length, &text, library.slice()),
        other: other.read(tick_length, &text, &mut of_other),
    };
    let own = plain::read(tick_length, &text).map(|record| own_entries(&record));
    let mut made = Made::new(both, tick_length, vec![("text", text)], format!("record {length}"));
    made.compare_beyond("record", &library, &before);
    match own {
        Err(_) => made.compare_lent("record", &library, &before),
        Ok(own) => compare_record(&mut made, &own, &other.layout().moved(&of_other), (&library, &before)),
    }
    made
}

/// For each entry of a record whether it is of one of the text's own items: plain Rust writes those alone.
fn own_entries(record: &plain::Record) -> Vec<bool> {
    let [mut some, mut other] = [0, usize::MAX].map(|held| vec![held; plain::RECORD_ENTRIES]);
    record.write(&mut some);
    record.write(&mut other);
    some.iter().zip(&other).map(|(one, other)| one == other).collect()
}

/// Compares the entries of the text's own items, and those past the record's last one, which stay as they came.
fn compare_record(made: &mut Made, own: &[bool], other: &[usize], (library, before): (&Lent<usize>, &Lent<usize>)) {
    let entries = library.entries[..library.length].iter().zip(&before.entries);
    for (i, (entry, before)) in entries.enumerate() {
        let wanted = match own.get(i) {
            Some(true) => &other[i],
            Some(false) => continue,
            None => before,
        };
        made.compare(&format!("entry {i} of record"), entry, wanted);
    }
}

pub fn safe_states(random: &mut Random, other: &dyn Operations, tick_length: usize, text: Vec<u8>) -> Made {
    let states = plain::read(tick_length, &text).map_or(40, |record| record.states);
    let length = cases::length(random, states.div_ceil(8));
    let mut of_library = lent_bytes(random, length);
    let mut of_other = of_library.clone();
    let both = Both {
        library: Build::LINKED.safe_states(tick_length, &text, of_library.slice()),
        other: other.safe_states(tick_length, &text, of_other.slice()),
    };
    let mut made = Made::new(both, tick_length, vec![("text", text)], format!("keep {length}"));
    made.compare_lent("keep", &of_library, &of_other);
    made
}

/// `None` where one of the two does not have the operation.
pub fn implementation(other: &dyn Operations, tick_length: usize, text: Vec<u8>) -> Option<Made> {
    let both = Both {
        library: Build::LINKED.implementation(tick_length, &text)?,
        other: other.implementation(tick_length, &text)?,
    };
    Some(Made::new(both, tick_length, vec![("text", text)], "no slices".to_string()))
}

/// The slices a search borrows.
#[derive(Clone)]
struct Borrowed {
    keep: Lent<u8>,
    back: Lent<u32>,
    line: Lent<u32>,
    run: Lent<u32>,
}

pub fn search(random: &mut Random, other: &dyn Operations, given: Given) -> Made {
    let mut of_library = borrowed(random, &given);
    let Given { tick_length, left, right } = given;
    let before = of_library.clone();
    let mut of_other = of_library.clone();
    let call = |operations: &dyn Operations, lent: &mut Borrowed| {
        let Borrowed { keep, back, line, run } = lent;
        operations.search(tick_length, &left, &right, keep.slice(), back.slice(), line.slice(), run.slice())
    };
    let both = Both { library: call(&Build::LINKED, &mut of_library), other: call(other, &mut of_other) };
    let lengths = [before.keep.length, before.back.length, before.line.length, before.run.length];
    let lengths = format!("keep, back, line, run {lengths:?}");
    let mut made = Made::new(both, tick_length, vec![("left", left), ("right", right)], lengths);
    made.compare_lent("keep", &of_library.keep, &of_other.keep);
    made.compare_lent("run", &of_library.run, &of_other.run);
    // What back and line hold is free on success and after 21 (SPECIFICATION 13.5), elsewhere they are as they came.
    let free = matches!(made.returned.code, SUCCESS | RUN_TOO_SHORT);
    for (what, now, then) in [("back", &of_library.back, &before.back), ("line", &of_library.line, &before.line)] {
        match free {
            true => made.compare_beyond(what, now, then),
            false => made.compare_lent(what, now, then),
        }
    }
    made
}

fn borrowed(random: &mut Random, given: &Given) -> Borrowed {
    let Given { tick_length, left, right } = given;
    let sizes = cases::sizes(given);
    let (rows, width) = sizes.unwrap_or((10, 10));
    let keep = cases::length(random, rows.div_ceil(8));
    let (back, line) = match cases::too_large(sizes) {
        true => (random.below(100), random.below(100)),
        false if random.chance(10) => (rows * width, cases::short(random, rows * width)),
        false if random.chance(10) => (cases::short(random, rows * width), rows * width),
        false => (rows * width + random.below(3), rows * width + random.below(3)),
    };
    let mut run = random.below(4);
    if !cases::too_large(sizes) {
        let (mut back, mut line) = (vec![0; rows * width], vec![0; rows * width]);
        let answer = plain::search(*tick_length, left, right, &mut [0; 512], &mut back, &mut line, &mut []);
        let steps = match answer {
            Err(plain::Refusal { code: RUN_TOO_SHORT, p, .. }) => p,
            answer => answer.unwrap_or(0),
        };
        run = cases::length(random, steps);
    }
    Borrowed {
        keep: lent_bytes(random, keep),
        back: lent_words(random, back),
        line: lent_words(random, line),
        run: lent_words(random, run),
    }
}

pub fn check(random: &mut Random, other: &dyn Operations, given: Given) -> Made {
    let sizes = cases::sizes(&given);
    let table = cases::table(random, &given, sizes);
    let Given { tick_length, left, right } = given;
    let length = cases::length(random, sizes.map_or(4, |(rows, _)| rows.div_ceil(8)));
    let mut of_library = lent_bytes(random, length);
    let mut of_other = of_library.clone();
    let both = Both {
        library: Build::LINKED.check(tick_length, &left, &right, of_library.slice(), &table),
        other: other.check(tick_length, &left, &right, of_other.slice(), &table),
    };
    let given = vec![("left", left), ("right", right), (TABLE, table)];
    let mut made = Made::new(both, tick_length, given, format!("keep {length}"));
    made.compare_lent("keep", &of_library, &of_other);
    made
}

pub fn widest(random: &mut Random, other: &dyn Operations, given: Given) -> Made {
    let sizes = cases::sizes(&given);
    let Given { tick_length, left, right } = given;
    let (rows, width) = sizes.unwrap_or((10, 10));
    let need = format!("P4\n{width} {rows}\n").len() + rows * width.div_ceil(8);
    let keep = cases::length(random, rows.div_ceil(8));
    let table = match cases::too_large(sizes) {
        true => cases::short(random, need),
        false => cases::length(random, need),
    };
    let (mut of_library, mut table_of_library) = (lent_bytes(random, keep), lent_bytes(random, table));
    let (mut of_other, mut table_of_other) = (of_library.clone(), table_of_library.clone());
    let both = Both {
        library: Build::LINKED.widest(tick_length, &left, &right, of_library.slice(), table_of_library.slice()),
        other: other.widest(tick_length, &left, &right, of_other.slice(), table_of_other.slice()),
    };
    let given = vec![("left", left), ("right", right)];
    let mut made = Made::new(both, tick_length, given, format!("keep, table {:?}", [keep, table]));
    made.compare_lent("keep", &of_library, &of_other);
    made.compare_lent("table", &table_of_library, &table_of_other);
    made
}

/// `None` where one of the two does not have the operation.
pub fn join(random: &mut Random, other: &dyn Operations, given: Given) -> Option<Made> {
    let Given { tick_length, left, right } = given;
    let need = match plain::join(tick_length, &left, &right, &mut []) {
        Err(plain::Refusal { code: OUT_TOO_SHORT, p, .. }) => p,
        _ => random.below(plain::TEXT_LIMIT + 10),
    };
    let length = cases::length(random, need);
    let mut of_library = lent_bytes(random, length);
    let mut of_other = of_library.clone();
    let both = Both {
        library: Build::LINKED.join(tick_length, &left, &right, of_library.slice())?,
        other: other.join(tick_length, &left, &right, of_other.slice())?,
    };
    let mut made = Made::new(both, tick_length, vec![("left", left), ("right", right)], format!("out {length}"));
    made.compare_lent("out", &of_library, &of_other);
    Some(made)
}
