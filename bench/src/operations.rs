//! The seven operations as they are timed: what the contenders return and write is compared first.

use crate::contenders::{calls, compare, Calls, Contender};
use boundary::{ByRows, Operations, Returned, ONLY_TICK};
use std::cell::RefCell;
use std::hint::black_box;
use std::rc::Rc;

/// Left and right; an operation on one text takes the left.
pub type Texts = (Vec<u8>, Vec<u8>);

/// Compares the contenders on two texts and makes their calls; gives what all of them returned, too.
pub type Operation = fn(&[Contender], Rc<Texts>) -> (Returned, Calls);

/// The tick length of every call; an older build may take no other (`boundary::ONLY_TICK`).
pub const TICK: usize = ONLY_TICK;

/// Bytes of `keep` for any text, and entries of `run` for any departure of the texts that are timed.
const KEEP: usize = 512;
const RUN: usize = 16_384;

pub fn states(text: &[u8]) -> usize {
    plain::read(TICK, text).expect("an accepted text").states
}

/// What is written is compared by the differential test: entries without an item are free.
pub fn read(contenders: &[Contender], texts: Rc<Texts>) -> (Returned, Calls) {
    let empty_record = || vec![0; plain::RECORD_ENTRIES];
    let returned = compare(contenders, |operations| (operations.read(TICK, &texts.0, &mut empty_record()), ()));
    let calls = calls(contenders, |operations| {
        let (texts, mut record) = (texts.clone(), empty_record());
        Box::new(move || {
            black_box(operations.read(TICK, &texts.0, &mut record));
        })
    });
    (returned, calls)
}

pub fn safe_states(contenders: &[Contender], texts: Rc<Texts>) -> (Returned, Calls) {
    let returned = compare(contenders, |operations| {
        let mut keep = [0; KEEP];
        (operations.safe_states(TICK, &texts.0, &mut keep), keep)
    });
    let calls = calls(contenders, |operations| {
        let texts = texts.clone();
        Box::new(move || {
            black_box(operations.safe_states(TICK, &texts.0, &mut [0; KEEP]));
        })
    });
    (returned, calls)
}

/// The contenders have the operation; nothing is written.
pub fn implementation(contenders: &[Contender], texts: Rc<Texts>) -> (Returned, Calls) {
    let judge =
        |operations: &dyn Operations, text: &[u8]| operations.implementation(TICK, text).expect("the operation");
    let returned = compare(contenders, |operations| (judge(operations, &texts.0), ()));
    let calls = calls(contenders, |operations| {
        let texts = texts.clone();
        Box::new(move || {
            black_box(judge(&*operations, &texts.0));
        })
    });
    (returned, calls)
}

/// A pair of slices that the search works in.
pub fn empty_queue((left, right): &Texts) -> (Vec<u32>, Vec<u32>) {
    let pairs = states(left) * states(right);
    (vec![0; pairs], vec![0; pairs])
}

/// Searches and gives the number of pairs reached.
pub fn reached(texts: &Texts) -> usize {
    let (mut back, mut line) = empty_queue(texts);
    let counted = plain::search_counted(TICK, &texts.0, &texts.1, &mut [0; KEEP], &mut back, &mut line, &mut [0; RUN]);
    counted.expect("a search that is not refused").1
}

pub fn search(contenders: &[Contender], texts: Rc<Texts>) -> (Returned, Calls) {
    // All contenders work in the same two slices: they are large.
    let queue = Rc::new(RefCell::new(empty_queue(&texts)));
    let returned = compare(contenders, |operations| {
        let (mut keep, mut run) = ([0; KEEP], vec![0; RUN]);
        let (back, line) = &mut *queue.borrow_mut();
        (operations.search(TICK, &texts.0, &texts.1, &mut keep, back, line, &mut run), (keep, run))
    });
    let calls = calls(contenders, |operations| {
        let (texts, queue, mut keep, mut run) = (texts.clone(), queue.clone(), [0; KEEP], vec![0; RUN]);
        Box::new(move || {
            let (back, line) = &mut *queue.borrow_mut();
            black_box(operations.search(TICK, &texts.0, &texts.1, &mut keep, back, line, &mut run));
        })
    });
    (returned, calls)
}

/// A slice of the table's length.
fn empty_table((left, right): &Texts) -> Vec<u8> {
    let (rows, width) = (states(left), states(right));
    vec![0; format!("P4\n{width} {rows}\n").len() + rows * width.div_ceil(8)]
}

pub fn widest(contenders: &[Contender], texts: Rc<Texts>) -> (Returned, Calls) {
    let returned = compare(contenders, |operations| {
        let (mut keep, mut table) = ([0; KEEP], empty_table(&texts));
        (operations.widest(TICK, &texts.0, &texts.1, &mut keep, &mut table), (keep, table))
    });
    let calls = calls(contenders, |operations| {
        let (texts, mut table) = (texts.clone(), empty_table(&texts));
        Box::new(move || {
            black_box(operations.widest(TICK, &texts.0, &texts.1, &mut [0; KEEP], &mut table));
        })
    });
    (returned, calls)
}

/// The check of the widest table. One without the start pair is refused by code 18, and the time is that of reading.
pub fn check(contenders: &[Contender], texts: Rc<Texts>) -> (Returned, Calls) {
    let mut table = empty_table(&texts);
    ByRows.widest(TICK, &texts.0, &texts.1, &mut [0; KEEP], &mut table);
    let returned = compare(contenders, |operations| {
        let mut keep = [0; KEEP];
        (operations.check(TICK, &texts.0, &texts.1, &mut keep, &table), keep)
    });
    let table = Rc::new(table);
    let calls = calls(contenders, |operations| {
        let (texts, table) = (texts.clone(), table.clone());
        Box::new(move || {
            black_box(operations.check(TICK, &texts.0, &texts.1, &mut [0; KEEP], &table));
        })
    });
    (returned, calls)
}

/// The contenders have the operation; the slice has room for every joined text.
pub fn join(contenders: &[Contender], texts: Rc<Texts>) -> (Returned, Calls) {
    let write = |operations: &dyn Operations, (left, right): &Texts, out: &mut [u8]| {
        operations.join(TICK, left, right, out).expect("the operation")
    };
    let returned = compare(contenders, |operations| {
        let mut out = vec![0; plain::TEXT_LIMIT];
        (write(operations, &texts, &mut out), out)
    });
    let calls = calls(contenders, |operations| {
        let (texts, mut out) = (texts.clone(), vec![0; plain::TEXT_LIMIT]);
        Box::new(move || {
            black_box(write(&*operations, &texts, &mut out));
        })
    });
    (returned, calls)
}
