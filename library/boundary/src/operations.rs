//! The seven operations, whoever carries them out. Each takes the tick length first.

use crate::{Layout, Returned};
use plain::Refusal;

pub trait Operations {
    fn read(&self, tick_length: usize, text: &[u8], record: &mut [usize]) -> Returned;

    /// How the record that `read` writes is laid out: an older build has it otherwise.
    fn layout(&self) -> Layout {
        Layout::Now
    }

    fn safe_states(&self, tick_length: usize, text: &[u8], keep: &mut [u8]) -> Returned;

    /// `None` for an older build that does not have the operation.
    fn implementation(&self, tick_length: usize, text: &[u8]) -> Option<Returned>;

    fn search(
        &self,
        tick_length: usize,
        left: &[u8],
        right: &[u8],
        keep: &mut [u8],
        back: &mut [u32],
        line: &mut [u32],
        run: &mut [u32],
    ) -> Returned;

    fn check(&self, tick_length: usize, left: &[u8], right: &[u8], keep: &mut [u8], table: &[u8]) -> Returned;

    fn widest(&self, tick_length: usize, left: &[u8], right: &[u8], keep: &mut [u8], table: &mut [u8]) -> Returned;

    /// `None` for an older build that does not have the operation.
    fn join(&self, tick_length: usize, left: &[u8], right: &[u8], out: &mut [u8]) -> Option<Returned>;
}

/// Plain Rust, tables pair by pair.
pub struct ByPairs;

/// Plain Rust, tables row by row.
pub struct ByRows;

impl Returned {
    /// A plain answer in the form in which the library returns it.
    pub fn plainly<T>(answer: Result<T, Refusal>, values: impl Fn(T) -> (usize, usize)) -> Returned {
        match answer {
            Err(Refusal { code, file, p, q }) => Returned { code, file, p, q },
            Ok(answer) => {
                let (p, q) = values(answer);
                Returned { code: 0, file: 0, p, q }
            }
        }
    }
}

fn pairs_and_start(widest: plain::Widest) -> (usize, usize) {
    (widest.pairs, usize::from(widest.start))
}

impl Operations for ByPairs {
    fn read(&self, tick_length: usize, text: &[u8], record: &mut [usize]) -> Returned {
        let answer = plain::read(tick_length, text);
        if let Ok(read) = &answer {
            read.write(record);
        }
        Returned::plainly(answer, |read| (read.states, 0))
    }

    fn safe_states(&self, tick_length: usize, text: &[u8], keep: &mut [u8]) -> Returned {
        Returned::plainly(plain::safe_states(tick_length, text, keep), |safe| (safe.count, usize::from(safe.start)))
    }

    fn implementation(&self, tick_length: usize, text: &[u8]) -> Option<Returned> {
        Some(Returned::plainly(plain::implementation(tick_length, text), |()| (0, 0)))
    }

    fn search(
        &self,
        tick_length: usize,
        left: &[u8],
        right: &[u8],
        keep: &mut [u8],
        back: &mut [u32],
        line: &mut [u32],
        run: &mut [u32],
    ) -> Returned {
        Returned::plainly(plain::search(tick_length, left, right, keep, back, line, run), |steps| (steps, 0))
    }

    fn check(&self, tick_length: usize, left: &[u8], right: &[u8], keep: &mut [u8], table: &[u8]) -> Returned {
        Returned::plainly(plain::check(tick_length, left, right, keep, table), |pairs| (pairs, 0))
    }

    fn widest(&self, tick_length: usize, left: &[u8], right: &[u8], keep: &mut [u8], table: &mut [u8]) -> Returned {
        Returned::plainly(plain::widest(tick_length, left, right, keep, table), pairs_and_start)
    }

    fn join(&self, tick_length: usize, left: &[u8], right: &[u8], out: &mut [u8]) -> Option<Returned> {
        Some(Returned::plainly(plain::join(tick_length, left, right, out), |length| (length, 0)))
    }
}

/// Only the widest table and its check go by rows; the others are the same as by pairs.
impl Operations for ByRows {
    fn read(&self, tick_length: usize, text: &[u8], record: &mut [usize]) -> Returned {
        ByPairs.read(tick_length, text, record)
    }

    fn safe_states(&self, tick_length: usize, text: &[u8], keep: &mut [u8]) -> Returned {
        ByPairs.safe_states(tick_length, text, keep)
    }

    fn implementation(&self, tick_length: usize, text: &[u8]) -> Option<Returned> {
        ByPairs.implementation(tick_length, text)
    }

    fn search(
        &self,
        tick_length: usize,
        left: &[u8],
        right: &[u8],
        keep: &mut [u8],
        back: &mut [u32],
        line: &mut [u32],
        run: &mut [u32],
    ) -> Returned {
        ByPairs.search(tick_length, left, right, keep, back, line, run)
    }

    fn check(&self, tick_length: usize, left: &[u8], right: &[u8], keep: &mut [u8], table: &[u8]) -> Returned {
        Returned::plainly(plain::check_by_rows(tick_length, left, right, keep, table), |pairs| (pairs, 0))
    }

    fn widest(&self, tick_length: usize, left: &[u8], right: &[u8], keep: &mut [u8], table: &mut [u8]) -> Returned {
        Returned::plainly(plain::widest_by_rows(tick_length, left, right, keep, table), pairs_and_start)
    }

    fn join(&self, tick_length: usize, left: &[u8], right: &[u8], out: &mut [u8]) -> Option<Returned> {
        ByPairs.join(tick_length, left, right, out)
    }
}
