//! Best and median of several rounds, the programs turn about.
//!
//! Measured is the time of this thread on the processor: on a quiet machine it is the time that
//! passes, and on a busy one it leaves out the time in which other programs had the processor.

use std::ffi::{c_int, c_long};

pub struct Times {
    /// Nanoseconds of one call.
    pub best: f64,
    pub median: f64,
}

/// A round lasts at least this long, by repeating short calls.
const ROUND: f64 = 2e6;

/// Calls that together take longer than this over all rounds get fewer rounds, but at least three.
const ALL_ROUNDS: f64 = 3e9;
const LEAST_ROUNDS: usize = 3;

/// Times of each call, in the order in which they are given.
pub fn time(calls: &mut [Box<dyn FnMut()>], rounds: usize) -> Vec<Times> {
    let repeats: Vec<(usize, f64)> = calls.iter_mut().map(repeats).collect();
    let turn: f64 = repeats.iter().map(|(repeats, once)| *repeats as f64 * once).sum();
    let rounds = rounds.min(LEAST_ROUNDS.max((ALL_ROUNDS / turn) as usize));
    let mut times = vec![Vec::new(); calls.len()];
    for _ in 0..rounds {
        for ((call, (repeats, _)), times) in calls.iter_mut().zip(&repeats).zip(&mut times) {
            times.push(round(call, *repeats));
        }
    }
    times.into_iter().map(summary).collect()
}

/// How many calls fill a round, and how long one takes.
fn repeats(call: &mut Box<dyn FnMut()>) -> (usize, f64) {
    let once = round(call, 1);
    let once = if once < ROUND { once.min(round(call, 1)) } else { once };
    ((ROUND / once).ceil() as usize, once)
}

#[repr(C)]
struct Timespec {
    seconds: i64,
    nanoseconds: c_long,
}

extern "C" {
    fn clock_gettime(clock: c_int, time: *mut Timespec) -> c_int;
}

/// The number of Linux's clock of a thread's processor time.
const CLOCK_THREAD_CPUTIME_ID: c_int = 3;

/// Nanoseconds that this thread has spent on the processor.
fn now() -> f64 {
    let mut time = Timespec { seconds: 0, nanoseconds: 0 };
    // SAFETY: the pointer is valid, and the struct has the layout of 64-bit Linux.
    let failed = unsafe { clock_gettime(CLOCK_THREAD_CPUTIME_ID, &mut time) };
    assert_eq!(failed, 0, "no clock");
    time.seconds as f64 * 1e9 + time.nanoseconds as f64
}

fn round(call: &mut Box<dyn FnMut()>, repeats: usize) -> f64 {
    let start = now();
    for _ in 0..repeats {
        call();
    }
    (now() - start) / repeats as f64
}

fn summary(mut times: Vec<f64>) -> Times {
    times.sort_by(f64::total_cmp);
    Times { best: times[0], median: times[times.len() / 2] }
}
