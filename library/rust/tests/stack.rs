//! Five sixths of `STACK` are enough for each call: `megzhoi.h` says what was measured.
//!
//! MEGZHOI_STACK=bytes tries another size; where it is too small, the test ends by a signal.
use megzhoi::{here, keep_bytes, queue_entries, table_bytes, KEEP_BYTES, STACK, TEXT_LIMIT};
use std::thread;
use texts::{chain, drifting, full_of_edges, full_of_tokens, passive, post, started_late, woken, Kind, Reach};

/// The tick length with which constants are ticks.
const TICK: usize = 1;

/// All seven operations on two texts, on the caller's thread.
fn operations(left: &[u8], right: &[u8]) {
    // SAFETY: whether the stack is large enough is what is tried here.
    unsafe {
        let (Ok(of_left), Ok(of_right)) = (here::read(TICK, left), here::read(TICK, right)) else { return };
        let entries = queue_entries(of_left.states, of_right.states);
        let (mut back, mut line, mut run) = (vec![0; entries], vec![0; entries], vec![0; entries]);
        let mut keep = vec![0; keep_bytes(of_left.states)];
        let mut table = vec![0; table_bytes(of_left.states, of_right.states)];
        let safe = here::safe_states(TICK, left, &mut keep).expect("an accepted text");
        let judged = here::implementation(TICK, left);
        let found = here::search(TICK, left, right, &mut keep, &mut back, &mut line, &mut run);
        let made = here::widest(TICK, left, right, &mut keep, &mut table);
        let checked = here::check(TICK, left, right, &mut [0; KEEP_BYTES], &table);
        let mut out = vec![0; TEXT_LIMIT];
        let joined = here::join(TICK, left, right, &mut out);
        // A joined text is one, and has at least as many states as it has pairs of locations.
        let read_again = joined.as_ref().map(|length| here::read(TICK, &out[..*length]).expect("an accepted text"));
        let pairs = of_left.locations.len() * of_right.locations.len();
        assert!(read_again.is_ok_and(|record| record.locations.len() == pairs) || joined.is_err());
        // The start of an implementation is safe (SPECIFICATION 8.6).
        assert!(safe.start || judged.is_err());
        assert_eq!([found.is_ok(), made.is_ok()], [safe.start; 2]);
        assert_eq!(checked.is_ok(), made.is_ok_and(|made| made.start));
    }
}

/// Small and large texts; those of 4,096 states have the largest search.
fn texts() -> Vec<(Vec<u8>, Vec<u8>)> {
    let late = |(left, right): (Vec<u8>, Vec<u8>)| (started_late(&left, 1), started_late(&right, 1));
    vec![
        (post(), post()),
        (woken(), woken()),
        (full_of_tokens(), full_of_tokens()),
        (full_of_edges(8, 16), full_of_edges(8, 16)),
        drifting(10, 16, Kind::Departing),
        drifting(64, 4, Kind::Refining),
        late(drifting(64, 4, Kind::Departing)),
        drifting(64, 4, Kind::Departing),
        chain(128),
        (passive(64, 4, Reach::All), passive(64, 4, Reach::All)),
    ]
}

#[test]
fn five_sixths_are_enough() {
    let bytes = std::env::var("MEGZHOI_STACK").map_or(STACK / 6 * 5, |value| value.parse().expect("a number"));
    for (left, right) in texts() {
        let call = move || operations(&left, &right);
        let started = thread::Builder::new().stack_size(bytes).spawn(call);
        started.expect("a thread").join().expect("the calls do not panic");
    }
}
