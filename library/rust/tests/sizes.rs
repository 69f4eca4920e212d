//! The sizing helpers: what the operations ask for, and nothing where no text has so many states.
use megzhoi::{keep_bytes, queue_entries, read, safe_states, search, table_bytes, widest, Code, Refusal, KEEP_BYTES};
use texts::{drifting, early, post, rearm, scaled_post, strict, Kind};

const STATE_LIMIT: usize = 4096;

/// The tick length with which constants are ticks.
const TICK: usize = 1;

#[test]
fn every_count() {
    for states in 1..=STATE_LIMIT {
        assert_eq!(keep_bytes(states), states.div_ceil(8));
        for other in [1, 7, 8, 9, 10, 99, 100, 999, 1000, 1001, 4095, STATE_LIMIT] {
            assert_eq!(queue_entries(states, other), states * other);
            let header = format!("P4\n{other} {states}\n");
            assert_eq!(table_bytes(states, other), header.len() + states * other.div_ceil(8));
        }
    }
    assert_eq!(keep_bytes(STATE_LIMIT), KEEP_BYTES);
}

#[test]
fn counts_that_no_text_has() {
    for states in [0, STATE_LIMIT + 1, 1 << 32, usize::MAX / 2, usize::MAX] {
        assert_eq!(keep_bytes(states), 0);
        let most = STATE_LIMIT;
        for (left, right) in [(states, 1), (1, states), (states, most), (most, states), (states, states)] {
            assert_eq!((table_bytes(left, right), queue_entries(left, right)), (0, 0));
        }
    }
}

/// The code and p of a refusal.
fn numbers<T>(answer: Result<T, Refusal>) -> Option<(Code, usize)> {
    answer.err().map(|refusal| (refusal.code, refusal.p))
}

/// Slices of these lengths are enough, and shorter ones are refused with the very numbers.
#[test]
fn they_are_the_least() {
    let pairs = [
        (post(), post()),
        (rearm(), post()),
        (early(), post()),
        (strict(), post()),
        (post(), strict()),
        (scaled_post(10), post()),
        drifting(10, 4, Kind::Departing),
    ];
    for (left, right) in pairs {
        let (rows, width) = (read(TICK, &left).unwrap().states, read(TICK, &right).unwrap().states);
        let (bytes, entries, table) = (keep_bytes(rows), queue_entries(rows, width), table_bytes(rows, width));
        let search = |keep: usize, back: usize, line: usize| {
            let (mut keep, mut run) = (vec![0; keep], vec![0; entries]);
            numbers(search(TICK, &left, &right, &mut keep, &mut vec![0; back], &mut vec![0; line], &mut run))
        };
        let widest = |table: usize| numbers(widest(TICK, &left, &right, &mut vec![0; bytes], &mut vec![0; table]));
        assert_eq!(numbers(safe_states(TICK, &left, &mut vec![0; bytes])), None);
        assert_eq!(numbers(safe_states(TICK, &left, &mut vec![0; bytes - 1])), Some((Code::KeepTooShort, bytes)));
        assert_eq!(search(bytes, entries, entries), None);
        assert_eq!(search(bytes - 1, entries, entries), Some((Code::KeepTooShort, bytes)));
        assert_eq!(search(bytes, entries - 1, entries), Some((Code::QueueTooShort, entries)));
        assert_eq!(search(bytes, entries, entries - 1), Some((Code::QueueTooShort, entries)));
        assert_eq!(widest(table), None);
        assert_eq!(widest(table - 1), Some((Code::TableTooShort, table)));
    }
}
