//! The pairs of texts by kind: all are accepted, of about the size asked for, and what is said of their
//! widest tables holds.

use texts::kinds::{departing, texts, Kind, CHANNELS, KINDS};

/// The tick length with which a constant is as many ticks as it says.
const TICK: usize = 1;

/// States of the left and the right, pairs of the widest table and whether the start is one of them.
fn sizes((left, right): &(Vec<u8>, Vec<u8>), name: &str) -> (usize, usize, plain::Widest) {
    let count = |text: &[u8]| plain::read(TICK, text).map(|record| record.states);
    let (rows, width) = (count(left).expect(name), count(right).expect(name));
    let mut table = vec![0; 20 + rows * width.div_ceil(8)];
    let answer = plain::widest_by_rows(TICK, left, right, &mut [0; 512], &mut table);
    (rows, width, answer.expect(name))
}

#[test]
fn sizes_and_pairs() {
    for (kind, states) in KINDS.into_iter().flat_map(|kind| [100, 1_000, 4_096].map(|states| (kind, states))) {
        for clocks in 1..=3 {
            let (rows, width, widest) = sizes(&texts(kind, states, clocks, CHANNELS), kind.name());
            println!(
                "{:6} {rows:4} x {width:4}, {clocks} clocks: {:8} pairs, {}",
                kind.name(),
                widest.pairs,
                widest.start
            );
            assert_eq!(rows, width);
            assert!(rows <= states && rows * 10 >= states * 8, "{} {states} {clocks}: {rows}", kind.name());
            match kind {
                Kind::Full => assert_eq!(widest.pairs, rows * width),
                Kind::Late | Kind::Loop => assert!(widest.pairs * 50 > rows * width && widest.start),
                Kind::Same => assert!(widest.start && widest.pairs < 8 * rows),
                Kind::Chain | Kind::Zigzag => assert_eq!(widest.pairs, 0),
            }
        }
    }
}

#[test]
fn accepted_at_every_size() {
    for (kind, clocks) in KINDS.into_iter().flat_map(|kind| [1, 2, 3].map(|clocks| (kind, clocks))) {
        for (channels, states) in (2..=16).flat_map(|channels| [4, 9, 30, 64, 130].map(|states| (channels, states))) {
            let name = format!("{} {states} {clocks} {channels}", kind.name());
            let (rows, _, _) = sizes(&texts(kind, states, clocks, channels), &name);
            assert!(rows <= states.max(1 << clocks));
            if channels > 2 {
                assert!(!sizes(&departing(kind, states, clocks, channels), &name).2.start, "{name} does not depart");
            }
        }
    }
}
