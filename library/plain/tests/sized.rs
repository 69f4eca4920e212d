//! The texts of a chosen size for the implementation check: what is said of them holds.

use plain::{implementation, read, Refusal};
use texts::{passive, relay, scaled_post, Reach};

/// The tick length with which a constant is as many ticks as it says.
const TICK: usize = 1;

const SIZES: [usize; 3] = [10, 32, 64];

fn both_possible(state: usize, channel: usize) -> Result<(), Refusal> {
    Err(Refusal { code: plain::codes::OUTPUT_BESIDE_TICK, file: 1, p: state, q: channel })
}

#[test]
fn passive_texts() {
    for (values, channels) in SIZES.into_iter().flat_map(|values| [4, 16].map(|channels| (values, channels))) {
        for reach in [Reach::All, Reach::Few, Reach::Fault] {
            let text = passive(values, channels, reach);
            assert_eq!(read(TICK, &text).map(|record| record.states), Ok(values * values));
            let last = values * values - 1;
            let expected = if reach == Reach::Fault { both_possible(last, channels) } else { Ok(()) };
            assert_eq!(implementation(TICK, &text), expected, "{reach:?}");
        }
    }
}

/// An output in any one state is found where all are reached, and not where the two clocks stay equal.
#[test]
fn reached_states() {
    let (values, channels) = (10, 4);
    let text = String::from_utf8(passive(values, channels, Reach::Fault)).unwrap();
    let equal = text.replace(" assign x = 0;", "").replace(" assign y = 0;", "");
    let time = |clock: &str, value: usize| match value {
        value if value == values - 1 => format!("{clock} > {}", value - 1),
        value => format!("{clock} == {value}"),
    };
    let last = format!("{} && {}", time("x", values - 1), time("y", values - 1));
    for state in 0..values * values {
        let (x, y) = (state % values, state / values);
        let guard = format!("{} && {}", time("x", x), time("y", y));
        assert!(text.contains(&last));
        assert_eq!(implementation(TICK, text.replace(&last, &guard).as_bytes()), both_possible(state, channels));
        let expected = if x == y { both_possible(state, channels) } else { Ok(()) };
        assert_eq!(implementation(TICK, equal.replace(&last, &guard).as_bytes()), expected);
    }
}

#[test]
fn relays_and_posts() {
    for values in SIZES {
        assert_eq!(read(TICK, &relay(values)).map(|record| record.states), Ok(32 * values));
        assert_eq!(implementation(TICK, &relay(values)), Ok(()));
        assert_eq!(implementation(TICK, &scaled_post(values)), Ok(()));
    }
}
