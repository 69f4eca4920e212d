//! Two texts to be joined: random ones over the same channels, most of which can be, and ones whose joined text is at,
//! just under or just over a limit (SPECIFICATION 18.8).

use crate::model::{Assignment, Comparison, Edge, Model, INVARIANT_SIGNS, SIGNS};
use crate::random::Random;

/// Left and right.
type Texts = (Vec<u8>, Vec<u8>);

/// Channel names; some are also names that a joined text may have for its own (SPECIFICATION 18.6).
#[rustfmt::skip]
const NAMES: [&str; 20] = [
    "a", "go", "l0", "l1", "l3", "l7", "l24", "c0", "c1", "c2", "p0", "p1", "_l0", "_c0", "_p0", "__l0", "__c1", "__p0",
    "_", "l00",
];

const CLOCK_LIMIT: usize = 3;
const COMPARISON_LIMIT: usize = 4;
const NAME_LIMIT: usize = 31;
const TEXT_LIMIT: usize = 32_768;

/// Numbers of the left's and of the right's locations, edges of one channel, and values of one clock. The product is
/// that of the joined text, at a limit or near it.
const LOCATIONS: [(usize, usize); 11] =
    [(4, 8), (8, 4), (1, 32), (32, 1), (2, 16), (31, 1), (3, 11), (11, 3), (2, 17), (5, 7), (6, 6)];
const EDGES: [(usize, usize); 10] =
    [(8, 16), (16, 8), (1, 128), (128, 1), (64, 2), (127, 1), (3, 43), (43, 3), (2, 65), (128, 128)];
const VALUES: [(usize, usize); 9] =
    [(64, 64), (32, 128), (128, 32), (2, 1_002), (1_002, 4), (63, 65), (64, 65), (17, 241), (1_002, 1_002)];

/// Two texts to be joined.
pub fn joinable(random: &mut Random) -> Texts {
    let (left, right) = match random.below(100) {
        0..=79 => alike(random),
        80..=82 => two_of(*random.pick(&LOCATIONS), located),
        83..=84 => two_of(*random.pick(&EDGES), with_edges),
        85 => two_of(*random.pick(&EDGES), with_parallel_edges),
        86..=87 => two_of(*random.pick(&VALUES), valued),
        88 => two_of(*random.pick(&VALUES), set),
        89..=90 => two_of(near(random, CLOCK_LIMIT), with_clocks),
        91..=93 => compared(random),
        94 => unpaired(random),
        95 => overridden(random),
        _ => return of_joined_length(TEXT_LIMIT - 2 + random.below(5)),
    };
    (left.text(random), right.text(random))
}

fn two_of(numbers: (usize, usize), model: fn(usize) -> Model) -> (Model, Model) {
    (model(numbers.0), model(numbers.1))
}

/// Two numbers up to a limit whose sum is the limit or one more.
fn near(random: &mut Random, limit: usize) -> (usize, usize) {
    let over = random.below(2);
    let first = random.between(over, limit);
    (first, limit + over - first)
}

/// Two random models over the same channels, each in its own order; most have no more clocks together than one may, and
/// some have parallel edges.
fn alike(random: &mut Random) -> (Model, Model) {
    let mut names = NAMES;
    random.shuffle(&mut names);
    let count = random.below(5);
    let mut channels: Vec<(String, bool)> =
        names[..count].iter().map(|name| (name.to_string(), random.chance(50))).collect();
    let clocks = random.below(CLOCK_LIMIT + 1);
    let left = Model::with_clocks(random, channels.clone(), clocks, 5);
    random.shuffle(&mut channels);
    let rest = if random.chance(90) { CLOCK_LIMIT - clocks } else { CLOCK_LIMIT };
    let clocks = random.below(rest + 1);
    (left, Model::with_clocks(random, channels, clocks, 5))
}

fn comparison(clock: &str, sign: &'static str, bound: usize) -> Comparison {
    Comparison { clock: clock.to_string(), sign, bound }
}

/// One location, one clock and an output that no edge names.
fn bare() -> Model {
    Model {
        channels: vec![("o".to_string(), false)],
        process: "P".to_string(),
        clocks: vec!["x".to_string()],
        locations: vec![("L".to_string(), Vec::new())],
        init: "L".to_string(),
        edges: Vec::new(),
    }
}

/// An edge for the output from the one location to itself.
fn output(guard: Vec<Comparison>) -> Edge {
    let place = || "L".to_string();
    Edge { source: place(), target: place(), guard, channel: "o".to_string(), input: false, assignments: Vec::new() }
}

fn located(count: usize) -> Model {
    let locations = (0..count).map(|i| (format!("L{i}"), Vec::new())).collect();
    Model { locations, init: "L0".to_string(), ..bare() }
}

fn with_edges(count: usize) -> Model {
    Model { edges: (0..count).map(|value| output(vec![comparison("x", "==", value)])).collect(), ..bare() }
}

/// All edges are parallel, and so are those of the joined text.
fn with_parallel_edges(count: usize) -> Model {
    Model { edges: vec![output(vec![comparison("x", ">=", 1)]); count], ..bare() }
}

fn valued(values: usize) -> Model {
    Model { edges: vec![output(vec![comparison("x", ">=", values - 2)])], ..bare() }
}

/// So many values by an assignment.
fn set(values: usize) -> Model {
    let assignments = vec![assignment(values - 2)];
    Model { edges: vec![Edge { assignments, ..output(Vec::new()) }], ..bare() }
}

fn assignment(value: usize) -> Assignment {
    Assignment { clock: "x".to_string(), value }
}

fn with_clocks(count: usize) -> Model {
    Model { clocks: (0..count).map(|i| format!("x{i}")).collect(), ..bare() }
}

/// As many comparisons together as one guard or invariant may have, or one more.
fn compared(random: &mut Random) -> (Model, Model) {
    let in_invariant = random.chance(50);
    let (of_left, of_right) = near(random, COMPARISON_LIMIT);
    let mut make = |count: usize| {
        let signs: &[&'static str] = if in_invariant { &INVARIANT_SIGNS } else { &SIGNS };
        let items = (0..count).map(|_| comparison("x", *random.pick::<&str>(signs), random.between(1, 9))).collect();
        let mut model = bare();
        match in_invariant {
            true => model.locations[0].1 = items,
            false => model.edges.push(output(items)),
        }
        model
    };
    (make(of_left), make(of_right))
}

/// Constants of an output that the other text never names: they are not in the joined text.
fn unpaired(random: &mut Random) -> (Model, Model) {
    let (large, small) = (valued(random.between(900, 1_002)), located(random.between(2, 5)));
    match random.chance(50) {
        true => (large, small),
        false => (small, large),
    }
}

/// A large constant in an assignment that is overridden: it is not in the joined text.
fn overridden(random: &mut Random) -> (Model, Model) {
    let assignments = vec![assignment(random.between(900, 1_000)), assignment(random.below(3))];
    let large = Model { edges: vec![Edge { assignments, ..output(Vec::new()) }], ..bare() };
    let small = valued(random.between(2, 9));
    match random.chance(50) {
        true => (large, small),
        false => (small, large),
    }
}

/// So many channels, `l0`, `_l0` and on, make as many underscores needed in the names of a long joined text.
const UNDERSCORES: usize = 13;

/// The channel of its edges, and its bytes where the two channels that are left have names of one byte.
const LONG_NAME: &str = "oooooooooooooooooooooo";
const SHORTEST: usize = 32_733;

/// Two texts whose joined text has so many bytes, if it may have them: 32,733 to 32,793. It has 32 locations and 128
/// edges.
pub fn of_joined_length(length: usize) -> Texts {
    let more = length - SHORTEST;
    let first = more.min(NAME_LIMIT - 1);
    let padding = [("a", first), ("b", more - first)].map(|(letter, more)| letter.repeat(1 + more));
    let mut names: Vec<String> = (0..UNDERSCORES).map(|count| "_".repeat(count) + "l0").collect();
    names.push(LONG_NAME.to_string());
    names.extend(padding);
    let left = (0..8).map(|i| long_edge(i, 8, "x <= 5 && x >= 0", "x = 0, w = 0")).collect::<Vec<_>>();
    let right = (0..16).map(|i| long_edge(i % 4, 4, &format!("y == {} && y <= 3", i / 4), "y = 0"));
    let left = long_text(&names, "w, x", 8, left);
    names.reverse();
    (left, long_text(&names, "y", 4, right.collect()))
}

/// An edge from a location to the next of so many.
fn long_edge(source: usize, locations: usize, guard: &str, assign: &str) -> String {
    let target = (source + 1) % locations;
    format!("L{source} -> L{target} {{ guard {guard}; sync {LONG_NAME}!; assign {assign}; }}")
}

fn long_text(names: &[String], clocks: &str, locations: usize, edges: Vec<String>) -> Vec<u8> {
    let places: Vec<String> = (0..locations).map(|i| format!("L{i}")).collect();
    let (names, places, edges) = (names.join(", "), places.join(", "), edges.join(",\n"));
    let declared = format!("broadcast chan {names};\nprocess P() {{\nclock {clocks};\nstate {places};\ninit L0;");
    format!("{declared}\ntrans\n{edges};\n}}\nsystem P;\n").into_bytes()
}
