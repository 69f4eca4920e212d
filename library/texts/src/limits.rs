//! Texts just at a limit (SPECIFICATION 4.3) and just over it.

use crate::model::{Assignment, Comparison, Edge, Model, INVARIANT_SIGNS, SIGNS};
use crate::random::Random;

/// A text at a limit chosen at random, or one over it.
pub fn at_a_limit(random: &mut Random) -> Vec<u8> {
    let over = random.below(2);
    let mut model = small();
    match random.below(12) {
        0 => return padded(random, 32_768 + over),
        1 => long_name(random, &mut model, 31 + over),
        2 => model.channels.extend((1..16 + over).map(|i| (format!("d{i}"), false))),
        3 => model.clocks.extend((1..3 + over).map(|i| format!("y{i}"))),
        4 => model.locations.extend((1..32 + over).map(|i| (format!("M{i}"), Vec::new()))),
        // All of them parallel, or no two at one time.
        5 if random.chance(30) => model.edges = vec![output("==", 2); 128 + over],
        5 => model.edges = (0..128 + over).map(|i| output("==", i)).collect(),
        6 => model.locations[0].1 = vec![comparison(*random.pick(&INVARIANT_SIGNS), 3); 4 + over],
        7 => model.edges[0].guard = vec![comparison(*random.pick(&SIGNS), 3); 4 + over],
        8 => model.edges[0].guard = vec![comparison(*random.pick(&SIGNS), 1_000 + over)],
        9 => large_assignment(random, &mut model, 1_000 + over),
        // Their number is not limited.
        10 => model.edges[0].assignments = (0..random.between(1, 400)).map(|_| assignment(random.below(9))).collect(),
        _ => many_states(random, &mut model),
    }
    if random.chance(25) {
        spoil_last(random, &mut model);
    }
    let mut text = model.text(random);
    if random.chance(10) {
        text.truncate(random.below(text.len()));
    }
    text
}

/// Gives the last item of a list a name that is declared before, not declared or too long, so that two
/// codes fit one place.
fn spoil_last(random: &mut Random, model: &mut Model) {
    let name = random.pick(&["P", "L", "x", "c", "unknown", "n23456789_123456789_123456789_12"]).to_string();
    let last = model.edges.len() - 1;
    match random.below(6) {
        0 => model.channels.last_mut().expect("a channel").0 = name,
        1 => *model.clocks.last_mut().expect("a clock") = name,
        2 => model.locations.last_mut().expect("a location").0 = name,
        3 => model.edges[last].source = name,
        4 => model.edges[last].assignments.push(Assignment { clock: name, value: 0 }),
        _ => model.edges[last].guard.last_mut().expect("a comparison").clock = name,
    }
}

fn comparison(sign: &'static str, bound: usize) -> Comparison {
    Comparison { clock: "x".to_string(), sign, bound }
}

fn assignment(value: usize) -> Assignment {
    Assignment { clock: "x".to_string(), value }
}

fn output(sign: &'static str, bound: usize) -> Edge {
    Edge {
        source: "L".to_string(),
        target: "L".to_string(),
        guard: vec![comparison(sign, bound)],
        channel: "c".to_string(),
        input: false,
        assignments: Vec::new(),
    }
}

/// One location, one clock, one output.
fn small() -> Model {
    Model {
        channels: vec![("c".to_string(), false)],
        process: "P".to_string(),
        clocks: vec!["x".to_string()],
        locations: vec![("L".to_string(), Vec::new())],
        init: "L".to_string(),
        edges: vec![output("==", 2)],
    }
}

/// A text of this many bytes, filled up with spaces.
fn padded(random: &mut Random, length: usize) -> Vec<u8> {
    let mut text = small().text(random);
    if random.chance(30) {
        text.truncate(random.below(text.len()));
    }
    text.resize(length, b' ');
    text
}

/// Gives one of the names this length, at its declaration and all its uses or at one use only.
fn long_name(random: &mut Random, model: &mut Model, length: usize) {
    let long = "n".repeat(length);
    match random.below(6) {
        0 => model.process = long,
        1 => {
            model.channels[0].0 = long.clone();
            model.edges[0].channel = long;
        }
        2 => {
            model.clocks[0] = long.clone();
            model.edges[0].guard[0].clock = long;
        }
        3 => model.locations.push((long, Vec::new())),
        4 => model.edges[0].target = long,
        _ => model.init = long,
    }
}

/// An assignment to a value, alone or with others before or behind it.
fn large_assignment(random: &mut Random, model: &mut Model, value: usize) {
    let assignments = &mut model.edges[0].assignments;
    assignments.push(assignment(value));
    match random.below(3) {
        0 => assignments.push(assignment(random.below(3))),
        1 => assignments.insert(0, assignment(random.below(3))),
        _ => (),
    }
}

/// Around 4,096 states or far over, by comparisons or by assignments.
fn many_states(random: &mut Random, model: &mut Model) {
    let locations = random.between(1, 32);
    model.locations.extend((1..locations).map(|i| (format!("M{i}"), Vec::new())));
    model.clocks.extend((0..random.below(3)).map(|i| format!("y{i}")));
    let least = 4_096 / locations;
    for clock in model.clocks.clone() {
        let bound = match random.below(3) {
            0 => random.below(1_001),
            1 => least.min(1_000),
            _ => least.min(1_002) - 2,
        };
        match random.chance(30) {
            true => model.edges[0].assignments.push(Assignment { clock, value: bound }),
            false => model.edges[0].guard.push(Comparison { clock, sign: *random.pick(&SIGNS), bound }),
        }
    }
    model.edges[0].guard.truncate(4);
}
