//! Texts with a fault: a token or a byte removed, doubled, swapped or replaced; and plain noise.

use crate::model::{join, Edge, Model};
use crate::random::Random;

const WORDS: [&str; 48] = [
    "broadcast",
    "chan",
    "process",
    "clock",
    "state",
    "init",
    "trans",
    "system",
    "guard",
    "sync",
    "assign",
    ",",
    ";",
    "{",
    "}",
    "(",
    ")",
    "->",
    "&&",
    "<=",
    ">=",
    "==",
    "=",
    "?",
    "!",
    "<",
    ">",
    "-",
    "&",
    "===",
    "@",
    "0",
    "00",
    "1",
    "1000",
    "1001",
    "0001000",
    "99999999999999999999999",
    "3x",
    "x0",
    "x9",
    "L0",
    "L1",
    "c0",
    "c1",
    "P",
    "tick",
    "_",
];

/// A text with one or two faults (now and then it is still accepted).
pub fn damaged(random: &mut Random) -> Vec<u8> {
    let locations = random.between(1, 4);
    let mut model = Model::random(random, locations);
    if random.chance(40) {
        misstate(random, &mut model);
        return model.text(random);
    }
    if random.chance(30) {
        let text = model.text(random);
        return damaged_bytes(random, text);
    }
    let mut tokens = model.tokens();
    for _ in 0..random.between(1, 2) {
        damage_token(random, &mut tokens);
    }
    join(&tokens, random)
}

/// A fault in what the text says: a mark, a name, a constant, a sign, an edge too few, or one by the same channel that
/// leads elsewhere.
fn misstate(random: &mut Random, model: &mut Model) {
    let names = names(model);
    let name = random.pick(&names).clone();
    if model.edges.is_empty() {
        model.process = name;
        return;
    }
    let count = model.edges.len();
    let i = random.below(count);
    match random.below(10) {
        0 => model.edges[i].input = !model.edges[i].input,
        1 => model.double_one(random, false),
        2 => drop(model.edges.remove(i)),
        3 => model.edges[i].channel = name,
        4 => model.edges[i].target = name,
        5 => model.process = name,
        6 => model.locations.push((name, Vec::new())),
        7 => model.clocks.insert(0, name),
        8 => misfit_in_invariant(random, model),
        _ => over_the_constant(random, model),
    }
}

/// Every name of a model, one that is not declared, and one that is too long.
fn names(model: &Model) -> Vec<String> {
    let channels = model.channels.iter().map(|channel| &channel.0);
    let locations = model.locations.iter().map(|location| &location.0);
    let declared = channels.chain(locations).chain(&model.clocks).cloned();
    declared.chain(["unknown".to_string(), "n".repeat(32)]).collect()
}

/// A 0 after `<`, or a sign that only guards have (SPECIFICATION 3.2).
fn misfit_in_invariant(random: &mut Random, model: &mut Model) {
    let i = random.below(model.locations.len());
    if let Some(comparison) = model.locations[i].1.last_mut() {
        comparison.sign = *random.pick(&["<", "<", ">", ">=", "=="]);
        comparison.bound = 0;
    }
}

/// A constant around the limit, in a comparison or in an assignment.
fn over_the_constant(random: &mut Random, model: &mut Model) {
    let i = random.below(model.edges.len());
    let Edge { guard, assignments, .. } = &mut model.edges[i];
    let bounds = guard.first_mut().map(|comparison| &mut comparison.bound);
    let mut constants: Vec<&mut usize> =
        bounds.into_iter().chain(assignments.iter_mut().map(|a| &mut a.value)).collect();
    if !constants.is_empty() {
        let place = random.below(constants.len());
        *constants[place] = random.between(999, 1_002);
    }
}

fn damage_token(random: &mut Random, tokens: &mut Vec<String>) {
    if tokens.is_empty() {
        return;
    }
    let count = tokens.len();
    let (i, j) = (random.below(count), random.below(count));
    match random.below(8) {
        0 => drop(tokens.remove(i)),
        1 => tokens.insert(i, tokens[i].clone()),
        2 => tokens.swap(i, j),
        3 => tokens.swap(i, (i + 1) % count),
        4 => tokens.truncate(i),
        5 => tokens[i] = tokens[j].clone(),
        6 => tokens.insert(i, random.pick(&WORDS).to_string()),
        _ => tokens[i] = random.pick(&WORDS).to_string(),
    }
}

fn damaged_bytes(random: &mut Random, mut text: Vec<u8>) -> Vec<u8> {
    let i = random.below(text.len());
    match random.below(5) {
        0 => drop(text.remove(i)),
        1 => text.insert(i, text[i]),
        2 => text[i] = random.next() as u8,
        3 => text[i] = *random.pick(b" \t\n;,=<>-&0a_!?{}()"),
        _ => text.truncate(i),
    }
    text
}

/// Random bytes, random printable bytes or random words.
pub fn noise(random: &mut Random) -> Vec<u8> {
    let length = random.below(60);
    match random.below(3) {
        0 => random.bytes(length),
        1 => (0..length).map(|_| random.between(32, 126) as u8).collect(),
        _ => {
            let tokens: Vec<String> = (0..length / 3).map(|_| random.pick(&WORDS).to_string()).collect();
            join(&tokens, random)
        }
    }
}
