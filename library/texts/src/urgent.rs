//! Random texts that are implementations (SPECIFICATION 8.6): outputs come at a deadline and not before.

use crate::model::{Assignment, Comparison, Edge, Model};
use crate::random::Random;

/// Of a hundred models, how many have clocks that start late, and how many have parallel edges.
const LATE: usize = 40;
const DOUBLED: usize = 25;

/// A random model of one to `locations` locations and one to three clocks that is an implementation. A location rests,
/// without an invariant and an output, or waits: one clock has a deadline, and outputs come at that time alone. An edge
/// to another location sets the clock of that one's deadline, to 0 or to a later time that the deadline allows; a few that
/// start late set a clock past a deadline. Which locations are reached is left to chance.
pub fn urgent(random: &mut Random, locations: usize) -> Model {
    let count = random.between(1, locations);
    let mut model = Model {
        channels: (0..random.between(1, 5)).map(|i| (format!("c{i}"), random.chance(50))).collect(),
        process: "P".to_string(),
        clocks: (0..random.between(1, 3)).map(|i| format!("x{i}")).collect(),
        locations: (0..count).map(|i| (format!("L{i}"), Vec::new())).collect(),
        init: format!("L{}", random.below(count)),
        edges: Vec::new(),
    };
    let outputs = model.channels.iter().any(|(_, input)| !input);
    for i in 0..count {
        if outputs && random.chance(60) {
            model.locations[i].1 = vec![deadline(random, &model)];
        }
    }
    for i in 0..count {
        let edges = edges(random, &model, i);
        model.edges.extend(edges);
    }
    if random.chance(LATE) {
        model.start_late(random);
    }
    match random.chance(DOUBLED) {
        true => model.with_parallel_edges(random),
        false => model,
    }
}

/// A bound of one clock from above, by either sign; the more clocks, the smaller, to keep the number of states small.
fn deadline(random: &mut Random, model: &Model) -> Comparison {
    let top = [0, 6, 3, 2][model.clocks.len()];
    let mut bound = Comparison { clock: random.pick(&model.clocks).clone(), sign: "<=", bound: random.between(0, top) };
    if random.chance(30) {
        bound.restate();
    }
    bound
}

/// The edges of one location: one for each input, and outputs, one or more, where it waits.
fn edges(random: &mut Random, model: &Model, location: usize) -> Vec<Edge> {
    let (inputs, mut outputs): (Vec<_>, Vec<_>) = model.channels.iter().cloned().partition(|(_, input)| *input);
    random.shuffle(&mut outputs);
    let mut edges: Vec<Edge> =
        inputs.into_iter().map(|(channel, _)| edge(random, model, location, channel, true)).collect();
    if let Some(deadline) = model.locations[location].1.first() {
        for (channel, _) in outputs.iter().take(random.between(1, 2)).cloned() {
            let mut output = edge(random, model, location, channel, false);
            output.guard = vec![at_the_end(random, deadline)];
            edges.push(output);
        }
    }
    edges
}

/// An edge without a guard to a random target.
fn edge(random: &mut Random, model: &Model, location: usize, channel: String, input: bool) -> Edge {
    let (target, invariant) = random.pick(&model.locations).clone();
    let source = model.locations[location].0.clone();
    let named = |clock: &String| invariant.iter().any(|comparison| comparison.clock == *clock);
    let reset = |clock: &&String| (target != source && named(clock)) || random.chance(25);
    let assignments = model.clocks.iter().filter(reset).map(Assignment::to_zero).collect();
    Edge { source, target, guard: Vec::new(), channel, input, assignments }
}

/// The time at which a deadline ends, by one of three signs.
fn at_the_end(random: &mut Random, deadline: &Comparison) -> Comparison {
    let last = if deadline.sign == "<" { deadline.bound - 1 } else { deadline.bound };
    let mut end = Comparison { clock: deadline.clock.clone(), sign: "==", bound: last };
    if random.chance(70) {
        end.sign = ">=";
        if random.chance(30) {
            end.restate();
        }
    }
    end
}
