//! Random texts as models: what a text says, before it is written out as tokens.

use crate::random::Random;

#[derive(Clone, Debug, PartialEq)]
pub struct Comparison {
    pub clock: String,
    pub sign: &'static str,
    pub bound: usize,
}

/// A clock set to a number of ticks. Of several assignments of one clock in an edge the last one counts.
#[derive(Clone, Debug, PartialEq)]
pub struct Assignment {
    pub clock: String,
    pub value: usize,
}

#[derive(Clone, Debug, PartialEq)]
pub struct Edge {
    pub source: String,
    pub target: String,
    pub guard: Vec<Comparison>,
    pub channel: String,
    pub input: bool,
    pub assignments: Vec<Assignment>,
}

#[derive(Clone, Debug, PartialEq)]
pub struct Model {
    /// Name and whether it is an input.
    pub channels: Vec<(String, bool)>,
    pub process: String,
    pub clocks: Vec<String>,
    pub locations: Vec<(String, Vec<Comparison>)>,
    pub init: String,
    pub edges: Vec<Edge>,
}

/// Of a hundred random models, how many have clocks that start late, and how many have edges doubled.
const LATE: usize = 60;
const DOUBLED: usize = 35;

pub const SIGNS: [&str; 5] = ["<=", ">=", "==", "<", ">"];
pub const INVARIANT_SIGNS: [&str; 2] = ["<=", "<"];

impl Comparison {
    /// Says the same over whole ticks by the other sign, strict or not, where there is one.
    pub(crate) fn restate(&mut self) {
        (self.sign, self.bound) = match (self.sign, self.bound) {
            ("<=", bound) => ("<", bound + 1),
            (">=", bound) if bound > 0 => (">", bound - 1),
            ("<", bound) if bound > 0 => ("<=", bound - 1),
            (">", bound) => (">=", bound + 1),
            as_it_was => as_it_was,
        };
    }
}

impl Assignment {
    pub(crate) fn to_zero(clock: impl Into<String>) -> Assignment {
        Assignment { clock: clock.into(), value: 0 }
    }
}

impl Model {
    /// A random model of at most `locations` locations with small constants, whose inputs are complete
    /// and whose edges by one channel do not meet, but for parallel ones and a small share of others.
    pub fn random(random: &mut Random, locations: usize) -> Model {
        let count = random.below(5);
        let channels = (0..count).map(|i| (format!("c{i}"), random.chance(50))).collect();
        Model::with_channels(random, channels, locations)
    }

    /// The same over given channels.
    pub fn with_channels(random: &mut Random, channels: Vec<(String, bool)>, locations: usize) -> Model {
        let clocks = random.below(4);
        Model::with_clocks(random, channels, clocks, locations)
    }

    /// The same with so many clocks.
    pub fn with_clocks(random: &mut Random, channels: Vec<(String, bool)>, clocks: usize, locations: usize) -> Model {
        let clocks: Vec<String> = (0..clocks).map(|i| format!("x{i}")).collect();
        let count = random.between(1, locations);
        let mut model = Model {
            channels,
            process: "P".to_string(),
            clocks,
            locations: (0..count).map(|i| (format!("L{i}"), Vec::new())).collect(),
            init: format!("L{}", random.below(count)),
            edges: Vec::new(),
        };
        for i in 0..count {
            if random.chance(40) {
                model.locations[i].1 = model.invariant(random, 2);
            }
        }
        for i in 0..count {
            model.add_edges(random, i);
        }
        if random.chance(LATE) {
            model.start_late(random);
        }
        if random.chance(DOUBLED) {
            model.double_some(random);
        }
        model
    }

    /// The largest constant: the more clocks, the smaller, to keep the number of states small.
    pub(crate) fn top(&self) -> usize {
        [0, 6, 2, 1][self.clocks.len()]
    }

    pub(crate) fn comparisons(&self, random: &mut Random, most: usize, signs: &[&'static str]) -> Vec<Comparison> {
        if self.clocks.is_empty() {
            return Vec::new();
        }
        let count = random.between(1, most);
        let one = |random: &mut Random| Comparison {
            clock: random.pick(&self.clocks).clone(),
            sign: *random.pick(signs),
            bound: random.between(0, self.top()),
        };
        (0..count).map(|_| one(random)).collect()
    }

    /// Comparisons of an invariant: none has a 0 after `<` (SPECIFICATION 3.2).
    fn invariant(&self, random: &mut Random, most: usize) -> Vec<Comparison> {
        let mut invariant = self.comparisons(random, most, &INVARIANT_SIGNS);
        invariant.iter_mut().filter(|comparison| comparison.sign == "<").for_each(|c| c.bound = c.bound.max(1));
        invariant
    }

    fn add_edges(&mut self, random: &mut Random, location: usize) {
        for (channel, input) in self.channels.clone() {
            if !input && random.chance(40) {
                continue;
            }
            let mut guards = self.split(random);
            if !input {
                self.narrow(random, &mut guards);
            }
            for guard in guards {
                let edge = self.edge(random, location, &channel, input, guard);
                self.edges.push(edge);
            }
        }
    }

    /// Guards that cover all clock values without meeting: one without comparison, or two of one clock.
    fn split(&self, random: &mut Random) -> Vec<Vec<Comparison>> {
        if self.clocks.is_empty() || random.chance(60) {
            return vec![Vec::new()];
        }
        let (clock, bound) = (random.pick(&self.clocks).clone(), random.between(0, self.top() - 1));
        let mut below = Comparison { clock: clock.clone(), sign: "<=", bound };
        let mut above = Comparison { clock, sign: ">=", bound: bound + 1 };
        for comparison in [&mut below, &mut above] {
            if random.chance(50) {
                comparison.restate();
            }
        }
        vec![vec![below], vec![above]]
    }

    fn narrow(&self, random: &mut Random, guards: &mut Vec<Vec<Comparison>>) {
        for guard in guards.iter_mut() {
            if random.chance(50) {
                guard.extend(self.comparisons(random, 2, &SIGNS));
            }
        }
        if guards.len() > 1 && random.chance(30) {
            guards.pop();
        }
    }

    /// An edge to a random target; the clocks of the target's invariant are mostly set to 0, as are some others.
    fn edge(&self, random: &mut Random, location: usize, channel: &str, input: bool, guard: Vec<Comparison>) -> Edge {
        let (target, invariant) = random.pick(&self.locations).clone();
        let source = self.locations[location].0.clone();
        let needed = target != source && random.chance(if input { 94 } else { 50 });
        let named = |clock: &String| invariant.iter().any(|comparison| comparison.clock == *clock);
        let reset = |clock: &&String| (needed && named(clock)) || random.chance(25);
        let mut assignments: Vec<Assignment> = self.clocks.iter().filter(reset).map(Assignment::to_zero).collect();
        random.shuffle(&mut assignments);
        Edge { source, target, guard, channel: channel.to_string(), input, assignments }
    }

    /// A model near this one: a constant, an edge, an invariant or an assignment differs, an edge is doubled, or only
    /// the order or the signs differ.
    pub fn varied(&self, random: &mut Random) -> Model {
        let mut model = self.clone();
        for _ in 0..random.between(1, 4) {
            model.vary(random);
        }
        if random.chance(30) {
            random.shuffle(&mut model.channels);
        }
        if random.chance(20) {
            random.shuffle(&mut model.locations);
        }
        if random.chance(20) {
            random.shuffle(&mut model.edges);
        }
        model
    }

    fn vary(&mut self, random: &mut Random) {
        let clocks = self.clocks.clone();
        match random.below(9) {
            0 => self.edges.retain(|edge| edge.input || random.chance(70)),
            1 if !self.edges.is_empty() => {
                let index = random.below(self.edges.len());
                let most = if random.chance(30) { self.top() } else { 0 };
                let clocks: Vec<String> = clocks.into_iter().filter(|_| random.chance(40)).collect();
                let assigned = clocks.into_iter().map(|clock| Assignment { clock, value: random.between(0, most) });
                self.edges[index].assignments = assigned.collect();
            }
            2 if !self.edges.is_empty() => {
                let extra = self.comparisons(random, 1, &SIGNS);
                let index = random.below(self.edges.len());
                if !self.edges[index].input && self.edges[index].guard.len() < 4 {
                    self.edges[index].guard.extend(extra);
                }
            }
            3 => {
                let invariant = self.invariant(random, 1);
                let index = random.below(self.locations.len());
                self.locations[index].1 = invariant;
            }
            4 => {
                let index = random.below(self.locations.len());
                self.locations[index].1.clear();
            }
            5 => self.restate_some(random),
            6 => self.double_some(random),
            7 => self.vary_value(random),
            _ => self.vary_output(random),
        }
    }

    /// Comparisons by the other sign, with the same meaning.
    fn restate_some(&mut self, random: &mut Random) {
        let guards = self.edges.iter_mut().map(|edge| &mut edge.guard);
        let lists = guards.chain(self.locations.iter_mut().map(|location| &mut location.1));
        lists.flatten().filter(|_| random.chance(40)).for_each(Comparison::restate);
    }

    /// Drops the guard of an output, or sends it elsewhere.
    fn vary_output(&mut self, random: &mut Random) {
        let target = random.pick(&self.locations).0.clone();
        let outputs: Vec<usize> = (0..self.edges.len()).filter(|i| !self.edges[*i].input).collect();
        if outputs.is_empty() {
            return;
        }
        let edge = &mut self.edges[*random.pick(&outputs)];
        if random.chance(50) {
            edge.guard.clear();
        } else {
            edge.target = target;
        }
    }

    /// A model whose channels differ from this one's in a name, a direction or their number.
    pub fn with_other_channels(&self, random: &mut Random) -> Model {
        let mut channels = self.channels.clone();
        match random.below(4) {
            0 => channels.push(("extra".to_string(), random.chance(50))),
            1 if !channels.is_empty() => {
                let index = random.below(channels.len());
                channels[index].1 = !channels[index].1;
            }
            2 if !channels.is_empty() => {
                let index = random.below(channels.len());
                channels[index].0 = "other".to_string();
            }
            _ => {
                channels.pop();
            }
        }
        random.shuffle(&mut channels);
        Model::with_channels(random, channels, 3)
    }

    /// The tokens of the text.
    pub fn tokens(&self) -> Vec<String> {
        let mut tokens = Vec::new();
        let mut put = |words: &str| tokens.extend(words.split_whitespace().map(str::to_string));
        let channels: Vec<String> = self.channels.iter().map(|channel| channel.0.clone()).collect();
        put(&optional("broadcast chan", &channels, " , ", ";"));
        put(&format!("process {} ( ) {{", self.process));
        put(&optional("clock", &self.clocks, " , ", ";"));
        let locations: Vec<String> = self.locations.iter().map(location_words).collect();
        put(&format!("state {} ; init {} ;", locations.join(" , "), self.init));
        let edges: Vec<String> = self.edges.iter().map(Edge::words).collect();
        put(&optional("trans", &edges, " , ", ";"));
        put(&format!("}} system {} ;", self.process));
        tokens
    }

    /// The text with white space at random.
    pub fn text(&self, random: &mut Random) -> Vec<u8> {
        join(&self.tokens(), random)
    }
}

impl Edge {
    fn words(&self) -> String {
        let guard = optional("guard", &self.guard.iter().map(comparison_words).collect::<Vec<_>>(), " && ", ";");
        let assigned = self.assignments.iter().map(|Assignment { clock, value }| format!("{clock} = {value}"));
        let assign = optional("assign", &assigned.collect::<Vec<_>>(), " , ", ";");
        let mark = if self.input { "?" } else { "!" };
        format!("{} -> {} {{ {guard} sync {} {mark} ; {assign} }}", self.source, self.target, self.channel)
    }
}

fn comparison_words(comparison: &Comparison) -> String {
    format!("{} {} {}", comparison.clock, comparison.sign, comparison.bound)
}

fn location_words(location: &(String, Vec<Comparison>)) -> String {
    let invariant: Vec<String> = location.1.iter().map(comparison_words).collect();
    format!("{} {}", location.0, optional("{", &invariant, " && ", "}"))
}

/// A list with what stands before and after it, or nothing where the list is empty.
fn optional(before: &str, items: &[String], between: &str, after: &str) -> String {
    match items.is_empty() {
        true => String::new(),
        false => format!("{before} {} {after}", items.join(between)),
    }
}

/// Writes tokens one after another, with white space where it is needed and elsewhere at random.
pub fn join(tokens: &[String], random: &mut Random) -> Vec<u8> {
    let spacious = random.chance(50);
    let mut text: Vec<u8> = Vec::new();
    for token in tokens {
        let joins = |byte: &u8| byte.is_ascii_alphanumeric() || *byte == b'_';
        let needed = text.last().is_some_and(joins) && token.as_bytes().first().is_some_and(joins);
        if needed || random.chance(if spacious { 60 } else { 5 }) {
            text.extend_from_slice(random.pick(&[" ", "\n", "\t", "\r\n", "  "]).as_bytes());
        }
        text.extend_from_slice(token.as_bytes());
    }
    if random.chance(50) {
        text.push(b'\n');
    }
    text
}
