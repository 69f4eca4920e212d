//! Two texts joined: their conjunction, written as a text (SPECIFICATION 18).

use crate::record::{Assignment, Comparison, Comparisons, Direction, Edge, Location, Record, Sign};
use crate::record::{CLOCK_LIMIT, COMPARISON_LIMIT, EDGE_LIMIT, LOCATION_LIMIT};
use crate::{moves, TEXT_LIMIT};

/// The joined text, or `None` where it passes a limit (code 25). `names` are the left's channels as it spells them, and
/// `partner` has for each of the left's steps the right's number.
pub fn text(left: &Record, right: &Record, partner: &[usize], names: &[&[u8]]) -> Option<Vec<u8>> {
    let joined = record(left, right, partner)?;
    if moves::state_count(&joined) > moves::STATE_LIMIT {
        return None;
    }
    let text = written(&joined, names);
    (text.len() <= TEXT_LIMIT).then_some(text)
}

/// The joined record, or `None` where it has too many items. Its own names are not in either text: they stay empty.
fn record(left: &Record, right: &Record, partner: &[usize]) -> Option<Record> {
    let (clocks, shift) = ([&left.clocks[..], &right.clocks].concat(), left.clocks.len());
    if clocks.len() > CLOCK_LIMIT || left.locations.len() * right.locations.len() > LOCATION_LIMIT {
        return None;
    }
    let pair = |a: usize, b: usize| a * right.locations.len() + b;
    let mut locations = Vec::new();
    for a in &left.locations {
        for b in &right.locations {
            locations.push(Location { name: a.name, invariant: both(&a.invariant, &b.invariant, shift)? });
        }
    }
    let mut edges = Vec::new();
    for a in &left.edges {
        for b in right.edges.iter().filter(|b| partner[a.label.channel()] == b.label.channel()) {
            if edges.len() == EDGE_LIMIT {
                return None;
            }
            let guard = both(&a.guard, &b.guard, shift)?;
            let assignments = std::array::from_fn(|k| {
                written_once(if k < shift { a.assignments[k] } else { b.assignments[k - shift] })
            });
            let (source, target) = (pair(a.source, b.source), pair(a.target, b.target));
            edges.push(Edge { source, target, label: a.label, guard, assignments });
        }
    }
    let init = pair(left.init, right.init);
    Some(Record { channels: left.channels.clone(), clocks, locations, init, edges, states: 0 })
}

/// What a joined text has of an assignment: the value alone, so that this is the largest one written (SPECIFICATION 18.5).
fn written_once(assignment: Option<Assignment>) -> Option<Assignment> {
    assignment.map(|Assignment { value, .. }| Assignment { value, largest: value })
}

/// The left's comparisons and then the right's, whose clocks come after the left's; `None` where they are too many.
fn both(left: &Comparisons, right: &Comparisons, shift: usize) -> Option<Comparisons> {
    let (left, right) = (left.as_slice(), right.as_slice());
    if left.len() + right.len() > COMPARISON_LIMIT {
        return None;
    }
    let mut both = Comparisons::none();
    left.iter().for_each(|comparison| both.push(*comparison));
    right.iter().for_each(|comparison| both.push(Comparison { clock: comparison.clock + shift, ..*comparison }));
    Some(both)
}

/// The least number of underscores with which no name that is written is a channel's.
fn underscores(record: &Record, names: &[&[u8]]) -> usize {
    let counts = [('p', 1), ('c', record.clocks.len()), ('l', record.locations.len())];
    let is_taken = |underscores: &usize| {
        let written = counts.iter().flat_map(|(letter, count)| (0..*count).map(move |i| (*letter, i)));
        let mut written = written.map(|(letter, i)| format!("{}{letter}{i}", "_".repeat(*underscores)));
        written.any(|name| names.contains(&name.as_bytes()))
    };
    (0..).find(|underscores| !is_taken(underscores)).expect("more underscores than channels are enough")
}

/// Tokens, each with a space after it.
struct Tokens {
    bytes: Vec<u8>,
    underscores: usize,
}

impl Tokens {
    fn put(&mut self, token: impl AsRef<[u8]>) {
        self.bytes.extend_from_slice(token.as_ref());
        self.bytes.push(b' ');
    }

    /// A number without a space after it. Most joined edges have one for each clock: no memory is taken for it.
    fn digits(&mut self, number: u16) {
        if number > 9 {
            self.digits(number / 10);
        }
        self.bytes.push(b'0' + (number % 10) as u8);
    }

    fn name(&mut self, letter: u8, number: usize) {
        self.bytes.extend(std::iter::repeat_n(b'_', self.underscores));
        self.bytes.push(letter);
        self.put(number.to_string());
    }

    /// Items with a token before them, one between two and one after them; nothing where there is no item.
    fn list<T>(&mut self, tokens: [&str; 3], items: &[T], mut item: impl FnMut(&mut Tokens, &T)) {
        let [before, between, after] = tokens;
        for (i, one) in items.iter().enumerate() {
            self.put(if i == 0 { before } else { between });
            item(self, one);
        }
        if !items.is_empty() {
            self.put(after);
        }
    }

    fn comparisons(&mut self, before: &str, comparisons: &Comparisons, after: &str) {
        self.list([before, "&&", after], comparisons.as_slice(), |tokens, comparison| {
            tokens.name(b'c', comparison.clock);
            tokens.put(spelled(comparison.sign));
            tokens.put(comparison.bound.to_string());
        });
    }

    fn edge(&mut self, edge: &Edge, name: &[u8], mark: &str) {
        self.name(b'l', edge.source);
        self.put("->");
        self.name(b'l', edge.target);
        self.put("{");
        self.comparisons("guard", &edge.guard, ";");
        self.put("sync");
        self.put(name);
        self.put(mark);
        self.put(";");
        let of_clock = |clock: usize| edge.assignments[clock].map(|assignment| (clock, assignment.value));
        let assigned: Vec<(usize, u16)> = (0..CLOCK_LIMIT).filter_map(of_clock).collect();
        self.list(["assign", ",", ";"], &assigned, |tokens, (clock, value)| {
            tokens.name(b'c', *clock);
            tokens.put("=");
            tokens.digits(*value);
            tokens.put("");
        });
        self.put("}");
    }
}

fn spelled(sign: Sign) -> &'static str {
    match sign {
        Sign::AtMost => "<=",
        Sign::AtLeast => ">=",
        Sign::Equal => "==",
        Sign::Less => "<",
        Sign::Greater => ">",
    }
}

/// One space between tokens, and a line feed in place of the last one.
fn written(record: &Record, names: &[&[u8]]) -> Vec<u8> {
    let mut tokens = Tokens { bytes: Vec::new(), underscores: underscores(record, names) };
    tokens.list(["broadcast chan", ",", ";"], names, |tokens, name| tokens.put(name));
    tokens.put("process");
    tokens.name(b'p', 0);
    tokens.put("( ) {");
    let clocks: Vec<usize> = (0..record.clocks.len()).collect();
    tokens.list(["clock", ",", ";"], &clocks, |tokens, clock| tokens.name(b'c', *clock));
    let mut number = 0;
    tokens.list(["state", ",", ";"], &record.locations, |tokens, location| {
        tokens.name(b'l', number);
        tokens.comparisons("{", &location.invariant, "}");
        number += 1;
    });
    tokens.put("init");
    tokens.name(b'l', record.init);
    tokens.put(";");
    tokens.list(["trans", ",", ";"], &record.edges, |tokens, edge| {
        let channel = edge.label.channel() - 1;
        let is_input = record.channels[channel].direction() == Direction::Input;
        tokens.edge(edge, names[channel], if is_input { "?" } else { "!" });
    });
    tokens.put("} system");
    tokens.name(b'p', 0);
    tokens.put(";");
    let mut bytes = tokens.bytes;
    bytes.pop();
    bytes.push(b'\n');
    bytes
}
