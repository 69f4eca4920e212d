//! What reading a text gives: its channels, clocks, locations, edges and the number of states.

/// Numbers in a record that is written out by `Record::write`.
pub const RECORD_ENTRIES: usize = 3_868;

pub const CHANNEL_LIMIT: usize = 16;
pub const CLOCK_LIMIT: usize = 3;
pub const LOCATION_LIMIT: usize = 32;
pub const EDGE_LIMIT: usize = 128;
pub const COMPARISON_LIMIT: usize = 4;

/// A refusal of one text, before the file mark is known.
#[derive(Clone, Copy, Debug, PartialEq, Eq)]
pub struct Fault {
    pub code: usize,
    pub p: usize,
    pub q: usize,
}

/// A declared name: byte place and length of its declaration.
#[derive(Clone, Copy, Debug, PartialEq, Eq)]
pub struct Name {
    pub place: usize,
    pub length: usize,
}

impl Name {
    pub fn spelling<'a>(&self, text: &'a [u8]) -> &'a [u8] {
        &text[self.place..self.place + self.length]
    }
}

#[derive(Clone, Copy, Debug, PartialEq, Eq)]
pub enum Direction {
    Input,
    Output,
}

/// A channel; one that no edge names has no direction of its own and counts as an output.
#[derive(Clone, Copy, Debug, PartialEq, Eq)]
pub struct Channel {
    pub name: Name,
    pub used: Option<Direction>,
}

impl Channel {
    pub fn direction(&self) -> Direction {
        self.used.unwrap_or(Direction::Output)
    }
}

/// In the order of their numbers (SPECIFICATION 15.2): `<=`, `>=`, `==`, `<`, `>`.
#[derive(Clone, Copy, Debug, PartialEq, Eq)]
pub enum Sign {
    AtMost,
    AtLeast,
    Equal,
    Less,
    Greater,
}

#[derive(Clone, Copy, Debug, PartialEq, Eq)]
pub struct Comparison {
    pub clock: usize,
    pub sign: Sign,
    pub bound: usize,
}

/// At most four comparisons, joined by "and".
#[derive(Clone, Copy, Debug, PartialEq, Eq)]
pub struct Comparisons {
    items: [Comparison; COMPARISON_LIMIT],
    length: usize,
}

impl Comparisons {
    pub fn none() -> Comparisons {
        let filling = Comparison { clock: 0, sign: Sign::AtMost, bound: 0 };
        Comparisons { items: [filling; COMPARISON_LIMIT], length: 0 }
    }

    pub fn push(&mut self, comparison: Comparison) {
        self.items[self.length] = comparison;
        self.length += 1;
    }

    pub fn as_slice(&self) -> &[Comparison] {
        &self.items[..self.length]
    }
}

#[derive(Clone, Copy, Debug, PartialEq, Eq)]
pub struct Location {
    pub name: Name,
    pub invariant: Comparisons,
}

/// The label of an edge with its channel's number, counted from 1.
#[derive(Clone, Copy, Debug, PartialEq, Eq)]
pub enum Label {
    Input(usize),
    Output(usize),
}

impl Label {
    pub fn channel(&self) -> usize {
        match *self {
            Label::Input(channel) | Label::Output(channel) => channel,
        }
    }
}

/// What an edge sets a clock to, in ticks: the value of the last assignment, and the largest one that is written
/// (SPECIFICATION 5.4). Both are in as few bytes as the limit of constants allows: edges are copied.
#[derive(Clone, Copy, Debug, PartialEq, Eq)]
pub struct Assignment {
    pub value: u16,
    pub largest: u16,
}

/// An edge; a clock that it does not assign has no assignment.
#[derive(Clone, Copy, Debug, PartialEq, Eq)]
pub struct Edge {
    pub source: usize,
    pub target: usize,
    pub label: Label,
    pub guard: Comparisons,
    pub assignments: [Option<Assignment>; CLOCK_LIMIT],
}

#[derive(Clone, Debug, PartialEq, Eq)]
pub struct Record {
    pub channels: Vec<Channel>,
    pub clocks: Vec<Name>,
    pub locations: Vec<Location>,
    pub init: usize,
    pub edges: Vec<Edge>,
    pub states: usize,
}

impl Record {
    /// How many values each clock has: the largest constant it is compared with or assigned, plus 2.
    pub fn values(&self) -> [usize; CLOCK_LIMIT] {
        let mut values = [1; CLOCK_LIMIT];
        values[..self.clocks.len()].fill(2);
        let invariants = self.locations.iter().map(|location| &location.invariant);
        let guards = self.edges.iter().map(|edge| &edge.guard);
        for comparisons in invariants.chain(guards) {
            for comparison in comparisons.as_slice() {
                let value = &mut values[comparison.clock];
                *value = (*value).max(comparison.bound + 2);
            }
        }
        for edge in &self.edges {
            for (value, assignment) in values.iter_mut().zip(&edge.assignments) {
                *value = assignment.map_or(*value, |assignment| (*value).max(usize::from(assignment.largest) + 2));
            }
        }
        values
    }

    /// Writes the record as numbers, as far as `out` goes; slots without an item keep what they held.
    pub fn write(&self, out: &mut [usize]) {
        let length = out.len().min(RECORD_ENTRIES);
        let mut sheet = Sheet { out: &mut out[..length] };
        let counts = [self.channels.len(), self.clocks.len(), self.locations.len()];
        sheet.put(0, &counts);
        sheet.put(3, &[self.init, self.edges.len(), self.states]);
        for (i, channel) in self.channels.iter().enumerate() {
            let used = channel.used.map_or(0, |direction| direction as usize + 1);
            sheet.put(6 + 3 * i, &[channel.name.place, channel.name.length, used]);
        }
        for (i, clock) in self.clocks.iter().enumerate() {
            sheet.put(54 + 2 * i, &[clock.place, clock.length]);
        }
        for (i, location) in self.locations.iter().enumerate() {
            sheet.put(60 + 15 * i, &[location.name.place, location.name.length]);
            sheet.put_comparisons(62 + 15 * i, &location.invariant);
        }
        for (i, edge) in self.edges.iter().enumerate() {
            sheet.put_edge(540 + 26 * i, edge);
        }
    }
}

/// A record being written; whatever lies past the end of the slice is left out.
struct Sheet<'a> {
    out: &'a mut [usize],
}

impl Sheet<'_> {
    fn put(&mut self, place: usize, numbers: &[usize]) {
        if place < self.out.len() {
            let length = numbers.len().min(self.out.len() - place);
            self.out[place..place + length].copy_from_slice(&numbers[..length]);
        }
    }

    /// The number of comparisons, then clock, sign and bound of each.
    fn put_comparisons(&mut self, place: usize, comparisons: &Comparisons) {
        self.put(place, &[comparisons.length]);
        for (i, c) in comparisons.as_slice().iter().enumerate() {
            self.put(place + 1 + 3 * i, &[c.clock, c.sign as usize, c.bound]);
        }
    }

    fn put_edge(&mut self, place: usize, edge: &Edge) {
        let (mark, channel) = match edge.label {
            Label::Input(channel) => (1, channel),
            Label::Output(channel) => (2, channel),
        };
        self.put(place, &[edge.source, edge.target, mark, channel]);
        self.put_comparisons(place + 4, &edge.guard);
        for (clock, assignment) in edge.assignments.iter().enumerate() {
            let numbers = assignment.map_or([0; 3], |assignment| [1, assignment.value, assignment.largest]);
            self.put(place + 17 + 3 * clock, &numbers.map(usize::from));
        }
    }
}
