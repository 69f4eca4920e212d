//! Pairs of texts by kind, of any size, number of clocks and number of channels: what stays of their
//! widest table, and in which order the rest of it goes, differs from kind to kind.
//!
//! Every pair is accepted, has equal channels and a left start that is safe. `texts` says how the
//! sizes are met.

use crate::model::{Assignment, Comparison, Edge, Model};

#[derive(Clone, Copy, Debug, PartialEq, Eq)]
pub enum Kind {
    /// Every state makes every step: all pairs stay.
    Full,
    /// Alerts with deadlines, the left's window inside the right's: a part of the pairs stays.
    Late,
    /// The same text twice, with times that tell most states apart: about a diagonal stays.
    Same,
    /// Locations in a row, each leading to the one declared before it: pairs go location by location,
    /// from the first declared to the last, until none is left.
    Chain,
    /// Locations in a ring, and each round moves the right two locations on: the pairs of every second
    /// offset go, one offset a round.
    Loop,
    /// A ring whose locations lie low and high by turns: pairs go location by location, up and down by
    /// turns, round after round, until none is left.
    Zigzag,
}

pub const KINDS: [Kind; 6] = [Kind::Full, Kind::Late, Kind::Same, Kind::Chain, Kind::Loop, Kind::Zigzag];

/// Channels of a pair where nothing else is asked for, so nine steps.
pub const CHANNELS: usize = 8;

/// Limits of SPECIFICATION 4.3; one edge is kept for the sizes.
const STATE_LIMIT: usize = 4_096;
const VALUE_LIMIT: usize = 1_002;
const EDGE_LIMIT: usize = 127;

impl Kind {
    pub fn name(self) -> &'static str {
        match self {
            Kind::Full => "full",
            Kind::Late => "late",
            Kind::Same => "same",
            Kind::Chain => "chain",
            Kind::Loop => "loop",
            Kind::Zigzag => "zigzag",
        }
    }

    pub fn named(name: &str) -> Option<Kind> {
        KINDS.into_iter().find(|kind| kind.name() == name)
    }

    /// Whether the start pair goes, so that the left departs from the right.
    pub fn departs(self) -> bool {
        matches!(self, Kind::Chain | Kind::Zigzag)
    }

    /// The numbers of locations that suit a kind, the best first.
    fn locations(self) -> &'static [usize] {
        match self {
            Kind::Full | Kind::Late | Kind::Same => &[8, 4, 2, 1],
            Kind::Chain | Kind::Loop => &[16, 8, 4, 2],
            Kind::Zigzag => &[30, 20, 10, 5, 2],
        }
    }

    /// Whether a location has an edge for every channel.
    fn all_channels(self) -> bool {
        matches!(self, Kind::Full | Kind::Late | Kind::Same)
    }
}

/// Left and right of a kind with about `states` states each, never more unless `states` is under the
/// least that so many clocks allow; `clocks` is 1 to 3, `channels` 2 to 16.
///
/// The first number of locations that suits the kind and comes within a tenth of the states is taken,
/// else the one that comes nearest.
pub fn texts(kind: Kind, states: usize, clocks: usize, channels: usize) -> (Vec<u8>, Vec<u8>) {
    let (left, right) = drafts(kind, &Size::of(kind, states, clocks, channels));
    (left.text(), right.text())
}

/// The same with a departure, `channels` 3 to 16: the last channel is an output that the left makes in the
/// last location, from half of the first clock's time on, and the right never.
pub fn departing(kind: Kind, states: usize, clocks: usize, channels: usize) -> (Vec<u8>, Vec<u8>) {
    let size = Size::of(kind, states, clocks, channels - 1);
    let (mut left, mut right) = drafts(kind, &size);
    for draft in [&mut left, &mut right] {
        draft.model.channels.push((channel_name(channels - 1), false));
    }
    let last = size.locations - 1;
    left.edge(last, last, &[(0, ">=", size.top(0) / 2)], channels - 1, &[]);
    (left.text(), right.text())
}

fn drafts(kind: Kind, size: &Size) -> (Draft, Draft) {
    match kind {
        Kind::Full => (full(size, 1, 0), full(size, 3, 1)),
        Kind::Late => late(size),
        Kind::Same => (same(size), same(size)),
        Kind::Chain => chain(size),
        Kind::Loop => round(size, &Ring::rising(size.locations)),
        Kind::Zigzag => round(size, &Ring::zigzag(size)),
    }
}

/// How many locations, values of each clock and channels a text has.
struct Size {
    locations: usize,
    values: Vec<usize>,
    channels: usize,
}

impl Size {
    fn of(kind: Kind, states: usize, clocks: usize, channels: usize) -> Size {
        assert!((1..=3).contains(&clocks) && (2..=16).contains(&channels), "clocks 1 to 3, channels 2 to 16");
        let states = states.min(STATE_LIMIT);
        let least = Size { locations: 1, values: vec![2; clocks], channels };
        let fits = |locations: &&usize| !kind.all_channels() || **locations * channels <= EDGE_LIMIT;
        let sizes =
            kind.locations().iter().filter(fits).map(|locations| Size::near(states, *locations, clocks, channels));
        let mut sizes: Vec<Size> = sizes.filter(|size| size.states() <= states).collect();
        match sizes.iter().position(|size| size.states() * 10 >= states * 9) {
            Some(first) => sizes.swap_remove(first),
            None => sizes.into_iter().max_by_key(Size::states).unwrap_or(least),
        }
    }

    /// So many locations, and values that come nearest to so many states: all clocks but the last have
    /// equally many.
    fn near(states: usize, locations: usize, clocks: usize, channels: usize) -> Size {
        let volume = states / locations;
        let most = (2..).take_while(|value: &usize| value.pow(clocks as u32) <= volume).last().unwrap_or(2);
        let with = |first: usize| {
            let last = volume / first.pow(clocks as u32 - 1);
            let mut values = vec![first; clocks];
            values[clocks - 1] = last.clamp(2, VALUE_LIMIT);
            Size { locations, values, channels }
        };
        (most.div_ceil(2).max(2)..=most).map(with).max_by_key(Size::states).expect("a size")
    }

    fn states(&self) -> usize {
        self.locations * self.values.iter().product::<usize>()
    }

    fn clocks(&self) -> usize {
        self.values.len()
    }

    /// The largest constant of a clock.
    fn top(&self, clock: usize) -> usize {
        self.values[clock] - 2
    }

    /// A text without edges but the one that makes the clocks have their values.
    fn draft(&self) -> Draft {
        let model = Model {
            channels: (0..self.channels).map(|channel| (channel_name(channel), false)).collect(),
            process: "P".to_string(),
            clocks: (0..self.clocks()).map(clock_name).collect(),
            locations: (0..self.locations).map(|location| (location_name(location), Vec::new())).collect(),
            init: location_name(0),
            edges: Vec::new(),
        };
        let mut draft = Draft { model, inputs: 0 };
        let largest = (0..self.clocks()).max_by_key(|clock| self.top(*clock)).expect("a clock");
        if self.top(largest) > 0 {
            // No clock value is both at least 1 and at most 0: the edge never happens.
            let mut guard: Vec<Bound> = (0..self.clocks()).map(|clock| (clock, ">=", self.top(clock))).collect();
            guard.push((largest, "<=", 0));
            draft.edge(0, 0, &guard, self.channels - 1, &[]);
        }
        draft
    }
}

/// Clock, sign and constant of a comparison.
type Bound = (usize, &'static str, usize);

/// A text that is being written; the first `inputs` channels are inputs.
struct Draft {
    model: Model,
    inputs: usize,
}

impl Draft {
    fn edge(&mut self, from: usize, to: usize, guard: &[Bound], channel: usize, resets: &[usize]) {
        self.model.edges.push(Edge {
            source: location_name(from),
            target: location_name(to),
            guard: comparisons(guard),
            channel: channel_name(channel),
            input: channel < self.inputs,
            assignments: resets.iter().map(|clock| Assignment::to_zero(clock_name(*clock))).collect(),
        });
    }

    fn invariant(&mut self, location: usize, bounds: &[Bound]) {
        self.model.locations[location].1 = comparisons(bounds);
    }

    /// The text with one edge a line.
    fn text(&self) -> Vec<u8> {
        let text = self.model.tokens().join(" ") + "\n";
        text.replace(" ; process ", " ;\nprocess ")
            .replace("} , ", "} ,\n")
            .replace(" ; trans ", " ;\ntrans\n")
            .into_bytes()
    }
}

fn comparisons(bounds: &[Bound]) -> Vec<Comparison> {
    bounds.iter().map(|(clock, sign, bound)| Comparison { clock: clock_name(*clock), sign, bound: *bound }).collect()
}

fn channel_name(channel: usize) -> String {
    format!("c{}", channel + 1)
}

fn clock_name(clock: usize) -> String {
    ["x", "y", "z"][clock].to_string()
}

fn location_name(location: usize) -> String {
    format!("L{location}")
}

/// Every location makes every channel at any time. Channel c leads `stride` × c + `more` locations on, and
/// every third channel sets a clock to 0: left and right drift apart, so that all pairs are reached.
fn full(size: &Size, stride: usize, more: usize) -> Draft {
    let mut draft = size.draft();
    draft.inputs = size.channels / 2;
    for location in 0..size.locations {
        for channel in 0..size.channels {
            let target = (location + stride * channel + more) % size.locations;
            let resets = if channel % 3 == more { vec![channel / 3 % size.clocks()] } else { Vec::new() };
            draft.edge(location, target, &[], channel, &resets);
        }
    }
    draft
}

/// From when on an alert may come, and until when it has to, in quarters of a clock's largest constant.
struct Window {
    from: usize,
    until: usize,
}

fn late(size: &Size) -> (Draft, Draft) {
    (late_text(size, &Window { from: 2, until: 3 }, true), late_text(size, &Window { from: 1, until: 4 }, false))
}

/// Every second location waits, the others are at rest. A waiting one leads on by an alert within the
/// window or by an input; the odd inputs set another clock than that of the deadline to 0. Other outputs
/// come at any time, or, where they are `timed`, from a time on.
fn late_text(size: &Size, window: &Window, timed: bool) -> Draft {
    let mut draft = size.draft();
    draft.inputs = size.channels / 2;
    for location in 0..size.locations {
        let clock = deadline(size, location);
        let (from, until) = (size.top(clock) * window.from / 4, size.top(clock) * window.until / 4);
        let next = (location + 1) % size.locations;
        let entered = if waits(next) { vec![deadline(size, next)] } else { Vec::new() };
        if waits(location) {
            draft.invariant(location, &[(clock, "<=", until)]);
            draft.edge(location, next, &[(clock, ">=", from)], draft.inputs, &entered);
        }
        for channel in 0..draft.inputs {
            let other: Vec<usize> = (0..size.clocks()).filter(|other| *other != clock).take(1).collect();
            match channel % 2 {
                0 => draft.edge(location, next, &[], channel, &entered),
                _ => draft.edge(location, location, &[], channel, &other),
            }
        }
        for channel in draft.inputs + 1..size.channels {
            let time = size.top(clock) * (channel - draft.inputs) / size.channels;
            let guard = if timed { vec![(clock, ">=", time)] } else { Vec::new() };
            draft.edge(location, location, &guard, channel, &[]);
        }
    }
    draft
}

fn waits(location: usize) -> bool {
    location % 2 == 0
}

/// The clock of a waiting location's deadline.
fn deadline(size: &Size, location: usize) -> usize {
    location / 2 % size.clocks()
}

/// Each clock, as far as there are outputs, is at most a time of its location's own, comes back to 0 by
/// an output at that very time, and shows in further outputs at single times.
fn same(size: &Size) -> Draft {
    let mut draft = size.draft();
    draft.inputs = (size.channels / 4).max(1);
    let forced = size.clocks().min(size.channels - draft.inputs);
    let all: Vec<usize> = (0..size.clocks()).collect();
    for location in 0..size.locations {
        let times: Vec<usize> = (0..size.clocks()).map(|clock| own_time(size, location, clock)).collect();
        let bounds: Vec<Bound> = (0..forced).map(|clock| (clock, "<=", times[clock])).collect();
        draft.invariant(location, &bounds);
        for channel in 0..draft.inputs {
            match channel % 2 {
                0 => draft.edge(location, (location + 1) % size.locations, &[], channel, &all),
                _ => draft.edge(location, location, &[], channel, &[channel / 2 % size.clocks()]),
            }
        }
        for (clock, time) in times.iter().enumerate().take(forced) {
            draft.edge(location, location, &[(clock, "==", *time)], draft.inputs + clock, &[clock]);
        }
        for channel in draft.inputs + forced..size.channels {
            let clock = channel % size.clocks();
            let time = (location + 7 * channel) % (times[clock] + 1);
            draft.edge(location, location, &[(clock, "==", time)], channel, &[]);
        }
    }
    draft
}

/// A time for each location and clock, so that as many locations as possible differ.
fn own_time(size: &Size, location: usize, clock: usize) -> usize {
    let choices = |clock: usize| size.top(clock) / 2 + 1;
    let before: usize = (0..clock).map(choices).product();
    size.top(clock) - location / before % choices(clock)
}

/// Each location leads to the one before it, and the last is the initial one; in the first one the left makes
/// an output that the right does not. Further outputs, as many as the edges allow, are made everywhere.
fn chain(size: &Size) -> (Draft, Draft) {
    const DOWN: usize = 0;
    const LAST: usize = 1;
    let text = |even: bool| {
        let mut draft = size.draft();
        draft.model.init = location_name(size.locations - 1);
        for location in 0..size.locations {
            draft.edge(location, location.saturating_sub(1), &[], DOWN, &[]);
        }
        further(&mut draft, size, 2, 2, even);
        draft
    };
    let (mut left, right) = (text(true), text(false));
    left.edge(0, 0, &[], LAST, &[]);
    (left, right)
}

/// Outputs from channel `first` on that every location makes at any time, where `used` edges a location
/// are used elsewhere; every second one, the even ones or the odd ones, sets a clock to 0.
fn further(draft: &mut Draft, size: &Size, first: usize, used: usize, even: bool) {
    let most = (EDGE_LIMIT / size.locations).saturating_sub(used);
    for channel in (first..size.channels).take(most) {
        let clock = channel % size.clocks();
        let resets = if (channel % 2 == 0) == even { vec![clock] } else { Vec::new() };
        for location in 0..size.locations {
            draft.edge(location, location, &[], channel, &resets);
        }
    }
}

/// In which order a ring goes through the locations, and what a round does.
struct Ring {
    /// The location at each place of the ring.
    order: Vec<usize>,
    /// How many places the right moves on, over the left, in a round.
    shift: usize,
    /// Where the right does not end a round.
    refused: usize,
    /// The left at a place makes the output that belongs to its remainder by this number, and so does
    /// the right; 1 for no such outputs.
    marks: usize,
}

impl Ring {
    fn rising(locations: usize) -> Ring {
        Ring { order: (0..locations).collect(), shift: 2, refused: 0, marks: 1 }
    }

    /// Low and high locations by turns. Only offsets that are multiples of the shift have the marks
    /// right, and the start's offset is the last of them to go.
    fn zigzag(size: &Size) -> Ring {
        let locations = size.locations;
        let order =
            (0..locations).map(|place| if place % 2 == 0 { place / 2 } else { locations - 1 - place / 2 }).collect();
        let marks = [5, 2].into_iter().find(|marks| locations % marks == 0 && marks + 2 <= size.channels).unwrap_or(1);
        Ring { order, shift: marks, refused: (2 * locations - marks - 1) % locations, marks }
    }

    fn at(&self, place: usize) -> usize {
        self.order[place % self.order.len()]
    }
}

/// A round of the left goes through the ring once. The right follows, but at the end of a round it moves
/// on further, and at one place it does not end a round.
fn round(size: &Size, ring: &Ring) -> (Draft, Draft) {
    const NEXT: usize = 0;
    const ROUND: usize = 1;
    let (mut left, mut right) = (size.draft(), size.draft());
    let last = size.locations - 1;
    for place in 0..size.locations {
        let channel = if place == last { ROUND } else { NEXT };
        left.edge(ring.at(place), ring.at(place + 1), &[], channel, &[]);
        right.edge(ring.at(place), ring.at(place + 1), &[], NEXT, &[0]);
        if place != ring.refused {
            right.edge(ring.at(place), ring.at(place + 1 + ring.shift), &[], ROUND, &[]);
        }
        if ring.marks > 1 {
            for draft in [&mut left, &mut right] {
                draft.edge(ring.at(place), ring.at(place), &[], 2 + place % ring.marks, &[]);
            }
        }
    }
    let marks = if ring.marks > 1 { ring.marks } else { 0 };
    for (draft, even) in [(&mut left, true), (&mut right, false)] {
        further(draft, size, 2 + marks, 2 + marks.min(1), even);
    }
    (left, right)
}
