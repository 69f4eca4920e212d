//! The reader: one pass over the tokens from left to right, codes 2 to 8.
//!
//! Every fault is judged when its token is read, so the first one found has the lowest place;
//! where several fit one token, the tests stand in the order of the codes. Code 8 is judged
//! once the mark is read; nothing between the channel's name and the mark can be refused.

use crate::codes;
use crate::record::*;
use crate::token::{Kind, Token, Tokens};
use crate::TICK_LIMIT;

const NAME_LIMIT: usize = 31;
/// In ticks.
const CONSTANT_LIMIT: usize = 1_000;
/// No tick length in range brings a numeral of this value down to the limit.
const ALWAYS_TOO_LARGE: usize = (CONSTANT_LIMIT + 1) * TICK_LIMIT;

type Read<T> = Result<T, Fault>;

/// Reads a text at a tick length that is in range; the record's state count is left 0.
pub fn read(tick_length: usize, text: &[u8]) -> Read<Record> {
    let mut reader = Reader::new(tick_length, text);
    reader.channels()?;
    let process = reader.process()?;
    reader.clocks(process)?;
    reader.locations(process)?;
    reader.init()?;
    reader.edges()?;
    reader.system(process)?;
    Ok(reader.record)
}

struct Reader<'a> {
    tick_length: usize,
    text: &'a [u8],
    tokens: Tokens<'a>,
    token: Token,
    record: Record,
}

fn fault<T>(code: usize, place: usize) -> Read<T> {
    Err(Fault { code, p: place, q: 0 })
}

impl<'a> Reader<'a> {
    fn new(tick_length: usize, text: &'a [u8]) -> Reader<'a> {
        let mut tokens = Tokens::new(text);
        let token = tokens.next();
        let record = Record {
            channels: Vec::with_capacity(CHANNEL_LIMIT),
            clocks: Vec::with_capacity(CLOCK_LIMIT),
            locations: Vec::with_capacity(LOCATION_LIMIT),
            init: 0,
            edges: Vec::with_capacity(EDGE_LIMIT),
            states: 0,
        };
        Reader { tick_length, text, tokens, token, record }
    }

    fn at(&self, kind: Kind) -> bool {
        self.token.kind == kind
    }

    /// Code 2 at the token that stands where another was wanted.
    fn misfit<T>(&self) -> Read<T> {
        fault(codes::MISFIT, self.token.start)
    }

    fn advance(&mut self) -> Token {
        std::mem::replace(&mut self.token, self.tokens.next())
    }

    fn expect(&mut self, kind: Kind) -> Read<Token> {
        if !self.at(kind) {
            return self.misfit();
        }
        Ok(self.advance())
    }

    fn expect_all(&mut self, kinds: &[Kind]) -> Read<()> {
        kinds.iter().try_for_each(|kind| self.expect(*kind).map(|_| ()))
    }

    /// Takes the token if it is of this kind.
    fn take(&mut self, kind: Kind) -> bool {
        let here = self.at(kind);
        if here {
            self.advance();
        }
        here
    }

    /// A name that fits: codes 2 and 3.
    fn name(&mut self) -> Read<Name> {
        let token = self.expect(Kind::Name)?;
        let name = Name { place: token.start, length: token.end - token.start };
        if name.length > NAME_LIMIT {
            return fault(codes::NAME_TOO_LONG, name.place);
        }
        Ok(name)
    }

    fn same(&self, a: Name, b: Name) -> bool {
        a.length == b.length && a.spelling(self.text) == b.spelling(self.text)
    }

    /// A name being declared: codes 2, 3, 4 and 7, where `full` says that its list is full.
    fn declaration(&mut self, process: Option<Name>, full: bool) -> Read<Name> {
        let name = self.name()?;
        let record = &self.record;
        let declared = record.channels.iter().any(|channel| self.same(channel.name, name))
            || process.is_some_and(|process| self.same(process, name))
            || record.clocks.iter().any(|clock| self.same(*clock, name))
            || record.locations.iter().any(|location| self.same(location.name, name));
        if declared {
            return fault(codes::DECLARED_BEFORE, name.place);
        }
        if full {
            return fault(codes::TOO_MANY_ITEMS, name.place);
        }
        Ok(name)
    }

    fn channels(&mut self) -> Read<()> {
        if !self.take(Kind::Broadcast) {
            return Ok(());
        }
        self.expect(Kind::Chan)?;
        loop {
            let full = self.record.channels.len() == CHANNEL_LIMIT;
            let name = self.declaration(None, full)?;
            self.record.channels.push(Channel { name, used: None });
            if !self.take(Kind::Comma) {
                return self.expect(Kind::Semicolon).map(|_| ());
            }
        }
    }

    fn process(&mut self) -> Read<Name> {
        self.expect(Kind::Process)?;
        let process = self.declaration(None, false)?;
        self.expect_all(&[Kind::OpenRound, Kind::CloseRound, Kind::Open])?;
        Ok(process)
    }

    fn clocks(&mut self, process: Name) -> Read<()> {
        if !self.take(Kind::Clock) {
            return Ok(());
        }
        loop {
            let full = self.record.clocks.len() == CLOCK_LIMIT;
            let name = self.declaration(Some(process), full)?;
            self.record.clocks.push(name);
            if !self.take(Kind::Comma) {
                return self.expect(Kind::Semicolon).map(|_| ());
            }
        }
    }

    fn locations(&mut self, process: Name) -> Read<()> {
        self.expect(Kind::State)?;
        loop {
            let full = self.record.locations.len() == LOCATION_LIMIT;
            let name = self.declaration(Some(process), full)?;
            let invariant = self.invariant()?;
            self.record.locations.push(Location { name, invariant });
            if !self.take(Kind::Comma) {
                return self.expect(Kind::Semicolon).map(|_| ());
            }
        }
    }

    fn invariant(&mut self) -> Read<Comparisons> {
        if !self.take(Kind::Open) {
            return Ok(Comparisons::none());
        }
        let invariant = self.comparisons(false)?;
        self.expect(Kind::Close)?;
        Ok(invariant)
    }

    fn init(&mut self) -> Read<()> {
        self.expect(Kind::Init)?;
        self.record.init = self.location()?;
        self.expect(Kind::Semicolon).map(|_| ())
    }

    fn edges(&mut self) -> Read<()> {
        if !self.take(Kind::Trans) {
            return Ok(());
        }
        loop {
            let edge = self.edge()?;
            self.record.edges.push(edge);
            if !self.take(Kind::Comma) {
                return self.expect(Kind::Semicolon).map(|_| ());
            }
        }
    }

    fn system(&mut self, process: Name) -> Read<()> {
        self.expect_all(&[Kind::Close, Kind::System])?;
        let name = self.name()?;
        if !self.same(name, process) {
            return fault(codes::UNKNOWN_NAME, name.place);
        }
        self.expect_all(&[Kind::Semicolon, Kind::End])
    }

    fn edge(&mut self) -> Read<Edge> {
        let place = self.token.start;
        let source = self.location()?;
        if self.record.edges.len() == EDGE_LIMIT {
            return fault(codes::TOO_MANY_ITEMS, place);
        }
        self.expect(Kind::Arrow)?;
        let target = self.location()?;
        self.expect(Kind::Open)?;
        let guard = self.guard()?;
        let label = self.label()?;
        let assignments = self.assignments()?;
        self.expect(Kind::Close)?;
        Ok(Edge { source, target, label, guard, assignments })
    }

    fn guard(&mut self) -> Read<Comparisons> {
        if !self.take(Kind::Guard) {
            return Ok(Comparisons::none());
        }
        let guard = self.comparisons(true)?;
        self.expect(Kind::Semicolon)?;
        Ok(guard)
    }

    /// `sync` with its channel and mark: codes 5 and 8.
    fn label(&mut self) -> Read<Label> {
        self.expect(Kind::Sync)?;
        let name = self.name()?;
        let found = self.record.channels.iter().position(|channel| self.same(channel.name, name));
        let Some(index) = found else {
            return fault(codes::UNKNOWN_NAME, name.place);
        };
        let (label, direction) = match self.token.kind {
            Kind::Question => (Label::Input(index + 1), Direction::Input),
            Kind::Bang => (Label::Output(index + 1), Direction::Output),
            _ => return self.misfit(),
        };
        if *self.record.channels[index].used.get_or_insert(direction) != direction {
            return fault(codes::OTHER_MARK, name.place);
        }
        self.advance();
        self.expect(Kind::Semicolon)?;
        Ok(label)
    }

    /// For each clock the value of its last assignment, and the largest one written.
    fn assignments(&mut self) -> Read<[Option<Assignment>; CLOCK_LIMIT]> {
        let mut assignments: [Option<Assignment>; CLOCK_LIMIT] = [None; CLOCK_LIMIT];
        if !self.take(Kind::Assign) {
            return Ok(assignments);
        }
        loop {
            let clock = self.clock()?;
            self.expect(Kind::Becomes)?;
            let value = self.constant()? as u16;
            let largest = assignments[clock].map_or(value, |before| value.max(before.largest));
            assignments[clock] = Some(Assignment { value, largest });
            if !self.take(Kind::Comma) {
                self.expect(Kind::Semicolon)?;
                return Ok(assignments);
            }
        }
    }

    /// A list of comparisons; an invariant has `<` and `<=` only, and no 0 ticks after `<` (SPECIFICATION 3.2).
    fn comparisons(&mut self, in_guard: bool) -> Read<Comparisons> {
        let mut list = Comparisons::none();
        loop {
            let place = self.token.start;
            let clock = self.clock()?;
            if list.as_slice().len() == COMPARISON_LIMIT {
                return fault(codes::TOO_MANY_ITEMS, place);
            }
            let sign = self.sign(in_guard)?;
            let place = self.token.start;
            let bound = self.constant()?;
            if !in_guard && sign == Sign::Less && bound == 0 {
                return fault(codes::MISFIT, place);
            }
            list.push(Comparison { clock, sign, bound });
            if !self.take(Kind::And) {
                return Ok(list);
            }
        }
    }

    fn sign(&mut self, in_guard: bool) -> Read<Sign> {
        let sign = match self.token.kind {
            Kind::AtMost => Sign::AtMost,
            Kind::Less => Sign::Less,
            Kind::Greater if in_guard => Sign::Greater,
            Kind::AtLeast if in_guard => Sign::AtLeast,
            Kind::Equal if in_guard => Sign::Equal,
            _ => return self.misfit(),
        };
        self.advance();
        Ok(sign)
    }

    /// A constant in ticks.
    fn constant(&mut self) -> Read<usize> {
        if !self.at(Kind::Numeral) {
            return self.misfit();
        }
        let constant = self.ticks(self.value());
        if constant > CONSTANT_LIMIT {
            return fault(codes::CONSTANT_TOO_LARGE, self.token.start);
        }
        self.advance();
        Ok(constant)
    }

    /// Milliseconds as whole ticks: up where what is left over is half a tick or more (SPECIFICATION 4.7).
    fn ticks(&self, milliseconds: usize) -> usize {
        let (whole, left_over) = (milliseconds / self.tick_length, milliseconds % self.tick_length);
        whole + usize::from(2 * left_over >= self.tick_length)
    }

    /// The value of the numeral at hand; what is too large at every tick length counts as the least such value.
    fn value(&self) -> usize {
        let digits = &self.text[self.token.start..self.token.end];
        let next = |value: usize, digit: &u8| (10 * value + usize::from(digit - b'0')).min(ALWAYS_TOO_LARGE);
        digits.iter().fold(0, next)
    }

    fn clock(&mut self) -> Read<usize> {
        let name = self.name()?;
        let found = self.record.clocks.iter().position(|clock| self.same(*clock, name));
        found.map_or(fault(codes::UNKNOWN_NAME, name.place), Ok)
    }

    fn location(&mut self) -> Read<usize> {
        let name = self.name()?;
        let found = self.record.locations.iter().position(|location| self.same(location.name, name));
        found.map_or(fault(codes::UNKNOWN_NAME, name.place), Ok)
    }
}
