//! What one call is given: the tick length, texts, lengths of the lent slices, a table.

use boundary::ONLY_TICK;
use plain::TICK_LIMIT;
use texts::kinds::{departing, texts, Kind, KINDS};
use texts::{at_a_limit, damaged, each_edge_twice, joinable, noise, passive, relay, urgent, Model, Random, Reach};
use texts::{early, hush, idle, loose, post, rearm, sheet, spare, strict, twice, woken};
use texts::{in_milliseconds, started_late, with_other_numeral};

/// Larger products are only tried with slices too short for them, to keep the run short.
const PAIRS_LIMIT: usize = 520_000;

/// Tick lengths, even and odd ones, up to the end of their range.
const TICK_LENGTHS: [usize; 8] = [2, 3, 4, 7, 999, 1_000, TICK_LIMIT - 1, TICK_LIMIT];

/// Words that are no tick length, some of which would be one if only their low bits counted.
const OUT_OF_RANGE: [usize; 6] = [0, TICK_LIMIT + 1, 1 << 16 | 1, 1 << 32 | 1, 1 << 63 | 1, usize::MAX];

/// A tick length: often 1, and now and then a word that is none.
pub fn tick_length(random: &mut Random) -> usize {
    match random.below(100) {
        0..=34 => ONLY_TICK,
        35..=59 => *random.pick(&TICK_LENGTHS),
        60..=79 => random.between(2, 20),
        80..=94 => random.between(2, TICK_LIMIT),
        95 => random.next() as usize,
        _ => *random.pick(&OUT_OF_RANGE),
    }
}

/// A text of ticks as it is to be read at a tick length: mostly in milliseconds that come to the same ticks, now and
/// then with another numeral, or as it is.
fn at_tick_length(random: &mut Random, tick_length: usize, text: Vec<u8>) -> Vec<u8> {
    if !(1..=TICK_LIMIT).contains(&tick_length) {
        return text;
    }
    match random.below(100) {
        0..=84 => in_milliseconds(random, &text, tick_length),
        85..=94 => {
            let text = in_milliseconds(random, &text, tick_length);
            with_other_numeral(random, &text, tick_length)
        }
        _ => text,
    }
}

/// One text at a tick length: mostly accepted, a random one, a post or a joined one, else with a fault, at a limit, or
/// noise.
pub fn text(random: &mut Random, tick_length: usize) -> Vec<u8> {
    let text = text_of_ticks(random);
    at_tick_length(random, tick_length, text)
}

fn text_of_ticks(random: &mut Random) -> Vec<u8> {
    match random.below(100) {
        0..=49 => {
            let locations = random.between(1, 5);
            Model::random(random, locations).text(random)
        }
        50..=74 => damaged(random),
        75..=89 => at_a_limit(random),
        90..=92 => noise(random),
        93..=95 => joined(random),
        _ => random.pick(&[post, rearm, early, hush, idle, strict, loose, spare, sheet, twice, woken])(),
    }
}

/// Two texts joined, or the left one where they cannot be.
fn joined(random: &mut Random) -> Vec<u8> {
    let (left, right) = joinable(random);
    let mut out = vec![0; plain::TEXT_LIMIT];
    match plain::join(ONLY_TICK, &left, &right, &mut out) {
        Ok(length) => out[..length].to_vec(),
        Err(_) => left,
    }
}

/// One text for the implementation check: any one as above, one of a kind, now and then with each edge twice, one of up
/// to 4,096 states of which all, few or a line are reached, or one that is an implementation or near one.
pub fn text_to_judge(random: &mut Random, tick_length: usize) -> Vec<u8> {
    let text = match random.below(100) {
        0..=39 => text_of_ticks(random),
        40..=44 => kinds_of_ticks(random, LARGE).0,
        45 => twice_of_ticks(random, LARGE).0,
        46 => {
            let reach = *random.pick(&[Reach::All, Reach::Few, Reach::Fault]);
            let text = passive(random.between(3, 64), random.between(3, 16), reach);
            late_or_not(random, text)
        }
        47 => {
            let text = relay(random.between(2, 128));
            late_or_not(random, text)
        }
        48..=64 => urgent(random, 5).text(random),
        _ => urgent(random, 5).varied(random).text(random),
    };
    at_tick_length(random, tick_length, text)
}

/// Left and right.
type Texts = (Vec<u8>, Vec<u8>);

fn both_at_tick_length(random: &mut Random, tick_length: usize, (left, right): Texts) -> Texts {
    (at_tick_length(random, tick_length, left), at_tick_length(random, tick_length, right))
}

/// Two texts at a tick length: near ones, equal ones, ones of which one has parallel edges more, ones that share only
/// their channels or not even those.
pub fn two_texts(random: &mut Random, tick_length: usize) -> Texts {
    let texts = two_of_ticks(random);
    both_at_tick_length(random, tick_length, texts)
}

/// Two texts of a kind at a tick length.
pub fn two_of_a_kind(random: &mut Random, tick_length: usize) -> Texts {
    let texts = kinds_of_ticks(random, LARGE);
    both_at_tick_length(random, tick_length, texts)
}

fn two_of_ticks(random: &mut Random) -> Texts {
    let locations = random.between(1, 5);
    let right = Model::random(random, locations);
    let left = match random.below(100) {
        0..=39 => right.varied(random),
        40..=44 => right.clone(),
        45..=49 => right.with_parallel_edges(random),
        50..=51 => return twice_of_ticks(random, SMALL),
        52..=64 => {
            let mut channels = right.channels.clone();
            random.shuffle(&mut channels);
            Model::with_channels(random, channels, 4)
        }
        65..=72 => right.with_other_channels(random),
        73..=80 => return (text_of_ticks(random), right.text(random)),
        81..=88 => return (right.text(random), text_of_ticks(random)),
        _ => return (text_of_ticks(random), text_of_ticks(random)),
    };
    match random.chance(50) {
        true => (left.text(random), right.text(random)),
        false => (right.text(random), left.text(random)),
    }
}

/// The most states of a text of a kind, by turns; the fewest are 4.
const LARGE: &[usize] = &[40, 150, 720];
const SMALL: &[usize] = &[20, 40, 150];

/// Of a hundred texts of a kind, how many have clocks that start late.
const LATE: usize = 15;

/// The text, now and then with each clock that it sets to 0 set to a few ticks.
fn late_or_not(random: &mut Random, text: Vec<u8>) -> Vec<u8> {
    match random.chance(LATE) {
        true => started_late(&text, random.between(1, 4)),
        false => text,
    }
}

/// Two texts of a kind, in either order; now and then the left is that of another kind, and now and then one or both
/// have clocks that start late.
fn kinds_of_ticks(random: &mut Random, sizes: &[usize]) -> Texts {
    let (left, right) = kinds_at_zero(random, sizes);
    match random.chance(LATE) {
        // In both they start at one time: such a pair often stays one that refines.
        true => {
            let ticks = random.between(1, 4);
            (started_late(&left, ticks), started_late(&right, ticks))
        }
        false => (late_or_not(random, left), late_or_not(random, right)),
    }
}

fn kinds_at_zero(random: &mut Random, sizes: &[usize]) -> Texts {
    let kind = *random.pick(&KINDS);
    let most = *random.pick(sizes);
    let (states, clocks, channels) = (random.between(4, most), random.between(1, 3), random.between(2, 16));
    let make = if channels > 2 && random.chance(25) { departing } else { texts };
    let (left, right) = make(kind, states, clocks, channels);
    match random.below(10) {
        0..=5 => (left, right),
        6..=7 => (right, left),
        // The two kinds have equal inputs.
        8 => (texts(Kind::Late, states, clocks, channels).0, texts(Kind::Full, states, clocks, channels).1),
        _ => (texts(*random.pick(&KINDS), states, clocks, channels).0, right),
    }
}

/// Two such texts of which each edge of one, or of both, stands there twice, where there can be so many.
fn twice_of_ticks(random: &mut Random, sizes: &[usize]) -> Texts {
    let (left, right) = kinds_of_ticks(random, sizes);
    let doubled = |text: Vec<u8>| each_edge_twice(&text).unwrap_or(text);
    match random.below(3) {
        0 => (doubled(left), right),
        1 => (left, doubled(right)),
        _ => (doubled(left), doubled(right)),
    }
}

/// Two texts to be joined at a tick length: mostly ones that can be or that are near a limit, else any as above.
pub fn two_to_join(random: &mut Random, tick_length: usize) -> Texts {
    let texts = match random.below(10) {
        0..=6 => joinable(random),
        7 => kinds_of_ticks(random, LARGE),
        _ => two_of_ticks(random),
    };
    both_at_tick_length(random, tick_length, texts)
}

/// What a call on two texts is given.
#[derive(Clone)]
pub struct Given {
    pub tick_length: usize,
    pub left: Vec<u8>,
    pub right: Vec<u8>,
}

/// The numbers of states of two texts, where both are accepted.
pub fn sizes(given: &Given) -> Option<(usize, usize)> {
    let states = |text: &[u8]| plain::read(given.tick_length, text).ok().map(|record| record.states);
    Some((states(&given.left)?, states(&given.right)?))
}

/// Whether a walk over all pairs of states would take too long here.
pub fn too_large(sizes: Option<(usize, usize)>) -> bool {
    sizes.is_some_and(|(left, right)| left * right > PAIRS_LIMIT)
}

/// A length at, just under, just over or far from what is needed.
pub fn length(random: &mut Random, need: usize) -> usize {
    match random.below(20) {
        0 => need.saturating_sub(1),
        1 => random.below(need + 1),
        2 => 0,
        3..=9 => need,
        10..=14 => need + 1,
        _ => need + random.below(40),
    }
}

/// A length that is too short.
pub fn short(random: &mut Random, need: usize) -> usize {
    match random.chance(50) {
        true => need.saturating_sub(1),
        false => random.below(need.max(1)),
    }
}

/// A table to check: the widest one, whole or damaged, or another one.
pub fn table(random: &mut Random, given: &Given, sizes: Option<(usize, usize)>) -> Vec<u8> {
    let Some((rows, width)) = sizes.filter(|_| !too_large(sizes)) else {
        let length = random.below(40);
        return random.bytes(length);
    };
    let header = format!("P4\n{width} {rows}\n").into_bytes();
    let row = width.div_ceil(8);
    let mut table = vec![0; header.len() + rows * row];
    table[..header.len()].copy_from_slice(&header);
    // A refusal leaves the empty table; it is as good to try.
    let _ = plain::widest_by_rows(given.tick_length, &given.left, &given.right, &mut [0; 512], &mut table);
    let raster = Raster { header: header.len(), row, rows, width };
    match random.below(20) {
        0..=6 => (),
        7..=11 => raster.flip_some(random, &mut table),
        12 => table[header.len()..].iter_mut().for_each(|byte| *byte = random.next() as u8),
        13 => table[header.len()..].fill(0xff),
        14 => raster.only_start(&mut table, given),
        15..=16 => raster.set_padding(random, &mut table),
        17 => other_length(random, &mut table),
        18 => table = other_header(random, &raster, &table),
        _ => table[header.len()..].fill(0),
    }
    table
}

struct Raster {
    header: usize,
    row: usize,
    rows: usize,
    width: usize,
}

impl Raster {
    /// Sets or clears a few bits of pairs.
    fn flip_some(&self, random: &mut Random, table: &mut [u8]) {
        for _ in 0..random.between(1, 3) {
            let (s, t) = (random.below(self.rows), random.below(self.width));
            table[self.header + s * self.row + t / 8] ^= 0x80 >> (t % 8);
        }
    }

    fn only_start(&self, table: &mut [u8], given: &Given) {
        let start = |text: &[u8]| {
            let record = plain::read(given.tick_length, text).expect("an accepted text");
            record.init * (record.states / record.locations.len())
        };
        let (s, t) = (start(&given.left), start(&given.right));
        table[self.header..].fill(0);
        table[self.header + s * self.row + t / 8] |= 0x80 >> (t % 8);
    }

    fn set_padding(&self, random: &mut Random, table: &mut [u8]) {
        let padding = self.row * 8 - self.width;
        for s in 0..self.rows {
            let last = self.header + (s + 1) * self.row - 1;
            table[last] |= random.next() as u8 & ((1_u16 << padding) - 1) as u8;
        }
    }
}

fn other_length(random: &mut Random, table: &mut Vec<u8>) {
    match random.below(4) {
        0 => drop(table.pop()),
        1 => table.push(0),
        2 => table.truncate(random.below(12)),
        _ => table.truncate(0),
    }
}

/// The same raster under a header that differs; often of the right total length.
fn other_header(random: &mut Random, raster: &Raster, table: &[u8]) -> Vec<u8> {
    let (width, rows) = (raster.width, raster.rows);
    let header = match random.below(9) {
        0 => format!("P5\n{width} {rows}\n"),
        1 => format!("P4 {width} {rows}\n"),
        2 => format!("P4\n{width}\n{rows}\n"),
        3 => format!("P4\n{width} {rows} "),
        4 => format!("P4\n0{width} {rows}\n"),
        5 => format!("P4\n{} {rows}\n", width + 1),
        6 => format!("P4\n{width} {}\n", rows + 1),
        7 => format!("P4\n# {width}\n{width} {rows}\n"),
        _ => format!("P4\r\n{width} {rows}\n"),
    };
    [header.as_bytes(), &table[raster.header..]].concat()
}
