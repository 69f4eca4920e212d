//! Texts at a tick length (SPECIFICATION 4.7): constants of a given number of ticks, written in milliseconds.

use crate::random::Random;
use std::ops::Range;

/// The most ticks of a constant (SPECIFICATION 4.3).
const CONSTANT_LIMIT: usize = 1_000;

/// Values that are written anew; larger ones stay as they are.
const VALUE_LIMIT: usize = 100_000;

/// Digits of a numeral that is longer than any number of a machine.
const MANY_DIGITS: usize = 400;

/// Of a hundred texts, how many have a 0 in each assignment of 0 ticks, as an older build wants it at any tick length.
const ZERO_AS_ZERO: usize = 70;

/// A numeral of a text.
pub(crate) struct Numeral {
    pub place: Range<usize>,
    /// Whether a clock is set to it; the others are those that a clock is compared with.
    pub is_assigned: bool,
}

/// The text with every constant, which is one of ticks, in milliseconds: each comes to the ticks that it was.
pub fn in_milliseconds(random: &mut Random, text: &[u8], tick_length: usize) -> Vec<u8> {
    let zero_as_zero = random.chance(ZERO_AS_ZERO);
    let written = numerals(text).into_iter().filter_map(|Numeral { place, is_assigned }| {
        let ticks = value(&text[place.clone()])?;
        let zeros = if random.chance(5) { random.below(MANY_DIGITS) } else { 0 };
        let milliseconds = match is_assigned && ticks == 0 && zero_as_zero {
            true => 0,
            false => milliseconds(random, ticks, tick_length),
        };
        let written = format!("{}{milliseconds}", "0".repeat(zeros));
        Some((place, written))
    });
    replaced(text, &written.collect::<Vec<_>>())
}

/// The text with one of its numerals, in a comparison or in an assignment, as another one: one more or less, the largest that
/// passes at this tick length or the one above it, or one that is longer than any number of a machine.
pub fn with_other_numeral(random: &mut Random, text: &[u8], tick_length: usize) -> Vec<u8> {
    let numerals = numerals(text);
    if numerals.is_empty() {
        return text.to_vec();
    }
    let place = random.pick(&numerals).place.clone();
    let old = value(&text[place.clone()]).unwrap_or(0);
    let (_, largest) = range_of(CONSTANT_LIMIT, tick_length);
    let new = match random.below(8) {
        0 => old.saturating_sub(1).to_string(),
        1 | 2 => (old + 1).to_string(),
        3 => largest.to_string(),
        4 => (largest + 1).to_string(),
        // A sum that wraps in 32 or in 64 bits would come to the value again.
        5 => ((1_u128 << *random.pick(&[32, 64])) + old as u128).to_string(),
        6 => format!("{old}{}", "0".repeat(random.below(MANY_DIGITS))),
        _ => (0..MANY_DIGITS).map(|_| char::from(*random.pick(b"0123456789"))).collect(),
    };
    replaced(text, &[(place, new)])
}

/// The least and the greatest number of milliseconds that comes to so many ticks: an exact half goes upward.
fn range_of(ticks: usize, tick_length: usize) -> (usize, usize) {
    let (whole, half) = (ticks * tick_length, tick_length / 2);
    (whole.saturating_sub(half), whole + (tick_length - half) - 1)
}

fn milliseconds(random: &mut Random, ticks: usize, tick_length: usize) -> usize {
    let (least, greatest) = range_of(ticks, tick_length);
    match random.below(4) {
        0 => ticks * tick_length,
        1 => least,
        2 => greatest,
        _ => random.between(least, greatest),
    }
}

/// The value of some digits, unless it is too large to be worth writing anew.
pub(crate) fn value(digits: &[u8]) -> Option<usize> {
    let number: usize = std::str::from_utf8(digits).ok()?.parse().ok()?;
    Some(number).filter(|number| *number <= VALUE_LIMIT)
}

/// The text with what stands at some places, which rise, as something else.
pub(crate) fn replaced(text: &[u8], parts: &[(Range<usize>, String)]) -> Vec<u8> {
    let (mut made, mut from) = (Vec::new(), 0);
    for (place, new) in parts {
        made.extend_from_slice(&text[from..place.start]);
        made.extend_from_slice(new.as_bytes());
        from = place.end;
    }
    made.extend_from_slice(&text[from..]);
    made
}

/// The numerals after a sign or after `=`, in the order of their places. A damaged text may have others.
pub(crate) fn numerals(text: &[u8]) -> Vec<Numeral> {
    let mut numerals = Vec::new();
    let mut at = 0;
    while at < text.len() {
        let length = text[at..].iter().position(|byte| !is_name_part(*byte)).unwrap_or(text.len() - at);
        let place = at..at + length;
        if length > 0 && text[place.clone()].iter().all(u8::is_ascii_digit) {
            numerals.extend(is_assigned(&text[..at]).map(|is_assigned| Numeral { place, is_assigned }));
        }
        at += length + 1;
    }
    numerals
}

fn is_name_part(byte: u8) -> bool {
    byte.is_ascii_alphanumeric() || byte == b'_'
}

/// Whether what stands before a numeral ends in `=`; `None` where it ends neither in that nor in the sign of a
/// comparison.
fn is_assigned(before: &[u8]) -> Option<bool> {
    match before.trim_ascii_end() {
        [.., b'<' | b'>'] | [.., b'<' | b'>' | b'=', b'='] => Some(false),
        [.., b'='] => Some(true),
        _ => None,
    }
}
