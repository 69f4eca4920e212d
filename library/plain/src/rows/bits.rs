//! Rows of pairs as words of bits.

use crate::moves::System;
use crate::table::Shape;

/// Bits of a word.
pub const WORD: usize = 64;

/// One row of words for each left state, high bit first. A word before and a word after the states are
/// always 0, so that a shifted range may begin and end anywhere.
pub struct Rows {
    bits: Vec<u64>,
    /// Words of a row.
    pub words: usize,
}

/// The word of a row that has a state's bit.
pub fn word_of(t: usize) -> usize {
    t / WORD + 1
}

pub fn bit_of(t: usize) -> u64 {
    1 << 63 >> (t % WORD)
}

fn words_for(width: usize) -> usize {
    width.div_ceil(WORD) + 2
}

impl Rows {
    /// No pairs.
    pub fn empty(rows: usize, width: usize) -> Rows {
        let words = words_for(width);
        Rows { bits: vec![0; rows * words], words }
    }

    /// The pairs of a given raster; its padding is left out.
    pub fn given(raster: &[u8], shape: &Shape, width: usize) -> Rows {
        let mut rows = Rows::empty(shape.rows, width);
        for (row, bytes) in rows.bits.chunks_exact_mut(rows.words).zip(raster.chunks_exact(shape.row)) {
            read_row(bytes, row);
            row[word_of(width - 1)] &= through(width - 1);
        }
        rows
    }

    pub fn all(&self) -> impl Iterator<Item = &[u64]> {
        self.bits.chunks_exact(self.words)
    }

    pub fn row(&self, s: usize) -> &[u64] {
        &self.bits[s * self.words..][..self.words]
    }

    pub fn row_mut(&mut self, s: usize) -> &mut [u64] {
        &mut self.bits[s * self.words..][..self.words]
    }

    pub fn holds(&self, s: usize, t: usize) -> bool {
        self.row(s)[word_of(t)] & bit_of(t) != 0
    }

    pub fn count(&self) -> usize {
        self.bits.iter().map(|word| word.count_ones() as usize).sum()
    }
}

/// The bits of a state's word from that state on.
pub fn onward(t: usize) -> u64 {
    u64::MAX >> (t % WORD)
}

/// The bits of a state's word up to that state.
pub fn through(t: usize) -> u64 {
    u64::MAX << (WORD - 1 - t % WORD)
}

fn read_row(bytes: &[u8], row: &mut [u64]) {
    let eights = bytes.chunks_exact(8);
    let mut last = [0; 8];
    last[..eights.remainder().len()].copy_from_slice(eights.remainder());
    let whole = row[1..].iter_mut().zip(eights);
    let next = 1 + bytes.len() / 8;
    whole.for_each(|(word, eight)| *word = u64::from_be_bytes(eight.try_into().expect("8 bytes")));
    row[next] = u64::from_be_bytes(last);
}

pub fn write_row(row: &[u64], bytes: &mut [u8]) {
    let last = row[1 + bytes.len() / 8].to_be_bytes();
    let mut eights = bytes.chunks_exact_mut(8);
    for (eight, word) in eights.by_ref().zip(&row[1..]) {
        eight.copy_from_slice(&word.to_be_bytes());
    }
    let rest = eights.into_remainder();
    rest.copy_from_slice(&last[..rest.len()]);
}

pub fn is_empty(row: &[u64]) -> bool {
    row.iter().all(|word| *word == 0)
}

pub fn and(row: &mut [u64], other: &[u64]) {
    row.iter_mut().zip(other).for_each(|(word, other)| *word &= other);
}

/// The row of all right states whose invariant holds.
pub fn valid_row(right: &System, words: usize) -> Vec<u64> {
    row_of(words, (0..right.states).filter(|t| right.valid[*t]))
}

pub fn row_of(words: usize, states: impl Iterator<Item = usize>) -> Vec<u64> {
    let mut row = vec![0; words];
    states.for_each(|t| row[word_of(t)] |= bit_of(t));
    row
}
