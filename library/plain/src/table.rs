//! Tables of related pairs as raw PBM: the check and the widest table.

use crate::codes;
use crate::moves::{System, NONE};
use crate::{Pair, Refusal, Widest};

/// Header and size of the table of two texts.
pub struct Shape {
    header: Vec<u8>,
    /// Bytes of a row.
    pub row: usize,
    pub rows: usize,
}

impl Shape {
    pub fn of(pair: &Pair) -> Shape {
        let (width, height) = (pair.right.states, pair.left.states);
        let header = format!("P4\n{width} {height}\n").into_bytes();
        Shape { header, row: width.div_ceil(8), rows: height }
    }

    pub fn bytes(&self) -> usize {
        self.header.len() + self.rows * self.row
    }

    /// Whether a given table has the very header and the total length.
    pub fn fits(&self, table: &[u8]) -> bool {
        table.len() == self.bytes() && table.starts_with(&self.header)
    }

    /// The raster of a table.
    pub fn raster<'a>(&self, table: &'a [u8]) -> &'a [u8] {
        &table[self.header.len()..]
    }

    /// Writes the header; gives the raster to be written.
    pub fn write_header<'a>(&self, table: &'a mut [u8]) -> &'a mut [u8] {
        let (header, raster) = table[..self.bytes()].split_at_mut(self.header.len());
        header.copy_from_slice(&self.header);
        raster
    }
}

/// Codes 18 to 20, else the number of pairs set.
pub fn check(pair: &Pair, shape: &Shape, table: &[u8]) -> Result<usize, Refusal> {
    let (left, right) = (&pair.left, &pair.right);
    let relation = Relation::given(shape.raster(table), shape, right.states);
    if !relation.holds(left.start, right.start) {
        return Err(Refusal::new(codes::START_PAIR_NOT_SET, 0, left.start, right.start));
    }
    let matches = Matches::new(right);
    let mut demands = Vec::new();
    for s in 0..left.states {
        relation.demands(left.row(s), &mut demands);
        let all_fine = |t: usize| {
            if !(pair.safe.member[s] && right.valid[t]) {
                return Err(Refusal::new(codes::PAIR_NOT_ALLOWED, 0, s, t));
            }
            match relation.broken(&demands, matches.row(t)) {
                Some(step) => Err(Refusal::new(codes::RULE_BROKEN, 0, step, s * right.states + t)),
                None => Ok(()),
            }
        };
        relation.columns(s).try_for_each(all_fine)?;
    }
    Ok(relation.count())
}

/// Writes the widest table and counts its pairs.
pub fn widest(pair: &Pair, shape: &Shape, table: &mut [u8]) -> Widest {
    let mut relation = Relation::all(pair);
    relation.settle(&pair.left, &Matches::new(&pair.right));
    let raster = shape.write_header(table);
    for (words, row) in relation.bits.chunks_exact(relation.words).zip(raster.chunks_exact_mut(shape.row)) {
        let bytes = words.iter().flat_map(|word| word.to_be_bytes());
        row.iter_mut().zip(bytes).for_each(|(to, from)| *to = from);
    }
    Widest { pairs: relation.count(), start: relation.holds(pair.left.start, pair.right.start) }
}

/// The right's moves, where a missing one leads to a column that is never set.
struct Matches {
    moves: Vec<u16>,
    steps: usize,
}

impl Matches {
    fn new(right: &System) -> Matches {
        let nowhere = right.states as u16;
        let moves = right.moves.iter().map(|t| if *t == NONE { nowhere } else { *t }).collect();
        Matches { moves, steps: right.steps }
    }

    fn row(&self, t: usize) -> &[u16] {
        &self.moves[t * self.steps..][..self.steps]
    }
}

/// A relation as a bitmap: a row of whole words per left state, high bit first, with at least one
/// column more than there are right states, which is never set. One more row at the end has all bits
/// set: there a step leads that the left does not make, since it asks nothing of the right.
struct Relation {
    bits: Vec<u64>,
    words: usize,
}

impl Relation {
    fn empty(rows: usize, width: usize) -> Relation {
        let words = width / 64 + 1;
        let mut bits = vec![0; rows * words];
        bits.resize((rows + 1) * words, u64::MAX);
        Relation { bits, words }
    }

    /// The pairs of a given raster; its padding is left out.
    fn given(raster: &[u8], shape: &Shape, width: usize) -> Relation {
        let mut relation = Relation::empty(shape.rows, width);
        let last = (width / 64, !(u64::MAX >> (width % 64)));
        for (words, row) in relation.bits.chunks_exact_mut(relation.words).zip(raster.chunks_exact(shape.row)) {
            for (word, bytes) in words.iter_mut().zip(row.chunks(8)) {
                let mut eight = [0; 8];
                eight[..bytes.len()].copy_from_slice(bytes);
                *word = u64::from_be_bytes(eight);
            }
            words[last.0] &= last.1;
        }
        relation
    }

    /// All pairs of a safe left state and a right state whose invariant holds.
    fn all(pair: &Pair) -> Relation {
        let mut relation = Relation::empty(pair.left.states, pair.right.states);
        let mut valid = vec![0; relation.words];
        for (t, _) in pair.right.valid.iter().enumerate().filter(|(_, valid)| **valid) {
            valid[t / 64] |= high_bit(t);
        }
        let rows = relation.bits.chunks_exact_mut(relation.words);
        for (row, _) in rows.zip(&pair.safe.member).filter(|(_, safe)| **safe) {
            row.copy_from_slice(&valid);
        }
        relation
    }

    fn count(&self) -> usize {
        self.bits[..self.bits.len() - self.words].iter().map(|word| word.count_ones() as usize).sum()
    }

    fn holds(&self, s: usize, t: usize) -> bool {
        self.bits[s * self.words + t / 64] & high_bit(t) != 0
    }

    /// The columns set in a row, from the lowest up.
    fn columns(&self, s: usize) -> impl Iterator<Item = usize> + '_ {
        let words = self.bits[s * self.words..][..self.words].iter().enumerate();
        words.flat_map(|(i, word)| Ones { rest: *word }.map(move |place| 64 * i + place))
    }

    /// For each step of a left state where the row begins that its match has to be set in. A safe state
    /// has every input, and so has a right state whose invariant holds: the pruned left's moves say all
    /// three rules.
    fn demands(&self, moves: &[u16], demands: &mut Vec<usize>) {
        demands.clear();
        let free = self.bits.len() - self.words;
        demands.extend(moves.iter().map(|s| if *s == NONE { free } else { usize::from(*s) * self.words }));
    }

    /// The least step that the right does not match within the relation.
    #[inline(always)]
    fn broken(&self, demands: &[usize], matches: &[u16]) -> Option<usize> {
        let fails = |(row, t): (&usize, &u16)| self.bits[row + usize::from(*t / 64)] & high_bit((*t).into()) == 0;
        demands.iter().zip(matches).position(fails)
    }

    /// Removes the pairs that break a rule until none does. A tick mostly raises both state
    /// numbers, so rows and columns are taken from the highest down. A row is looked at again only
    /// when a row that its moves lead to has changed since.
    fn settle(&mut self, left: &System, right: &Matches) {
        let mut demands = Vec::new();
        let mut now = 1;
        let (mut changed_at, mut looked_at) = (vec![now; left.states], vec![0; left.states]);
        let mut again = true;
        while again {
            again = false;
            for s in (0..left.states).rev() {
                let mut reached = left.row(s).iter().filter(|m| **m != NONE);
                if !reached.any(|m| changed_at[usize::from(*m)] > looked_at[s]) {
                    continue;
                }
                looked_at[s] = now;
                self.demands(left.row(s), &mut demands);
                if self.settle_row(&demands, right, s) {
                    now += 1;
                    changed_at[s] = now;
                    again = true;
                }
            }
        }
    }

    fn settle_row(&mut self, demands: &[usize], right: &Matches, s: usize) -> bool {
        let mut changed = false;
        for i in (0..self.words).rev() {
            let word = s * self.words + i;
            let mut rest = self.bits[word];
            while rest != 0 {
                let place = 63 - rest.trailing_zeros() as usize;
                let mask = rest & rest.wrapping_neg();
                rest ^= mask;
                if self.broken(demands, right.row(64 * i + place)).is_some() {
                    self.bits[word] ^= mask;
                    changed = true;
                }
            }
        }
        changed
    }
}

fn high_bit(t: usize) -> u64 {
    1 << 63 >> (t % 64)
}

/// The places of the ones in a word, from the high bit down.
struct Ones {
    rest: u64,
}

impl Iterator for Ones {
    type Item = usize;

    fn next(&mut self) -> Option<usize> {
        if self.rest == 0 {
            return None;
        }
        let place = self.rest.leading_zeros() as usize;
        self.rest ^= high_bit(place);
        Some(place)
    }
}
