//! The tables by rows against those by pairs: answers and every byte.

use texts::kinds::{texts, Kind, KINDS};
use texts::{Model, Random};

/// The tick length with which a constant is as many ticks as it says.
const TICK: usize = 1;

/// Bytes of `keep` for any text.
const KEEP: usize = 512;

/// Header length, bytes of a row, rows and width of the table of two accepted texts.
struct Raster {
    header: usize,
    row: usize,
    rows: usize,
    width: usize,
}

impl Raster {
    fn of(left: &[u8], right: &[u8]) -> Option<Raster> {
        let (rows, width) = (plain::read(TICK, left).ok()?.states, plain::read(TICK, right).ok()?.states);
        Some(Raster { header: format!("P4\n{width} {rows}\n").len(), row: width.div_ceil(8), rows, width })
    }

    fn bytes(&self) -> usize {
        self.header + self.rows * self.row
    }
}

/// Makes the widest table both ways; gives it where there is one.
fn compare_widest(left: &[u8], right: &[u8], raster: &Raster) -> Option<Vec<u8>> {
    let (mut by_pairs, mut by_rows) = (vec![0xaa; raster.bytes() + 9], vec![0xaa; raster.bytes() + 9]);
    let (mut keep, mut other) = ([0x55; KEEP], [0x55; KEEP]);
    let answer = plain::widest(TICK, left, right, &mut keep, &mut by_pairs);
    assert_eq!(plain::widest_by_rows(TICK, left, right, &mut other, &mut by_rows), answer);
    assert!(by_pairs == by_rows && keep == other, "{} {}", left.escape_ascii(), right.escape_ascii());
    by_pairs.truncate(raster.bytes());
    answer.ok().map(|_| by_pairs)
}

fn compare_check(left: &[u8], right: &[u8], table: &[u8]) -> usize {
    let (mut keep, mut other) = ([0x55; KEEP], [0x55; KEEP]);
    let answer = plain::check(TICK, left, right, &mut keep, table);
    assert_eq!(plain::check_by_rows(TICK, left, right, &mut other, table), answer);
    assert!(keep == other);
    answer.map_or_else(|refusal| refusal.code, |_| 0)
}

/// The widest table, then checks of it, of damaged ones, and of random ones with padding.
fn compare(random: &mut Random, left: &[u8], right: &[u8], codes: &mut [usize; 22]) {
    let Some(raster) = Raster::of(left, right) else { return };
    let Some(table) = compare_widest(left, right, &raster) else { return };
    codes[compare_check(left, right, &table)] += 1;
    for _ in 0..4 {
        let mut damaged = table.clone();
        for _ in 0..random.between(1, 3) {
            let (s, t) = (random.below(raster.rows), random.below(raster.width));
            damaged[raster.header + s * raster.row + t / 8] ^= 0x80 >> (t % 8);
        }
        codes[compare_check(left, right, &damaged)] += 1;
    }
    let mut filled = table.clone();
    filled[raster.header..].fill(0xff);
    codes[compare_check(left, right, &filled)] += 1;
    filled[raster.header..].iter_mut().for_each(|byte| *byte |= random.next() as u8);
    codes[compare_check(left, right, &filled)] += 1;
}

#[test]
fn random_texts() {
    let random = &mut Random::new(11);
    let mut codes = [0; 22];
    for _ in 0..6_000 {
        let right = Model::random(random, 5);
        let left = if random.chance(70) { right.varied(random) } else { right.clone() };
        let (left, right) = (left.text(random), right.text(random));
        compare(random, &left, &right, &mut codes);
    }
    println!("codes of the checks: {codes:?}");
    assert!([0, 18, 19, 20].iter().all(|code| codes[*code] > 100));
}

#[test]
fn kinds() {
    let random = &mut Random::new(12);
    let mut codes = [0; 22];
    for states in [4, 7, 16, 61, 64, 65, 100, 128, 190, 257, 500] {
        for (kind, clocks) in KINDS.into_iter().flat_map(|kind| [1, 2, 3].map(|clocks| (kind, clocks))) {
            let channels = random.between(2, 16);
            let (left, right) = texts(kind, states, clocks, channels);
            compare(random, &left, &right, &mut codes);
            compare(random, &right, &left, &mut codes);
            let (other, _) = texts(Kind::Full, states + random.below(90), clocks, channels);
            compare(random, &left, &other, &mut codes);
        }
    }
    println!("codes of the checks: {codes:?}");
    assert!([0, 18, 19, 20].iter().all(|code| codes[*code] > 10));
}

#[test]
fn kinds_at_the_limit() {
    for (kind, clocks) in KINDS.into_iter().flat_map(|kind| [1, 2, 3].map(|clocks| (kind, clocks))) {
        let (left, right) = texts(kind, 4_096, clocks, 8);
        let raster = Raster::of(&left, &right).expect("accepted texts");
        let table = compare_widest(&left, &right, &raster).expect("a table");
        compare_check(&left, &right, &table);
    }
}
