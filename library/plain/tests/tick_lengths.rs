//! Constants in milliseconds (SPECIFICATION 4.7): where a number of ticks begins and ends, codes 2 and 6 on either
//! side, numerals of any length, and code 24 before every other.

use plain::{check, check_by_rows, implementation, read, safe_states, search, widest, widest_by_rows, Refusal};
use texts::{in_milliseconds, post, with_other_numeral, Model, Random};

/// Even and odd ones, and both ends of the range.
const TICK_LENGTHS: [usize; 9] = [1, 2, 3, 7, 10, 999, 1_000, 59_999, 60_000];

/// Words that are no tick length, some of which look like one in their low bits.
const OUT_OF_RANGE: [usize; 6] = [0, 60_001, 1 << 16 | 1, 1 << 32 | 1, 1 << 63, usize::MAX];

fn with_guard(constant: &str) -> Vec<u8> {
    let edge = format!("L -> L {{ guard x <= {constant}; sync a!; }}");
    format!("broadcast chan a; process P() {{ clock x; state L; init L; trans {edge}; }} system P;").into_bytes()
}

fn with_invariant(invariant: &str) -> Vec<u8> {
    format!("process P() {{ clock x; state L {{ {invariant} }}; init L; }} system P;").into_bytes()
}

fn place_of(text: &[u8], part: &str) -> usize {
    String::from_utf8_lossy(text).find(part).expect("the part")
}

fn refused(code: usize, p: usize) -> Refusal {
    Refusal { code, file: 1, p, q: 0 }
}

/// The ticks of a constant in a guard; `None` where it is too large.
fn ticks(tick_length: usize, constant: &str) -> Option<usize> {
    let text = with_guard(constant);
    match read(tick_length, &text) {
        Ok(record) => Some(record.edges[0].guard.as_slice()[0].bound),
        Err(refusal) => {
            assert_eq!(refusal, refused(6, place_of(&text, constant)));
            None
        }
    }
}

#[test]
fn halves_and_thirds() {
    let rounded = |tick_length, constants: &[usize]| -> Vec<Option<usize>> {
        constants.iter().map(|constant| ticks(tick_length, &constant.to_string())).collect()
    };
    assert_eq!(rounded(2, &[0, 1, 2, 3, 4, 5]), [0, 1, 1, 2, 2, 3].map(Some));
    assert_eq!(rounded(3, &[0, 1, 2, 3, 4, 5, 6]), [0, 0, 1, 1, 1, 2, 2].map(Some));
    assert_eq!(rounded(4, &[1, 2, 5, 6, 9, 10, 11]), [0, 1, 1, 2, 2, 3, 3].map(Some));
    assert_eq!(rounded(7, &[3, 4, 10, 11]), [0, 1, 1, 2].map(Some));
    assert_eq!(rounded(60_000, &[29_999, 30_000, 89_999, 90_000]), [0, 1, 1, 2].map(Some));
}

/// The first and the last number of milliseconds of each number of ticks, found by going through them all.
#[test]
fn every_constant_goes_to_the_nearest() {
    for tick_length in [1, 2, 3, 4, 5, 7, 8, 60] {
        for constant in 0..=5 * tick_length {
            let rounded = ticks(tick_length, &constant.to_string()).expect("a small one");
            let distance = |other: usize| (other * tick_length).abs_diff(constant);
            let nearest = (0..=6).map(distance).min().expect("one of seven");
            assert_eq!(distance(rounded), nearest);
            assert!(distance(rounded + 1) > nearest, "a half went down");
        }
    }
}

#[test]
fn the_largest_constant() {
    for tick_length in TICK_LENGTHS {
        let over = (2_001 * tick_length).div_ceil(2); // 1,000 and a half
        assert_eq!(ticks(tick_length, &(over - 1).to_string()), Some(1_000), "{tick_length}");
        assert_eq!(ticks(tick_length, &over.to_string()), None, "{tick_length}");
    }
}

#[test]
fn long_numerals() {
    let zeros = "0".repeat(400);
    for tick_length in TICK_LENGTHS {
        assert_eq!(ticks(tick_length, &"9".repeat(400)), None);
        assert_eq!(ticks(tick_length, &format!("1{zeros}")), None);
        assert_eq!(ticks(tick_length, &format!("{zeros}{}", 3 * tick_length)), Some(3));
        for bits in [32, 64, 96] {
            assert_eq!(ticks(tick_length, &(1_u128 << bits).to_string()), None, "{bits} bits");
        }
    }
}

#[test]
fn zero_ticks_after_less() {
    for (tick_length, last_of_none) in [(1, 0), (2, 0), (3, 1), (7, 3), (1_000, 499), (60_000, 29_999)] {
        let text = with_invariant(&format!("x < {last_of_none}"));
        assert_eq!(read(tick_length, &text), Err(refused(2, place_of(&text, "x <") + 4)));
        assert!(read(tick_length, &with_invariant(&format!("x <= {last_of_none}"))).is_ok());
        assert!(read(tick_length, &with_guard(&last_of_none.to_string())).is_ok());
        assert_eq!(read(tick_length, &with_invariant(&format!("x < {}", last_of_none + 1))).unwrap().states, 3);
    }
}

/// A constant in an assignment is scaled as one in a guard is, up to the limit and past it.
#[test]
fn assignments() {
    let text = |value: &str| {
        let edge = format!("L -> L {{ sync a!; assign x = {value}; }}");
        format!("broadcast chan a; process P() {{ clock x; state L; init L; trans {edge}; }} system P;").into_bytes()
    };
    let assigned = |tick_length: usize, constant: &str| match read(tick_length, &text(constant)) {
        Ok(record) => {
            let assignment = record.edges[0].assignments[0].expect("an assignment");
            let value = usize::from(assignment.value);
            assert_eq!((assignment.largest, record.states), (assignment.value, value + 2));
            Some(value)
        }
        Err(refusal) => {
            assert_eq!(refusal, refused(6, place_of(&text(constant), "= ") + 2));
            None
        }
    };
    for tick_length in TICK_LENGTHS {
        let over = (2_001 * tick_length).div_ceil(2); // 1,000 and a half
        let half = tick_length.div_ceil(2);
        assert_eq!(assigned(tick_length, "000"), Some(0));
        assert_eq!(assigned(tick_length, &(half - 1).to_string()), Some(0));
        assert_eq!(assigned(tick_length, &half.to_string()), Some(1));
        assert_eq!(assigned(tick_length, &(over - 1).to_string()), Some(1_000));
        assert_eq!(assigned(tick_length, &over.to_string()), None);
        assert_eq!(assigned(tick_length, &"9".repeat(400)), None);
        for constant in [0, 1, 2, 3, 5, 7, 10, 999, 1_000, 1_001, 4_000_000, 60_000_000] {
            assert_eq!(assigned(tick_length, &constant.to_string()), ticks(tick_length, &constant.to_string()));
        }
    }
}

/// 24 comes before every other code, and nothing that is lent is touched.
#[test]
fn lengths_out_of_range() {
    const LENT: u8 = 0xa5;
    let long = vec![b' '; 32_769];
    for tick_length in OUT_OF_RANGE {
        let refusal = Refusal { code: 24, file: 0, p: tick_length, q: 0 };
        for text in [post(), b"?".to_vec(), long.clone()] {
            let (mut keep, mut table, mut entries) = ([LENT; 2], [LENT; 29], [[77; 100]; 3]);
            let [back, line, run] = &mut entries;
            assert_eq!(read(tick_length, &text), Err(refusal));
            assert_eq!(safe_states(tick_length, &text, &mut keep), Err(refusal));
            assert_eq!(implementation(tick_length, &text), Err(refusal));
            assert_eq!(search(tick_length, &text, &post(), &mut keep, back, line, run), Err(refusal));
            assert_eq!(search(tick_length, &text, &long, &mut [], &mut [], &mut [], &mut []), Err(refusal));
            assert_eq!(check(tick_length, &text, &text, &mut keep, &table), Err(refusal));
            assert_eq!(check_by_rows(tick_length, &text, &text, &mut keep, &table), Err(refusal));
            assert_eq!(widest(tick_length, &text, &text, &mut keep, &mut table), Err(refusal));
            assert_eq!(widest_by_rows(tick_length, &text, &text, &mut keep, &mut table), Err(refusal));
            assert_eq!((keep, table, entries), ([LENT; 2], [LENT; 29], [[77; 100]; 3]));
        }
    }
}

/// A random text in milliseconds says in ticks what it said before; with one numeral changed some say something else.
#[test]
fn random_texts() {
    let random = &mut Random::new(5);
    let (mut accepted, mut others) = (0, 0);
    for _ in 0..4_000 {
        let text = Model::random(random, 4).text(random);
        let tick_length = if random.chance(50) { *random.pick(&TICK_LENGTHS) } else { random.between(1, 60_000) };
        let scaled = in_milliseconds(random, &text, tick_length);
        let states = |tick_length, text: &[u8]| read(tick_length, text).map(|record| record.states);
        match states(1, &text) {
            Err(Refusal { code: 2..=8, .. }) => continue,
            answer => assert_eq!(states(tick_length, &scaled), answer, "{tick_length} {}", scaled.escape_ascii()),
        }
        assert_eq!(implementation(tick_length, &scaled), implementation(1, &text));
        accepted += 1;
        let other = with_other_numeral(random, &scaled, tick_length);
        others += usize::from(states(tick_length, &other) != states(tick_length, &scaled));
    }
    println!("accepted {accepted}, with another numeral otherwise {others}");
    assert!(accepted > 3_000 && others > 500);
}
