//! The fast implementation against the naive enumerator on small random texts.

mod naive;

use naive::Naive;
use plain::codes::OUTPUT_BESIDE_TICK;
use std::collections::HashSet;
use texts::{urgent, Model, Random};

/// The tick length with which a constant is as many ticks as it says.
const TICK: usize = 1;

/// Runs up to this length are enumerated.
const DEPTH: usize = 7;

fn show(text: &[u8]) -> String {
    String::from_utf8_lossy(text).into_owned()
}

/// Where several edges give moves by a channel, compares whether they are parallel there; says whether any are.
fn compare_parallel(naive: &Naive, text: &[u8]) -> bool {
    let mut meet = false;
    for state in naive.states.iter().filter(|state| naive.valid(state)) {
        for (i, channel) in naive.channels().into_iter().enumerate() {
            let led = naive.led(state, channel);
            if led.len() > 1 {
                let alike = led.iter().all(|other| *other == led[0]);
                let number = naive.number(state);
                assert_eq!(plain::are_parallel_at(TICK, text, number, i + 1), alike, "{number} {i} {}", show(text));
                meet = true;
            }
        }
    }
    meet
}

/// Compares code 10 or 11, where the edges are parallel, and the safe states; says whether the text is accepted.
fn compare_one(model: &Model, text: &[u8]) -> bool {
    let naive = Naive::new(model);
    let meet = compare_parallel(&naive, text);
    assert_eq!(plain::has_parallel_edges(TICK, text), meet && naive.fault().is_none(), "{}", show(text));
    let answer = plain::read(TICK, text);
    if let Some((code, state, channel)) = naive.fault() {
        let refusal = plain::Refusal { code, file: 1, p: state, q: channel };
        assert_eq!(answer, Err(refusal), "{}", show(text));
        return false;
    }
    assert_eq!(answer.map(|record| record.states), Ok(naive.count()), "{}", show(text));
    let mut keep = vec![0; naive.count().div_ceil(8)];
    let answer = plain::safe_states(TICK, text, &mut keep).unwrap();
    let safe = naive.safe();
    for state in &naive.states {
        let number = naive.number(state);
        let bit = keep[number / 8] >> (7 - number % 8) & 1 == 1;
        assert_eq!(bit, safe.contains(state), "state {number} of {}", show(text));
    }
    let ones: u32 = keep.iter().map(|byte| byte.count_ones()).sum();
    assert_eq!((answer.count, answer.start), (ones as usize, safe.contains(&naive.start())));
    true
}

/// Compares the answers whether an accepted text is an implementation; gives the code, 0 where it is one.
fn compare_implementation(model: &Model, text: &[u8]) -> usize {
    let fault = Naive::new(model).implementation_fault();
    let expected = fault.map_or(Ok(()), |(code, p, q)| Err(plain::Refusal { code, file: 1, p, q }));
    assert_eq!(plain::implementation(TICK, text), expected, "{}", show(text));
    fault.map_or(0, |(code, _, _)| code)
}

/// Compares the widest table and the departure; gives the departure's length where there is one.
fn compare_two(left: &Model, right: &Model, texts: (&[u8], &[u8])) -> Option<usize> {
    let names = format!("left:\n{}\nright:\n{}", show(texts.0), show(texts.1));
    let (of_left, of_right) = (Naive::new(left), Naive::new(right));
    let (rows, width) = (of_left.count(), of_right.count());
    let mut keep = vec![0; rows];
    let mut table = vec![0; 100 + rows * width];
    let answer = plain::widest(TICK, texts.0, texts.1, &mut keep, &mut table);
    if !of_left.safe().contains(&of_left.start()) {
        let start = of_left.number(&of_left.start());
        assert_eq!(answer, Err(plain::Refusal { code: 17, file: 1, p: start, q: 0 }), "{names}");
        return None;
    }
    let header = format!("P4\n{width} {rows}\n").len();
    let bit = |s: usize, t: usize| table[header + s * width.div_ceil(8) + t / 8] >> (7 - t % 8) & 1 == 1;
    let all = (0..rows).flat_map(|s| (0..width).map(move |t| (s, t)));
    let made: HashSet<(usize, usize)> = all.filter(|(s, t)| bit(*s, *t)).collect();
    assert_eq!(made, naive::widest(&of_left, &of_right), "{names}");
    assert_eq!(answer.unwrap().pairs, made.len());
    let (mut back, mut line) = (vec![0; rows * width], vec![0; rows * width]);
    let mut run = vec![0; rows * width];
    let n = plain::search(TICK, texts.0, texts.1, &mut keep, &mut back, &mut line, &mut run).unwrap();
    assert_eq!(n == 0, answer.unwrap().start, "{names}");
    match naive::departure(&of_left, &of_right, DEPTH) {
        Some(steps) => assert_eq!(run[..n], steps, "{names}"),
        None => assert!(n == 0 || n > DEPTH, "{names}"),
    }
    Some(n)
}

#[test]
fn fast_and_naive_agree() {
    let random = &mut Random::new(7);
    let (mut accepted, mut parallel, mut late, mut departing, mut refining) = (0, 0, 0, 0, 0);
    for _ in 0..2_500 {
        let right = Model::random(random, 3);
        let left = if random.chance(70) { right.varied(random) } else { right.clone() };
        let texts = (left.text(random), right.text(random));
        let both = compare_one(&left, &texts.0) & compare_one(&right, &texts.1);
        let paired = plain::search(TICK, &texts.0, &texts.1, &mut [0; 512], &mut [], &mut [], &mut []);
        if !both || paired.is_err_and(|refusal| refusal.code == 12) {
            continue;
        }
        accepted += 1;
        parallel += usize::from([&texts.0, &texts.1].into_iter().any(|text| plain::has_parallel_edges(TICK, text)));
        late += usize::from([&texts.0, &texts.1].into_iter().any(|text| plain::has_late_clocks(TICK, text)));
        let small = Naive::new(&left).states.len() * Naive::new(&right).states.len() < 6_000;
        match small.then(|| compare_two(&left, &right, (&texts.0, &texts.1))).flatten() {
            Some(0) => refining += 1,
            Some(_) => departing += 1,
            None => (),
        }
    }
    println!("accepted {accepted}, with parallel edges {parallel}, with late clocks {late}");
    println!("departing {departing}, refining {refining}");
    assert!(accepted > 500 && parallel > 300 && late > 300 && departing > 100 && refining > 100);
}

#[test]
fn implementations() {
    let random = &mut Random::new(11);
    let (mut implementations, mut parallel, mut late, mut both, mut neither) = (0, 0, 0, 0, 0);
    for _ in 0..4_000 {
        let locations = random.between(1, 4);
        let model = match random.below(4) {
            0 => Model::random(random, locations),
            1 => urgent(random, locations),
            _ => urgent(random, locations).varied(random),
        };
        let text = model.text(random);
        if !compare_one(&model, &text) {
            continue;
        }
        parallel += usize::from(plain::has_parallel_edges(TICK, &text));
        late += usize::from(plain::has_late_clocks(TICK, &text));
        match compare_implementation(&model, &text) {
            0 => implementations += 1,
            OUTPUT_BESIDE_TICK => both += 1,
            _ => neither += 1,
        }
    }
    println!("implementations {implementations}, both possible {both}, neither {neither}");
    println!("parallel edges in {parallel} texts, late clocks in {late}");
    assert!(implementations > 1_000 && both > 500 && neither > 500 && parallel > 500 && late > 500);
}
