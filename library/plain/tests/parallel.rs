//! Parallel edges (SPECIFICATION 7.2, 16.10): which edges they are, state by state, and that they make one move in
//! every operation and in a joined text.

use plain::codes::{INPUT_WITHOUT_MOVE, TWO_EDGES};
use plain::{check, implementation, join, read, safe_states, search, widest, Refusal, Safe, Widest, TEXT_LIMIT};
use texts::kinds::{texts, Kind};
use texts::{each_edge_twice, post, twice, Model, Random};

/// The tick length with which a constant is as many ticks as it says.
const TICK: usize = 1;

/// Bytes of `keep` for any text.
const KEEP: usize = 512;

fn refused<T>(code: usize, state: usize, channel: usize) -> Result<T, Refusal> {
    Err(Refusal { code, file: 1, p: state, q: channel })
}

/// The number of states, or the refusal.
fn judged(text: impl AsRef<[u8]>) -> Result<usize, Refusal> {
    read(TICK, text.as_ref()).map(|record| record.states)
}

/// The post with these edges in place of its first one.
fn post_with(edges: &[&str]) -> String {
    const FIRST: &str = "Wait -> Done { sync pass?; }";
    let text = String::from_utf8(post()).unwrap();
    assert!(text.contains(FIRST));
    text.replace(FIRST, &edges.join(",\n"))
}

/// The run of a shortest departure.
fn departure(left: &[u8], right: &[u8]) -> Result<Vec<u32>, Refusal> {
    let entries = judged(left)? * judged(right)?;
    let (mut back, mut line, mut run) = (vec![0; entries], vec![0; entries], vec![0; entries]);
    let steps = search(TICK, left, right, &mut [0; KEEP], &mut back, &mut line, &mut run)?;
    Ok(run[..steps].to_vec())
}

/// The widest table.
fn table(left: &[u8], right: &[u8]) -> (Widest, Vec<u8>) {
    let (rows, width) = (judged(left).unwrap(), judged(right).unwrap());
    let mut table = vec![0; format!("P4\n{width} {rows}\n").len() + rows * width.div_ceil(8)];
    (widest(TICK, left, right, &mut [0; KEEP], &mut table).unwrap(), table)
}

/// SPECIFICATION 16.10.
#[test]
fn twice_is_a_post() {
    let example = concat!(env!("CARGO_MANIFEST_DIR"), "/../../examples/Twice.xta");
    assert_eq!(twice(), std::fs::read(example).unwrap());
    let record = read(TICK, &twice()).unwrap();
    assert_eq!((record.states, record.edges.len(), record.edges[0]), (10, 6, record.edges[1]));
    let mut keep = [0xff; 3];
    assert_eq!(safe_states(TICK, &twice(), &mut keep), Ok(Safe { count: 9, start: true }));
    assert_eq!(keep, [0b1111_0111, 0b1100_0000, 0xff]);
    assert_eq!(implementation(TICK, &twice()), Ok(()));
    let of_post = table(&post(), &post());
    assert_eq!(of_post.0, Widest { pairs: 29, start: true });
    for (left, right) in [(twice(), post()), (post(), twice()), (twice(), twice())] {
        assert_eq!(departure(&left, &right), Ok(vec![]));
        assert_eq!(table(&left, &right), of_post);
        assert_eq!(check(TICK, &left, &right, &mut [0; KEEP], &of_post.1), Ok(29));
    }
}

const PASS: &str = "Wait -> Done { sync pass?; }";
const STAYING: &str = "Wait -> Wait { sync pass?; }";
const RESETTING: &str = "Wait -> Done { sync pass?; assign x = 0; }";

#[test]
fn a_second_edge_elsewhere() {
    for edges in [[PASS, STAYING], [STAYING, PASS]] {
        assert_eq!(judged(post_with(&edges)), refused(TWO_EDGES, 0, 1));
    }
    for edges in [[PASS, RESETTING], [RESETTING, PASS]] {
        assert_eq!(judged(post_with(&edges)), refused(TWO_EDGES, 1, 1));
    }
}

/// Any one of three that leads elsewhere is a fault, in whatever order they stand; three of a kind are none.
#[test]
fn three_edges_in_every_order() {
    const ORDERS: [[usize; 3]; 6] = [[0, 1, 2], [0, 2, 1], [1, 0, 2], [1, 2, 0], [2, 0, 1], [2, 1, 0]];
    const AT_ZERO: &str = "Wait -> Done { guard x <= 0; sync pass?; assign x = 0; }";
    const LATER: &str = "Wait -> Done { guard x >= 2; sync pass?; assign x = 0; }";
    for (edges, answer) in [
        ([PASS, PASS, PASS], Ok(10)),
        ([PASS, PASS, AT_ZERO], Ok(10)),
        ([RESETTING, RESETTING, AT_ZERO], Ok(10)),
        ([PASS, PASS, STAYING], refused(TWO_EDGES, 0, 1)),
        ([STAYING, STAYING, PASS], refused(TWO_EDGES, 0, 1)),
        ([PASS, PASS, RESETTING], refused(TWO_EDGES, 1, 1)),
        ([PASS, AT_ZERO, LATER], refused(TWO_EDGES, 2, 1)),
        ([PASS, STAYING, RESETTING], refused(TWO_EDGES, 0, 1)),
    ] {
        for order in ORDERS {
            let text = post_with(&order.map(|place| edges[place]));
            assert_eq!(judged(&text), answer, "{text}");
        }
    }
}

/// Inputs a and b, clocks x and y, locations K with the first invariant and L with the second.
fn two_places(invariants: [&str; 2], edges: &[&str]) -> String {
    let [of_k, of_l] = invariants;
    let places = format!("K {of_k}, L {of_l}");
    let edges = edges.join(", ");
    let text = format!("process P() {{ clock x, y; state {places}; init K; trans {edges}; }} system P;");
    format!("broadcast chan a, b; {text}")
}

const AT_L: &str = "L -> L { sync a?; assign x = 0; }";
const AT_K: &str = "K -> K { sync a?; }";

/// Two edges that lead to different states are a fault only where both give moves.
#[test]
fn cut_off_by_guards() {
    let with = |second: &str| judged(two_places(["", ""], &[AT_K, AT_L, second]));
    assert_eq!(with("K -> K { guard x <= 0; sync a?; assign x = 0; }"), Ok(8));
    assert_eq!(with("K -> K { guard x < 1; sync a?; assign x = 0; }"), Ok(12));
    assert_eq!(with("K -> L { guard x < 0; sync a?; }"), Ok(8));
    assert_eq!(with("K -> L { guard x < 2 && x > 1; sync a?; }"), Ok(16));
    assert_eq!(with("K -> K { guard x <= 1; sync a?; assign x = 0; }"), refused(TWO_EDGES, 1, 1));
    assert_eq!(with("K -> K { guard x == 2; sync a?; assign x = 0; }"), refused(TWO_EDGES, 2, 1));
    // Above its largest constant a clock that is not reset is not at 0, and one that nothing compares is above it at 1.
    assert_eq!(with("K -> K { guard x > 2; sync a?; assign x = 0; }"), refused(TWO_EDGES, 3, 1));
    assert_eq!(with("K -> K { sync a?; assign y = 0; }"), refused(TWO_EDGES, 2, 1));
    assert_eq!(with("K -> K { guard x == 2; sync a?; }"), Ok(16));
}

/// The target's invariant takes moves away, and where the source's does not hold nothing is judged.
#[test]
fn cut_off_by_invariants() {
    let with = |of_k: &str, of_l: &str, second: &str| judged(two_places([of_k, of_l], &[AT_K, AT_L, second]));
    let leading_on = "K -> L { guard x == 3; sync a?; }";
    assert_eq!(with("", "{ x <= 2 }", leading_on), Ok(20));
    assert_eq!(with("", "{ x <= 3 }", leading_on), refused(TWO_EDGES, 3, 1));
    assert_eq!(with("{ x < 3 }", "{ x <= 3 }", leading_on), Ok(20));
    let resetting = "K -> K { sync a?; assign x = 0; }";
    assert_eq!(with("{ x <= 0 }", "", resetting), Ok(8));
    assert_eq!(with("{ x < 2 }", "", resetting), refused(TWO_EDGES, 1, 1));
    // A reset makes the invariant of the target hold.
    assert_eq!(with("", "{ x <= 2 }", "K -> L { guard x == 3; sync a?; assign x = 0; }"), refused(TWO_EDGES, 3, 1));
}

/// Of two clocks each edge resets one: they lead to one state where both are at 0.
#[test]
fn resets_of_two_clocks() {
    let edges = |guard: &str| {
        let resetting = |clock: &str| format!("K -> K {{ {guard} sync a?; assign {clock} = 0; }}");
        let (x, y) = (resetting("x"), resetting("y"));
        judged(two_places(["{ x <= 1 && y <= 1 }", ""], &[&x, &y, AT_L, AT_K]))
    };
    assert_eq!(edges("guard x == 0 && y == 0;"), Ok(18));
    // State 1 has x at 1 and y at 0: one edge resets x, and the third resets nothing.
    assert_eq!(edges(""), refused(TWO_EDGES, 1, 1));
    let both = ["x = 0, y = 0", "y = 0, x = 0", "x = 0, y = 0, x = 0"];
    let both = both.map(|resets| format!("K -> L {{ sync a?; assign {resets}; }}"));
    let both: Vec<&str> = both.iter().map(String::as_str).collect();
    assert_eq!(judged(two_places(["", ""], &[&both[..], &[AT_L]].concat())), Ok(8));
}

/// The lowest state counts, and in it the lowest channel, whichever code it is (SPECIFICATION 7.2).
#[test]
fn faults_in_order() {
    let elsewhere = ["K -> K { sync b?; }", "K -> L { sync b?; }", "L -> L { sync b?; }"];
    let with = |edges: &[&str]| judged(two_places(["", ""], &[edges, &elsewhere, &[AT_L]].concat()));
    assert_eq!(with(&["K -> K { guard x > 0; sync a?; }"]), refused(INPUT_WITHOUT_MOVE, 0, 1));
    assert_eq!(with(&[AT_K]), refused(TWO_EDGES, 0, 2));
    assert_eq!(with(&[AT_K, AT_K]), refused(TWO_EDGES, 0, 2));
    assert_eq!(with(&[AT_K, "K -> L { guard x > 0; sync a?; }"]), refused(TWO_EDGES, 0, 2));
}

fn joined(left: &[u8], right: &[u8]) -> String {
    let mut out = vec![0; TEXT_LIMIT];
    let length = join(TICK, left, right, &mut out).unwrap();
    String::from_utf8(out[..length].to_vec()).unwrap()
}

/// Each pair of matching edges is written, and the text is accepted (SPECIFICATION 18.4).
#[test]
fn joined_posts() {
    for (left, right, edges) in [(twice(), twice(), 4), (twice(), post(), 2), (post(), twice(), 2)] {
        let text = joined(&left, &right);
        assert_eq!(text.matches("l0 -> l3 { sync pass ? ; }").count(), edges, "{text}");
        assert_eq!(judged(&text), judged(joined(&post(), &post())));
        assert!(plain::has_parallel_edges(TICK, text.as_bytes()));
        for side in [&left, &right, &post()] {
            assert_eq!(departure(text.as_bytes(), side), Ok(vec![]));
            assert_eq!(departure(side, text.as_bytes()), Ok(vec![]));
        }
    }
}

/// A text with parallel edges more is answered as it was without them. Its comparisons may be with larger constants, so
/// that there are more states, but runs are the same.
#[test]
fn moves_stay_as_they_were() {
    let (mut compared, mut departing) = (0, 0);
    for seed in 0..3_000 {
        let random = &mut Random::new(seed);
        let model = Model::random(random, 3);
        let (more, other) = (model.with_parallel_edges(random), model.varied(random));
        let [text, more, other] = [model, more, other].map(|model| model.text(random));
        assert_eq!(judged(&text).is_ok(), judged(&more).is_ok(), "seed {seed}");
        if judged(&text).is_err() || judged(&other).is_err() || !plain::has_parallel_edges(TICK, &more) {
            continue;
        }
        compared += 1;
        let code = |text: &[u8]| implementation(TICK, text).map_err(|refusal| refusal.code);
        assert_eq!(code(&text).is_ok(), code(&more).is_ok(), "seed {seed}");
        let run = departure(&text, &other);
        departing += usize::from(run.as_ref().is_ok_and(|run| !run.is_empty()));
        match run {
            Err(refusal) => assert_eq!(departure(&more, &other).map_err(|other| other.code), Err(refusal.code)),
            run => assert_eq!(departure(&more, &other), run, "seed {seed}"),
        }
        if let Ok(run) = departure(&other, &text) {
            assert_eq!(departure(&other, &more), Ok(run), "seed {seed}");
        }
    }
    println!("{compared} compared, {departing} departing");
    assert!(compared > 1_000 && departing > 200, "{compared} compared, {departing} departing");
}

/// With each edge twice, safe states and tables are the same, byte for byte.
#[test]
fn every_edge_twice() {
    for (kind, clocks) in [Kind::Full, Kind::Late, Kind::Same].into_iter().flat_map(|kind| [1, 2].map(|n| (kind, n))) {
        let (left, right) = texts(kind, 200, clocks, 7);
        let (left_twice, right_twice) = (each_edge_twice(&left).unwrap(), each_edge_twice(&right).unwrap());
        let count = |text: &[u8]| read(TICK, text).unwrap().edges.len();
        assert_eq!((count(&left_twice), count(&right_twice)), (2 * count(&left), 2 * count(&right)));
        let (mut keep, mut keep_twice) = ([7; KEEP], [7; KEEP]);
        let safe = safe_states(TICK, &left, &mut keep);
        assert_eq!((safe, keep), (safe_states(TICK, &left_twice, &mut keep_twice), keep_twice));
        let expected = table(&left, &right);
        assert_eq!(table(&left_twice, &right_twice), expected);
        assert_eq!(table(&left, &right_twice), expected);
        assert_eq!(departure(&left_twice, &right), departure(&left, &right));
    }
}
