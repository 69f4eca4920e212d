//! Late clocks (SPECIFICATION 5.4, 6.3, 6.4, 16.11): the value that counts, what counts towards M, which moves there are,
//! the record's numbers and the joined text.

use plain::codes::{CONSTANT_TOO_LARGE, INPUT_WITHOUT_MOVE, LIMIT_EXCEEDED, TWO_EDGES};
use plain::{implementation, join, read, safe_states, search, widest, Assignment, Refusal, Safe};
use plain::{RECORD_ENTRIES, TEXT_LIMIT};
use texts::kinds::{texts, Kind};
use texts::{post, rearm, started_late, woken, Model, Random};

/// The tick length with which a constant is as many ticks as it says.
const TICK: usize = 1;

/// Bytes of `keep` for any text.
const KEEP: usize = 512;

const TICKS: u32 = 0;
const SPIKE: u32 = 2;
const LATE: u32 = 3;

fn refused<T>(code: usize, p: usize, q: usize) -> Result<T, Refusal> {
    Err(Refusal { code, file: 1, p, q })
}

/// The number of states, or the refusal.
fn judged(text: impl AsRef<[u8]>) -> Result<usize, Refusal> {
    read(TICK, text.as_ref()).map(|record| record.states)
}

/// Woken with another list of assignments in its second edge.
fn assigning(assignments: &str) -> String {
    const ONE: &str = "assign x = 1;";
    let text = String::from_utf8(woken()).unwrap();
    assert!(text.contains(ONE));
    text.replace(ONE, &format!("assign {assignments};"))
}

/// What the second edge of the text does to each clock.
fn assignments(text: impl AsRef<[u8]>) -> [Option<Assignment>; 3] {
    read(TICK, text.as_ref()).unwrap().edges[1].assignments
}

/// The run of a shortest departure.
fn departure(left: impl AsRef<[u8]>, right: impl AsRef<[u8]>) -> Result<Vec<u32>, Refusal> {
    let (left, right) = (left.as_ref(), right.as_ref());
    let entries = judged(left)? * judged(right)?;
    let (mut back, mut line, mut run) = (vec![0; entries], vec![0; entries], vec![0; entries]);
    let steps = search(TICK, left, right, &mut [0; KEEP], &mut back, &mut line, &mut run)?;
    Ok(run[..steps].to_vec())
}

fn joined(left: impl AsRef<[u8]>, right: impl AsRef<[u8]>) -> Result<String, Refusal> {
    let mut out = vec![0; TEXT_LIMIT];
    let length = join(TICK, left.as_ref(), right.as_ref(), &mut out)?;
    Ok(String::from_utf8(out[..length].to_vec()).unwrap())
}

/// SPECIFICATION 16.11.
#[test]
fn woken_is_a_post_that_has_used_a_tick() {
    let example = concat!(env!("CARGO_MANIFEST_DIR"), "/../../examples/Woken.xta");
    assert_eq!(woken(), std::fs::read(example).unwrap());
    assert_eq!(judged(woken()), Ok(10));
    assert_eq!(assignments(woken()), [Some(Assignment { value: 1, largest: 1 }), None, None]);
    let mut keep = [0xff; 3];
    assert_eq!(safe_states(TICK, &woken(), &mut keep), Ok(Safe { count: 9, start: true }));
    assert_eq!(keep, [0b1111_0111, 0b1100_0000, 0xff]);
    assert_eq!(implementation(TICK, &woken()), Ok(()));
    assert_eq!(departure(woken(), post()), Ok(vec![SPIKE, TICKS, TICKS, LATE]));
    assert_eq!(departure(post(), woken()), Ok(vec![SPIKE, TICKS, TICKS, TICKS]));
    assert_eq!(departure(woken(), woken()), Ok(vec![]));
}

/// SPECIFICATION 16.11.
#[test]
fn other_assignments() {
    assert_eq!(judged(assigning("x = 3")), Ok(10));
    assert_eq!(judged(assigning("x = 4")), refused(INPUT_WITHOUT_MOVE, 0, 2));
    assert_eq!(judged(assigning("x = 7, x = 1")), Ok(18));
    assert_eq!(assignments(assigning("x = 7, x = 1")), [Some(Assignment { value: 1, largest: 7 }), None, None]);
    assert_eq!(judged(assigning("x = 1, x = 7")), refused(INPUT_WITHOUT_MOVE, 0, 2));
    assert_eq!(departure(assigning("x = 7, x = 1"), woken()), Ok(vec![]));
    assert_eq!(departure(woken(), assigning("x = 7, x = 1")), Ok(vec![]));
    assert_eq!(departure(assigning("x = 7, x = 1"), post()), Ok(vec![SPIKE, TICKS, TICKS, LATE]));
}

/// x = 4 is outside Wait's invariant, but 4 counts towards M: where Wait has no invariant, there are 12 states.
#[test]
fn states_by_an_assignment() {
    assert_eq!(judged(assigning("x = 4").replace("Wait { x <= 3 }", "Wait")), Ok(12));
    assert_eq!(judged(assigning("x = 1, x = 4, x = 0").replace("Wait { x <= 3 }", "Wait")), Ok(12));
    // From the first edge that is never taken, too.
    let never = "Wait -> Wait { guard x < 0; sync spike?; assign x = 9; },\nWait -> Wait { sync spike?; }";
    let text = String::from_utf8(post()).unwrap();
    assert_eq!(judged(text.replace("Wait -> Wait { sync spike?; }", never)), Ok(22));
}

/// SPECIFICATION 16.11: the largest one that passes, and the one above it.
#[test]
fn the_limit() {
    // Wait takes no spike, but what is wrong with a constant is said first.
    assert_eq!(judged(assigning("x = 1000")), refused(INPUT_WITHOUT_MOVE, 0, 2));
    assert_eq!(judged(assigning("x = 1000, x = 1")), Ok(2_004));
    for assignments in ["x = 1001", "x = 1001, x = 1", "x = 1, x = 1001", "x = 1, x = 1001, x = 2"] {
        let text = assigning(assignments);
        assert_eq!(judged(&text), refused(CONSTANT_TOO_LARGE, text.find("1001").unwrap(), 0), "{assignments}");
    }
}

/// SPECIFICATION 16.11: an edge beside one that sets the clock to another value, or does not set it.
#[test]
fn two_edges() {
    let second = "Wait -> Wait { sync spike?; }";
    let beside = |one: &str, other: &str| {
        let text = String::from_utf8(post()).unwrap();
        let edges = [one, other].map(|assign| second.replace(" }", &format!(" {assign} }}")));
        judged(text.replace(second, &edges.join(",\n")))
    };
    assert_eq!(beside("", "assign x = 1;"), refused(TWO_EDGES, 0, 2));
    assert_eq!(beside("assign x = 1;", ""), refused(TWO_EDGES, 0, 2));
    // At x = 0 both lead to one state, at x = 1 they do not.
    assert_eq!(beside("assign x = 0;", ""), refused(TWO_EDGES, 1, 2));
    assert_eq!(beside("assign x = 2;", "assign x = 1;"), refused(TWO_EDGES, 0, 2));
    assert_eq!(beside("assign x = 2;", "assign x = 1, x = 2;"), Ok(10));
    assert_eq!(beside("assign x = 2;", "assign x = 2, x = 1;"), refused(TWO_EDGES, 0, 2));
    // The second one gives no moves: Wait's invariant forbids its value.
    assert_eq!(beside("assign x = 2;", "assign x = 4;"), Ok(12));
    assert_eq!(beside("", "assign x = 4;"), Ok(12));
}

/// The record's numbers (SPECIFICATION 15.2), entry by entry.
#[test]
fn numbers_of_the_record() {
    const EDGES: usize = 540;
    const EDGE: usize = 26;
    let clocks = |text: String| text.replace("clock x;", "clock x, y, z;");
    let record = read(TICK, clocks(assigning("z = 5, x = 2, z = 3, z = 4")).as_bytes()).unwrap();
    assert_eq!(record.states, 2 * 5 * 2 * 7);
    let mut numbers = [usize::MAX; RECORD_ENTRIES + 1];
    record.write(&mut numbers);
    assert_eq!((numbers[4], numbers[5]), (5, 140));
    let edge = &numbers[EDGES + EDGE..][..EDGE];
    assert_eq!(edge[..5], [0, 0, 1, 2, 0]);
    assert_eq!(edge[17..], [1, 2, 2, 0, 0, 0, 1, 4, 5]);
    let late = &numbers[EDGES + 2 * EDGE..][..EDGE];
    assert_eq!(late[..8], [0, 1, 2, 3, 1, 0, 1, 3]);
    assert_eq!(late[17..], [0; 9]);
    assert_eq!((RECORD_ENTRIES, numbers[RECORD_ENTRIES]), (3_868, usize::MAX));
    // As far as the slice goes.
    let mut some = vec![usize::MAX; EDGES + EDGE + 22];
    record.write(&mut some);
    assert_eq!(some, numbers[..some.len()]);
}

/// Each clock once, in clock order, with the value that counts, in ticks (SPECIFICATION 18.5).
#[test]
fn joined_assignments() {
    let text = joined(assigning("x = 7, x = 1"), rearm()).unwrap();
    assert_eq!(text.matches("{ sync spike ? ; assign c0 = 1 , c1 = 0 ; }").count(), 1, "{text}");
    assert_eq!(text.matches("assign").count(), 3, "{text}");
    // 7 is not written and counts no more: c0 has the 5 values of Woken's x.
    assert_eq!(judged(&text), Ok(4 * 5 * 5));
    let text = joined(woken(), assigning("x = 7, x = 1")).unwrap();
    assert_eq!(text, joined(woken(), woken()).unwrap());
    for side in [woken(), text.clone().into_bytes()] {
        assert_eq!((departure(&text, &side), departure(&side, &text)), (Ok(vec![]), Ok(vec![])));
    }
    // In milliseconds: 1.5 ticks go up.
    let mut out = vec![0; TEXT_LIMIT];
    let length = join(2, assigning("x = 3").as_bytes(), &woken(), &mut out).unwrap();
    let text = String::from_utf8(out[..length].to_vec()).unwrap();
    assert_eq!(text.matches("assign c0 = 2 , c1 = 1 ; }").count(), 1, "{text}");
}

/// The joined text's states are those of the values that are written (SPECIFICATION 18.8).
#[test]
fn joined_states() {
    let text = |assign: &str| {
        let edge = format!("L -> L {{ sync a!; assign {assign}; }}");
        format!("broadcast chan a; process P() {{ clock x; state L; init L; trans {edge}; }} system P;")
    };
    let states = |left: &str, right: &str| joined(text(left), text(right)).and_then(judged);
    let too_many = Err(Refusal { code: LIMIT_EXCEEDED, file: 0, p: 0, q: 0 });
    assert_eq!(states("x = 62", "x = 62"), Ok(4_096));
    assert_eq!(states("x = 62", "x = 63"), too_many);
    assert_eq!(states("x = 1000, x = 62", "x = 900, x = 62"), Ok(4_096));
    assert_eq!(states("x = 62, x = 1000", "x = 62"), too_many);
}

/// A value that is overridden and counts no further towards M makes no difference, byte for byte.
#[test]
fn overridden_values() {
    for (kind, ticks) in [(Kind::Full, 1), (Kind::Same, 1), (Kind::Late, 1), (Kind::Full, 4), (Kind::Loop, 2)] {
        let (left, right) = texts(kind, 1_000, 2, 7);
        let late = [left, right].map(|text| started_late(&text, ticks));
        let overriding = late.clone().map(|text| {
            let (text, last) = (String::from_utf8(text).unwrap(), format!("x = {ticks}"));
            text.replace(&last, &format!("x = 0 , x = {} , {last}", ticks - 1)).into_bytes()
        });
        assert!(late.iter().any(|text| plain::has_late_clocks(TICK, text)) && late != overriding, "{}", kind.name());
        let made = [&late, &overriding].map(|[left, right]| {
            let (rows, width) = (judged(left).unwrap(), judged(right).unwrap());
            let (mut keep, mut table) = ([0; KEEP], vec![0; 20 + rows * width.div_ceil(8)]);
            let made = widest(TICK, left, right, &mut keep, &mut table).unwrap();
            (made, keep, table, departure(left, right))
        });
        assert!(made[0] == made[1], "{}", kind.name());
    }
}

/// A text joined with one that allows everything says what it said.
#[test]
fn joined_with_one_that_allows_all() {
    let (mut compared, mut late) = (0, 0);
    for seed in 0..2_000 {
        let random = &mut Random::new(seed);
        let clocks = random.below(4);
        let channels: Vec<(String, bool)> =
            (0..random.below(4)).map(|i| (format!("c{i}"), random.chance(50))).collect();
        let text = Model::with_clocks(random, channels.clone(), clocks, 3).text(random);
        let edges: Vec<String> = channels
            .iter()
            .map(|(name, input)| format!("L -> L {{ sync {name}{}; }}", if *input { "?" } else { "!" }))
            .collect();
        let names: Vec<&str> = channels.iter().map(|(name, _)| name.as_str()).collect();
        let trans = if edges.is_empty() { String::new() } else { format!("trans {};", edges.join(", ")) };
        let front = if names.is_empty() { String::new() } else { format!("broadcast chan {};", names.join(", ")) };
        let all = format!("{front} process P() {{ state L; init L; {trans} }} system P;");
        let Ok(text_joined) = joined(&text, &all) else { continue };
        compared += 1;
        late += usize::from(plain::has_late_clocks(TICK, &text));
        for (one, other) in [(&text[..], text_joined.as_bytes()), (text_joined.as_bytes(), &text[..])] {
            match departure(one, other) {
                Ok(run) => assert_eq!(run, [], "seed {seed}"),
                Err(refusal) => assert_eq!(refusal.code, 17, "seed {seed}"),
            }
        }
    }
    println!("{compared} compared, {late} with late clocks");
    assert!(compared > 500 && late > 150, "{compared} compared, {late} with late clocks");
}
