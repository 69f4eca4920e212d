//! The posts, with the numbers of SPECIFICATION 16.

use plain::{check, implementation, read, safe_states, search, widest, Refusal, Safe, Sign, Widest};
use texts::{early, hush, idle, loose, post, rearm, sheet, spare, strict};

/// The tick length with which a constant is as many ticks as it says.
const TICK: usize = 1;

fn refused(code: usize, file: usize, p: usize, q: usize) -> Refusal {
    Refusal { code, file, p, q }
}

fn departure(left: &[u8], right: &[u8]) -> Result<Vec<u32>, Refusal> {
    let (mut back, mut line) = (vec![0; 10_000], vec![0; 10_000]);
    let mut run = vec![0; 100];
    let steps = search(TICK, left, right, &mut [0; 16], &mut back, &mut line, &mut run)?;
    Ok(run[..steps].to_vec())
}

fn make(left: &[u8], right: &[u8]) -> (Widest, Vec<u8>) {
    let mut table = vec![0xaa; 29];
    let answer = widest(TICK, left, right, &mut [0; 2], &mut table).unwrap();
    (answer, table)
}

fn with(old: &str, new: &str) -> Vec<u8> {
    let text = String::from_utf8(post()).unwrap();
    assert!(text.contains(old));
    text.replacen(old, new, 1).into_bytes()
}

#[test]
fn post_has_10_states_9_safe() {
    assert_eq!(read(TICK, &post()).unwrap().states, 10);
    let mut keep = [0xff; 3];
    assert_eq!(safe_states(TICK, &post(), &mut keep), Ok(Safe { count: 9, start: true }));
    assert_eq!(keep, [0b1111_0111, 0b1100_0000, 0xff]);
}

#[test]
fn hush_has_5_safe_and_is_refused_as_left() {
    assert_eq!(safe_states(TICK, &hush(), &mut [0; 2]), Ok(Safe { count: 5, start: false }));
    assert_eq!(departure(&hush(), &post()), Err(refused(17, 1, 0, 0)));
}

#[test]
fn strict_has_12_states_10_safe() {
    let record = read(TICK, &strict()).unwrap();
    let signs = [record.locations[0].invariant, record.edges[2].guard].map(|list| list.as_slice()[0].sign);
    assert_eq!((record.states, signs), (12, [Sign::Less, Sign::Greater]));
    let mut keep = [0; 2];
    assert_eq!(safe_states(TICK, &strict(), &mut keep), Ok(Safe { count: 10, start: true }));
    assert_eq!(keep, [0b1111_0011, 0b1111_0000]);
}

#[test]
fn strict_and_post_refine_each_other() {
    for (left, right, bytes) in [(strict(), post(), 33), (post(), strict(), 29)] {
        assert_eq!(departure(&left, &right), Ok(vec![]));
        let mut table = vec![0; bytes];
        let answer = widest(TICK, &left, &right, &mut [0; 2], &mut table).unwrap();
        assert_eq!(answer, Widest { pairs: 34, start: true });
        assert_eq!(check(TICK, &left, &right, &mut [0; 2], &table), Ok(34));
    }
}

#[test]
fn strict_signs_in_the_invariant() {
    let place = String::from_utf8(post()).unwrap().find("x <= 3").unwrap();
    assert_eq!(read(TICK, &with("x <= 3", "x < 0")), Err(refused(2, 1, place + 4, 0)));
    assert_eq!(read(TICK, &with("x <= 3", "x < 00")), Err(refused(2, 1, place + 4, 0)));
    assert_eq!(read(TICK, &with("x <= 3", "x > 3")), Err(refused(2, 1, place + 2, 0)));
    assert_eq!(read(TICK, &with("x <= 3", "x < = 3")), Err(refused(2, 1, place + 4, 0)));
    assert_eq!(read(TICK, &with("x <= 3", "x < 1")).unwrap().states, 10);
}

#[test]
fn implementations() {
    for text in [post(), rearm(), early(), idle(), strict(), spare()] {
        assert_eq!(implementation(TICK, &text), Ok(()), "{}", String::from_utf8_lossy(&text));
    }
    assert_eq!(implementation(TICK, &hush()), Err(refused(23, 1, 3, 0)));
    assert_eq!(implementation(TICK, &loose()), Err(refused(22, 1, 2, 3)));
    assert_eq!(read(TICK, &spare()).unwrap().states, 15);
    // Off is reached by `pass?`, and then the fault is there.
    let text = String::from_utf8(spare())
        .unwrap()
        .replace("Wait -> Done { sync pass?; }", "Wait -> Off { sync pass?; assign x = 0; }");
    assert_eq!(implementation(TICK, text.as_bytes()), Err(refused(23, 1, 10, 0)));
    assert_eq!(implementation(TICK, b""), Err(refused(2, 1, 0, 0)));
}

#[test]
fn departures() {
    assert_eq!(departure(&post(), &post()), Ok(vec![]));
    assert_eq!(departure(&early(), &post()).unwrap().len(), 3);
    assert_eq!(departure(&idle(), &post()).unwrap().len(), 4);
    assert_eq!(departure(&post(), &idle()).unwrap().len(), 4);
    assert_eq!(departure(&post(), &hush()).unwrap().len(), 4);
    assert_eq!(departure(&rearm(), &post()), Ok(vec![0, 0, 0, 2, 0]));
}

#[test]
fn widest_table_of_post() {
    let (answer, table) = make(&post(), &post());
    assert_eq!(answer, Widest { pairs: 29, start: true });
    let rows: [[u8; 2]; 10] = [
        [0x80, 0x00],
        [0x40, 0x00],
        [0x20, 0x00],
        [0x10, 0x00],
        [0x00, 0x00],
        [0x07, 0xc0],
        [0x07, 0xc0],
        [0x07, 0xc0],
        [0x07, 0xc0],
        [0x07, 0xc0],
    ];
    let expected: Vec<u8> = b"P4\n10 10\n".iter().copied().chain(rows.concat()).collect();
    assert_eq!(table, expected);
    assert_eq!(check(TICK, &post(), &post(), &mut [0; 2], &table), Ok(29));
}

#[test]
fn widest_table_of_rearm_lacks_the_start() {
    assert_eq!(make(&rearm(), &post()).0, Widest { pairs: 25, start: false });
}

#[test]
fn given_tables() {
    let mut diagonal = b"P4\n10 10\n".to_vec();
    let mut only_start = diagonal.clone();
    for s in 0..10 {
        let bit = if s == 4 { 0 } else { 0x8000_u16 >> s };
        diagonal.extend_from_slice(&bit.to_be_bytes());
        only_start.extend_from_slice(&(if s == 0 { bit } else { 0 }).to_be_bytes());
    }
    assert_eq!(check(TICK, &post(), &post(), &mut [0; 2], &diagonal), Ok(9));
    assert_eq!(check(TICK, &post(), &post(), &mut [0; 2], &only_start), Err(refused(20, 0, 0, 0)));
}

#[test]
fn refused_texts() {
    assert_eq!(read(TICK, b""), Err(refused(2, 1, 0, 0)));
    assert_eq!(read(TICK, b"process \n"), Err(refused(2, 1, 9, 0)));
    assert!(read(TICK, &with("x >= 3", "x >= 1000")).is_ok());
    let place = String::from_utf8(post()).unwrap().find("x >= 3").unwrap() + 5;
    assert_eq!(read(TICK, &with("x >= 3", "x >= 1001")), Err(refused(6, 1, place, 0)));
    assert_eq!(read(TICK, &with(",\nDone -> Done { sync spike?; }", "")), Err(refused(10, 1, 5, 2)));
}

#[test]
fn state_limit() {
    let text = |locations: &str| {
        let guard = "trans A -> A { guard x <= 1000; sync c!; };";
        format!("broadcast chan c; process P() {{ clock x; state {locations}; init A; {guard} }} system P;")
    };
    assert_eq!(read(TICK, text("A, B, C, D").as_bytes()).unwrap().states, 4_008);
    assert_eq!(read(TICK, text("A, B, C, D, E").as_bytes()), Err(refused(9, 1, 5_010, 0)));
}

#[test]
fn short_table() {
    let mut table = [0xaa; 28];
    let answer = widest(TICK, &post(), &post(), &mut [0; 2], &mut table);
    assert_eq!(answer, Err(refused(14, 0, 29, 0)));
    assert_eq!(table, [0xaa; 28]);
}

/// SPECIFICATION 16.9.
#[test]
fn sheet_at_several_tick_lengths() {
    let bounds = |tick_length| {
        let record = read(tick_length, &sheet()).unwrap();
        let bound = |list: plain::Comparisons| list.as_slice()[0].bound;
        (record.states, bound(record.locations[0].invariant), bound(record.edges[2].guard))
    };
    assert_eq!(bounds(1_000), (10, 3, 3));
    assert_eq!(bounds(2_000), (8, 2, 1));
    assert_eq!(bounds(60_000), (4, 0, 0));
    assert_eq!(implementation(1_000, &sheet()), Ok(()));
    assert_eq!(implementation(2_000, &sheet()), Err(refused(22, 1, 1, 3)));
    assert_eq!(implementation(60_000, &sheet()), Ok(()));
    let place = String::from_utf8(sheet()).unwrap().find("3000").unwrap();
    assert_eq!(read(TICK, &sheet()), Err(refused(6, 1, place, 0)));
    for tick_length in [0, 60_001] {
        assert_eq!(read(tick_length, &sheet()), Err(refused(24, 0, tick_length, 0)));
    }
}
