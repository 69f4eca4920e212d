//! Two texts joined (SPECIFICATION 18): the text byte for byte, names, limits, slices, and what the joined text means.

use plain::codes::{LIMIT_EXCEEDED, OUT_TOO_SHORT};
use plain::{join, read, safe_states, search, Refusal, TEXT_LIMIT};
use texts::{at_single_values, early, hush, idle, joinable, loose, of_joined_length, post, rearm, sheet, Random};

/// The tick length with which a constant is as many ticks as it says.
const TICK: usize = 1;

/// The joined text.
fn joined(tick_length: usize, left: &[u8], right: &[u8]) -> Result<Vec<u8>, Refusal> {
    let mut out = vec![0; TEXT_LIMIT];
    let length = join(tick_length, left, right, &mut out)?;
    out.truncate(length);
    Ok(out)
}

fn refused<T>(code: usize, p: usize) -> Result<T, Refusal> {
    Err(Refusal { code, file: 0, p, q: 0 })
}

/// One location and these channels, none of which is used; some clocks.
fn bare(channels: &str, clocks: &str) -> Vec<u8> {
    format!("broadcast chan {channels}; process P() {{ {clocks} state A; init A; }} system P;").into_bytes()
}

#[test]
fn post_and_idle() {
    let text = "broadcast chan pass , spike , late ; process p0 ( ) { clock c0 , c1 ; \
        state l0 { c0 <= 3 } , l1 { c0 <= 3 } , l2 , l3 ; init l0 ; trans \
        l0 -> l3 { sync pass ? ; } , l1 -> l3 { sync pass ? ; } , \
        l0 -> l0 { sync spike ? ; } , l1 -> l1 { sync spike ? ; } , \
        l2 -> l3 { sync pass ? ; } , l3 -> l3 { sync pass ? ; } , \
        l2 -> l2 { sync spike ? ; } , l3 -> l3 { sync spike ? ; } ; } system p0 ;\n";
    assert_eq!(String::from_utf8(joined(TICK, &post(), &idle()).unwrap()).unwrap(), text);
}

#[test]
fn guards_resets_and_ticks() {
    let left = b"broadcast chan o; process P() { clock x, y; state A; init A;
        trans A -> A { guard y > 25 && x == 4; sync o!; assign y = 0, x = 0, y = 0; }; } system P;";
    let right = b"broadcast chan o; process P() { clock z; state A { z < 10 }, B; init B;
        trans B -> A { guard z < 010; sync o!; }, A -> B { sync o!; assign z = 0; }; } system P;";
    let text = "broadcast chan o ; process p0 ( ) { clock c0 , c1 , c2 ; state l0 { c2 < 1 } , l1 ; init l1 ; trans \
        l1 -> l0 { guard c1 > 3 && c0 == 0 && c2 < 1 ; sync o ! ; assign c0 = 0 , c1 = 0 ; } , \
        l0 -> l1 { guard c1 > 3 && c0 == 0 ; sync o ! ; assign c0 = 0 , c1 = 0 , c2 = 0 ; } ; } system p0 ;\n";
    assert_eq!(String::from_utf8(joined(10, left, right).unwrap()).unwrap(), text);
}

#[test]
fn empty_parts() {
    let text = b"process P() { state A; init A; } system P;";
    let bare = b"process p0 ( ) { state l0 ; init l0 ; } system p0 ;\n";
    assert_eq!(joined(TICK, text, text), Ok(bare.to_vec()));
}

/// The process' name says how many underscores there are.
#[test]
fn names() {
    for (channels, clocks, process) in [
        ("a", "", "p0"),
        ("l0", "", "_p0"),
        ("p0", "", "_p0"),
        ("c0", "", "p0"),
        ("c0", "clock x;", "_p0"),
        ("c1", "clock x;", "p0"),
        ("l1, p1, c3, _l0, l00, L0", "clock x;", "p0"),
        ("l0, __c0, _p0", "clock x;", "___p0"),
        ("l0, __p0", "", "_p0"),
    ] {
        let text = joined(TICK, &bare(channels, clocks), &bare(channels, "")).unwrap();
        let text = String::from_utf8(text).unwrap();
        assert!(text.contains(&format!("process {process} (")), "{channels}: {text}");
    }
}

#[test]
fn limits() {
    let clocks = |list: &str| bare("a", &format!("clock {list};"));
    assert!(joined(TICK, &clocks("x, y"), &clocks("z")).is_ok());
    assert_eq!(joined(TICK, &clocks("x, y"), &clocks("x, y")), refused(LIMIT_EXCEEDED, 0));
    assert!(joined(TICK, &at_single_values(8), &at_single_values(16)).is_ok());
    assert_eq!(joined(TICK, &at_single_values(43), &at_single_values(3)), refused(LIMIT_EXCEEDED, 0));
    for length in [32_733, 32_767, TEXT_LIMIT] {
        let (left, right) = of_joined_length(length);
        assert_eq!(joined(TICK, &left, &right).map(|text| text.len()), Ok(length));
    }
    for length in [TEXT_LIMIT + 1, 32_793] {
        let (left, right) = of_joined_length(length);
        assert_eq!(joined(TICK, &left, &right), refused(LIMIT_EXCEEDED, 0));
    }
}

#[test]
fn slices() {
    let (left, right) = (loose(), early());
    let text = joined(TICK, &left, &right).unwrap();
    let mut out = vec![7; text.len() + 9];
    assert_eq!(join(TICK, &left, &right, &mut out), Ok(text.len()));
    assert_eq!(out, [&text[..], &[7; 9]].concat());
    for length in [0, text.len() - 1] {
        let mut out = vec![7; length];
        assert_eq!(join(TICK, &left, &right, &mut out), refused(OUT_TOO_SHORT, text.len()));
        assert_eq!(out, vec![7; length]);
    }
    // 25 before 26, and 24 before both.
    let many = at_single_values(128);
    assert_eq!(join(TICK, &many, &many, &mut []), refused(LIMIT_EXCEEDED, 0));
    assert_eq!(join(0, &many, &many, &mut []), refused(plain::codes::TICK_OUT_OF_RANGE, 0));
}

/// The number of steps of a shortest departure.
fn steps(left: &[u8], right: &[u8]) -> Result<usize, Refusal> {
    let entries = read(TICK, left)?.states * read(TICK, right)?.states;
    let (mut back, mut line, mut run) = (vec![0; entries], vec![0; entries], vec![0; entries]);
    search(TICK, left, right, &mut [0; 512], &mut back, &mut line, &mut run)
}

/// The posts: what is joined keeps both; two that contradict each other have no implementation.
#[test]
fn posts() {
    let text = joined(TICK, &loose(), &early()).unwrap();
    assert_eq!((steps(&text, &loose()), steps(&text, &early())), (Ok(0), Ok(0)));
    assert_eq!((steps(&early(), &text), steps(&loose(), &text)), (Ok(0), Ok(3)));
    for (left, right) in [(post(), rearm()), (early(), post()), (hush(), post())] {
        let text = joined(TICK, &left, &right).unwrap();
        assert!(!safe_states(TICK, &text, &mut [0; 512]).unwrap().start);
    }
    // Of Sheet, the constants are ticks when it is joined.
    assert_eq!(joined(1_000, &sheet(), &sheet()), joined(TICK, &post(), &post()));
}

/// A joined text is accepted, and refines both wherever it has an implementation; what refines both refines it.
#[test]
fn random_pairs() {
    let (mut written, mut parallel, mut held) = (0, 0, 0);
    for seed in 0..4_000 {
        let random = &mut Random::new(seed);
        let (left, right) = joinable(random);
        let Ok(text) = joined(TICK, &left, &right) else { continue };
        written += 1;
        let states = read(TICK, &text).expect("an accepted text").states;
        parallel += usize::from(plain::has_parallel_edges(TICK, &text));
        if states * read(TICK, &left).unwrap().states.max(read(TICK, &right).unwrap().states) > 60_000 {
            continue;
        }
        if safe_states(TICK, &text, &mut [0; 512]).unwrap().start {
            assert_eq!((steps(&text, &left), steps(&text, &right)), (Ok(0), Ok(0)));
            held += 1;
        }
        if steps(&left, &right) == Ok(0) {
            assert_eq!(steps(&left, &text), Ok(0), "seed {seed}");
        }
    }
    println!("{written} written, {parallel} of them with parallel edges, {held} held");
    assert!(written > 1_500 && parallel > 500 && held > 800, "{written} written, {parallel} parallel, {held} held");
}
