//! The posts through the wrapper; the expected values are those of SPECIFICATION 16.
use megzhoi::{check, implementation, join, read, safe_states, search, widest};
use megzhoi::{Assignment, Code, Direction, Label, Refusal, Side, Sign, KEEP_BYTES, TEXT_LIMIT, TICK_LIMIT};

/// The tick length with which constants are ticks.
const TICK: usize = 1;

const POST: &str = "broadcast chan pass, spike, late;
process Post() {
clock x;
state Wait { x <= 3 }, Done;
init Wait;
trans
Wait -> Done { sync pass?; },
Wait -> Wait { sync spike?; },
Wait -> Done { guard x >= 3; sync late!; },
Done -> Done { sync pass?; },
Done -> Done { sync spike?; };
}
system Post;
";

/// A text with one part replaced, which must be there.
fn changed(text: &str, old: &str, new: &str) -> String {
    assert!(text.contains(old), "{old}");
    text.replace(old, new)
}

fn rearm() -> String {
    assigning("x = 0")
}

/// A post whose second edge has these assignments.
fn assigning(assignments: &str) -> String {
    let edge = format!("Wait -> Wait {{ sync spike?; assign {assignments}; }}");
    changed(POST, "Wait -> Wait { sync spike?; }", &edge)
}

fn woken() -> String {
    assigning("x = 1")
}

fn early() -> String {
    changed(POST, "3", "2")
}

fn strict() -> String {
    changed(&changed(POST, "x <= 3", "x < 4"), "x >= 3", "x > 2")
}

fn hush() -> String {
    changed(POST, "Wait -> Done { guard x >= 3; sync late!; },\n", "")
}

fn idle() -> String {
    changed(&hush(), " { x <= 3 }", "")
}

fn loose() -> String {
    changed(POST, "x >= 3", "x >= 2")
}

fn spare() -> String {
    let located = changed(POST, "Done;\ninit", "Done, Off { x <= 0 };\ninit");
    changed(&located, "};\n}", "},\nOff -> Off { sync pass?; },\nOff -> Off { sync spike?; };\n}")
}

/// The edge of the posts that Twice has a second time.
const PASS: &str = "Wait -> Done { sync pass?; }";

/// A post with these edges in place of its first one.
fn post_with(edges: &[&str]) -> String {
    changed(POST, PASS, &edges.join(",\n"))
}

/// One of the repository's own.
fn example(name: &str) -> Vec<u8> {
    let path = format!("{}/../../examples/{name}.xta", env!("CARGO_MANIFEST_DIR"));
    std::fs::read(&path).unwrap_or_else(|error| panic!("{path}: {error}"))
}

/// With constants in milliseconds.
fn sheet() -> Vec<u8> {
    example("Sheet")
}

/// A refusal by its four numbers.
fn refused<T>(code: usize, file: usize, p: usize, q: usize) -> Result<T, Refusal> {
    let file = [None, Some(Side::Left), Some(Side::Right)][file];
    Err(Refusal { code: Code::try_from(code).unwrap(), file, p, q })
}

/// The steps of a shortest departure, with room enough in every slice.
fn departure(left: &str, right: &str) -> Result<Vec<u32>, Refusal> {
    let (mut keep, mut back, mut line, mut run) = ([0; KEEP_BYTES], vec![0; 16384], vec![0; 16384], vec![0; 16384]);
    let n = search(TICK, left.as_bytes(), right.as_bytes(), &mut keep, &mut back, &mut line, &mut run)?;
    Ok(run[..n].to_vec())
}

fn count(left: &str, right: &str) -> Result<usize, Refusal> {
    departure(left, right).map(|run| run.len())
}

fn checked(table: &[u8]) -> Result<usize, Refusal> {
    check(TICK, POST.as_bytes(), POST.as_bytes(), &mut [0; KEEP_BYTES], table)
}

/// A table of ten by ten with the pairs given.
fn table(pairs: &[(usize, usize)]) -> Vec<u8> {
    let mut bytes = b"P4\n10 10\n".to_vec();
    bytes.resize(29, 0);
    for (s, t) in pairs {
        bytes[9 + 2 * s + t / 8] |= 0x80 >> (t % 8);
    }
    bytes
}

#[test]
fn record_of_post() {
    let record = read(TICK, POST.as_bytes()).unwrap();
    let names: Vec<&str> = record.channels.iter().map(|c| &POST[c.name.clone()]).collect();
    assert_eq!(names, ["pass", "spike", "late"]);
    let directions: Vec<Direction> = record.channels.iter().map(|c| c.direction).collect();
    assert_eq!(directions, [Direction::Input, Direction::Input, Direction::Output]);
    assert_eq!(record.clocks.iter().map(|c| &POST[c.clone()]).collect::<Vec<_>>(), ["x"]);
    assert_eq!(record.locations.iter().map(|l| &POST[l.name.clone()]).collect::<Vec<_>>(), ["Wait", "Done"]);
    let invariant = record.locations[0].invariant[0];
    assert_eq!((invariant.clock, invariant.sign, invariant.bound), (0, Sign::AtMost, 3));
    assert_eq!((record.locations[0].invariant.len(), record.locations[1].invariant.len()), (1, 0));
    assert_eq!((record.init, record.states, record.edges.len()), (0, 10, 5));
    let late = &record.edges[2];
    assert_eq!((late.source, late.target, late.label, late.assignments), (0, 1, Label::Output(3), [None; 3]));
    assert_eq!((late.guard.len(), late.guard[0].sign, late.guard[0].bound), (1, Sign::AtLeast, 3));
    assert_eq!(record.edges[4].label, Label::Input(2));
    let to_zero = Assignment { value: 0, largest: 0 };
    assert_eq!(read(TICK, rearm().as_bytes()).unwrap().edges[1].assignments, [Some(to_zero), None, None]);
}

#[test]
fn signs() {
    let guarded = |guard: &str| changed(POST, "x >= 3", guard);
    let signs = |text: String| -> Vec<(Sign, usize)> {
        let guard = &read(TICK, text.as_bytes()).unwrap().edges[2].guard;
        guard.iter().map(|comparison| (comparison.sign, comparison.bound)).collect()
    };
    let four = [(Sign::Less, 9), (Sign::Greater, 1), (Sign::AtMost, 8), (Sign::AtLeast, 2)];
    assert_eq!(signs(guarded("x < 9 && x > 1 && x <= 8 && x >= 2")), four);
    assert_eq!(signs(guarded("x == 3 && x < 0")), [(Sign::Equal, 3), (Sign::Less, 0)]);
    let record = read(TICK, strict().as_bytes()).unwrap();
    let invariant = record.locations[0].invariant[0];
    assert_eq!((invariant.clock, invariant.sign, invariant.bound, record.states), (0, Sign::Less, 4, 12));
    assert_eq!(signs(strict()), [(Sign::Greater, 2)]);
}

#[test]
fn strict_and_post() {
    let safe = safe_states(TICK, strict().as_bytes(), &mut [0; 2]).unwrap();
    assert_eq!((safe.count, safe.start), (10, true));
    for (left, right, bytes) in [(strict(), POST.to_string(), 33), (POST.to_string(), strict(), 29)] {
        assert_eq!(count(&left, &right), Ok(0));
        let mut table = vec![0; bytes];
        let answer = widest(TICK, left.as_bytes(), right.as_bytes(), &mut [0; 2], &mut table).unwrap();
        assert_eq!((answer.pairs, answer.start), (34, true));
        assert_eq!(check(TICK, left.as_bytes(), right.as_bytes(), &mut [0; 2], &table), Ok(34));
    }
    assert_eq!(departure(&strict(), &early()), Ok(vec![0, 0, 0]));
    assert_eq!(departure(&early(), &strict()), Ok(vec![0, 0, 3]));
}

#[test]
fn signs_of_an_invariant() {
    let place = POST.find("x <= 3").unwrap();
    let states = |text: String| read(TICK, text.as_bytes()).map(|record| record.states);
    let bounded = |invariant: &str| states(changed(POST, "x <= 3", invariant));
    assert_eq!(bounded("x < 0"), refused(2, 1, place + 4, 0));
    assert_eq!(bounded("x < 00"), refused(2, 1, place + 4, 0));
    assert_eq!(bounded("x > 3"), refused(2, 1, place + 2, 0));
    assert_eq!(bounded("x < = 3"), refused(2, 1, place + 4, 0));
    assert_eq!(bounded("x < 1"), Ok(10));
}

#[test]
fn safe_states_of_posts() {
    let mut keep = [0xff; 3];
    let safe = safe_states(TICK, POST.as_bytes(), &mut keep).unwrap();
    assert_eq!((safe.count, safe.start, keep), (9, true, [0xf7, 0xc0, 0xff]));
    let safe = safe_states(TICK, hush().as_bytes(), &mut keep).unwrap();
    assert_eq!((safe.count, safe.start), (5, false));
    assert_eq!(safe_states(TICK, POST.as_bytes(), &mut [0; 1]), refused(13, 0, 2, 0));
}

#[test]
fn implementations() {
    for text in [POST, &rearm(), &early(), &idle(), &strict(), &spare()] {
        assert_eq!(implementation(TICK, text.as_bytes()), Ok(()), "{text}");
    }
    assert_eq!(implementation(TICK, hush().as_bytes()), refused(23, 1, 3, 0));
    assert_eq!(implementation(TICK, loose().as_bytes()), refused(22, 1, 2, 3));
    assert_eq!(read(TICK, spare().as_bytes()).unwrap().states, 15);
    // What reading refuses comes first.
    assert_eq!(implementation(TICK, b""), refused(2, 1, 0, 0));
    assert_eq!(implementation(TICK, &[b' '; 32_769]), refused(1, 1, 0, 0));
    let without = changed(&hush(), ",\nDone -> Done { sync spike?; }", "");
    assert_eq!(implementation(TICK, without.as_bytes()), refused(10, 1, 5, 2));
}

#[test]
fn departures() {
    assert_eq!(count(POST, POST), Ok(0));
    assert_eq!(count(&early(), POST), Ok(3));
    assert_eq!(count(&idle(), POST), Ok(4));
    assert_eq!(count(POST, &idle()), Ok(4));
    assert_eq!(count(POST, &hush()), Ok(4));
    assert_eq!(departure(&rearm(), POST), Ok(vec![0, 0, 0, 2, 0]));
    assert_eq!(count(&hush(), POST), refused(17, 1, 0, 0));
}

#[test]
fn slices_too_short() {
    let (left, right) = (rearm(), POST);
    let mut scratch = [vec![0; 100], vec![0; 100], vec![0; 4]];
    let [back, line, run] = &mut scratch;
    let (l, r) = (left.as_bytes(), right.as_bytes());
    assert_eq!(search(TICK, l, r, &mut [], back, line, run), refused(13, 0, 2, 0));
    assert_eq!(search(TICK, l, r, &mut [0; 2], &mut back[..99], line, run), refused(15, 0, 100, 0));
    assert_eq!(search(TICK, l, r, &mut [0; 2], back, &mut line[..99], run), refused(15, 0, 100, 0));
    assert_eq!(search(TICK, l, r, &mut [0; 2], back, line, run), refused(21, 0, 5, 0));
    assert_eq!(widest(TICK, r, r, &mut [0; 2], &mut [0; 28]), refused(14, 0, 29, 0));
}

#[test]
fn tables() {
    let mut made = [0xaa; 30];
    let answer = widest(TICK, POST.as_bytes(), POST.as_bytes(), &mut [0; 2], &mut made).unwrap();
    assert_eq!((answer.pairs, answer.start), (29, true));
    let mut expected = b"P4\n10 10\n".to_vec();
    expected.extend([0x80, 0, 0x40, 0, 0x20, 0, 0x10, 0, 0, 0]);
    expected.extend([0x07, 0xc0].repeat(5));
    expected.push(0xaa);
    assert_eq!(made[..], expected[..]);
    assert_eq!(checked(&made[..29]), Ok(29));
    assert_eq!(checked(&made), refused(16, 0, 0, 0));
    let diagonal: Vec<(usize, usize)> = (0..10).filter(|s| *s != 4).map(|s| (s, s)).collect();
    assert_eq!(checked(&table(&diagonal)), Ok(9));
    assert_eq!(checked(&table(&[(0, 0)])), refused(20, 0, 0, 0));
    assert_eq!(checked(&table(&[])), refused(18, 0, 0, 0));
    let answer = widest(TICK, rearm().as_bytes(), POST.as_bytes(), &mut [0; 2], &mut made).unwrap();
    assert_eq!((answer.pairs, answer.start), (25, false));
}

#[test]
fn refused_texts() {
    assert_eq!(read(TICK, b""), refused(2, 1, 0, 0));
    assert_eq!(count(POST, ""), refused(2, 2, 0, 0));
    assert!(read(TICK, changed(POST, "3", "1000").as_bytes()).is_ok());
    let over = changed(POST, "x <= 3", "x <= 1001");
    assert_eq!(read(TICK, over.as_bytes()), refused(6, 1, over.find("1001").unwrap(), 0));
    let without = changed(POST, ",\nDone -> Done { sync spike?; }", "");
    assert_eq!(read(TICK, without.as_bytes()), refused(10, 1, 5, 2));
}

#[test]
fn most_states() {
    let text = |more: &str| format!("process P() {{ clock x; state A {{ x <= 1000 }}, {more}; init A; }} system P;");
    assert_eq!(read(TICK, text("B, C, D").as_bytes()).unwrap().states, 4008);
    assert_eq!(read(TICK, text("B, C, D, E").as_bytes()), refused(9, 1, 5010, 0));
}

#[test]
fn refusals_read() {
    let shown = |refusal: Result<usize, Refusal>| refusal.unwrap_err().to_string();
    assert_eq!(
        shown(count(POST, "")),
        "code 2, right text: a token does not fit, or the text ends too early (byte place 0)"
    );
    assert_eq!(
        shown(count(&changed(POST, ",\nDone -> Done { sync spike?; }", ""), POST)),
        "code 10, left or only text: an input has no move (state 5, channel 2)"
    );
    assert_eq!(
        shown(checked(&table(&[(0, 0)]))),
        "code 20: the pair breaks a rule (step 0, left state × right states + right state 0)"
    );
    assert_eq!(shown(checked(&[])), "code 16: the table's header or length is not that of these texts");
    let error: Box<dyn std::error::Error> = Box::new(read(TICK, b"").unwrap_err());
    assert!(error.source().is_none());
}

/// SPECIFICATION 16.10.
#[test]
fn twice() {
    let twice = post_with(&[PASS, PASS]);
    assert_eq!(twice.as_bytes(), example("Twice"));
    let record = read(TICK, twice.as_bytes()).unwrap();
    assert_eq!((record.states, record.edges.len()), (10, 6));
    assert_eq!(record.edges[0], record.edges[1]);
    let mut keep = [0xff; 3];
    let safe = safe_states(TICK, twice.as_bytes(), &mut keep).unwrap();
    assert_eq!((safe.count, safe.start, keep), (9, true, [0xf7, 0xc0, 0xff]));
    assert_eq!(implementation(TICK, twice.as_bytes()), Ok(()));
    let mut of_post = [0; 29];
    widest(TICK, POST.as_bytes(), POST.as_bytes(), &mut [0; 2], &mut of_post).unwrap();
    for (left, right) in [(&twice[..], POST), (POST, &twice[..]), (&twice[..], &twice[..])] {
        assert_eq!(count(left, right), Ok(0));
        let mut made = [0; 29];
        let answer = widest(TICK, left.as_bytes(), right.as_bytes(), &mut [0; 2], &mut made).unwrap();
        assert_eq!((answer.pairs, answer.start, made), (29, true, of_post));
        assert_eq!(check(TICK, left.as_bytes(), right.as_bytes(), &mut [0; 2], &made), Ok(29));
    }
    let text = joined(TICK, twice.as_bytes(), twice.as_bytes()).unwrap();
    assert_eq!(text.matches("l0 -> l3 { sync pass ? ; }").count(), 4);
    assert_eq!((count(&text, POST), count(POST, &text)), (Ok(0), Ok(0)));
}

/// Of two or three edges one leads elsewhere, in whatever order they stand (SPECIFICATION 16.10).
#[test]
fn edges_to_different_states() {
    let staying = "Wait -> Wait { sync pass?; }";
    let resetting = "Wait -> Done { sync pass?; assign x = 0; }";
    let states = |edges: &[&str]| read(TICK, post_with(edges).as_bytes()).map(|record| record.states);
    for (other, state) in [(staying, 0), (resetting, 1)] {
        for edges in
            [&[PASS, other][..], &[other, PASS], &[PASS, PASS, other], &[PASS, other, PASS], &[other, PASS, PASS]]
        {
            assert_eq!(states(edges), refused(11, 1, state, 1), "{edges:?}");
        }
        for edges in [&[other, other, PASS][..], &[other, PASS, other], &[PASS, other, other]] {
            assert_eq!(states(edges), refused(11, 1, state, 1), "{edges:?}");
        }
    }
    assert_eq!(states(&[PASS, PASS, PASS]), Ok(10));
    let shown = read(TICK, post_with(&[PASS, staying]).as_bytes()).unwrap_err().to_string();
    let text = "two edges give moves by one channel and lead to different states";
    assert_eq!(shown, format!("code 11, left or only text: {text} (state 0, channel 1)"));
}

/// SPECIFICATION 16.11.
#[test]
fn woken_posts() {
    assert_eq!(woken().as_bytes(), example("Woken"));
    let mut keep = [0xff; 3];
    let safe = safe_states(TICK, woken().as_bytes(), &mut keep).unwrap();
    assert_eq!((safe.count, safe.start, keep), (9, true, [0xf7, 0xc0, 0xff]));
    assert_eq!(implementation(TICK, woken().as_bytes()), Ok(()));
    assert_eq!(departure(&woken(), POST), Ok(vec![2, 0, 0, 3]));
    assert_eq!(departure(POST, &woken()), Ok(vec![2, 0, 0, 0]));
    let states = |text: &str| read(TICK, text.as_bytes()).map(|record| record.states);
    assert_eq!((states(&woken()), states(&assigning("x = 3"))), (Ok(10), Ok(10)));
    assert_eq!(states(&assigning("x = 4")), refused(10, 1, 0, 2));
    assert_eq!(states(&assigning("x = 7, x = 1")), Ok(18));
    assert_eq!(states(&assigning("x = 1, x = 7")), refused(10, 1, 0, 2));
    assert_eq!(
        (count(&assigning("x = 7, x = 1"), &woken()), count(&woken(), &assigning("x = 7, x = 1"))),
        (Ok(0), Ok(0))
    );
    assert_eq!(states(&assigning("x = 1000, x = 1")), Ok(2_004));
    for assignments in ["x = 1001", "x = 1001, x = 1", "x = 1, x = 1001"] {
        let text = assigning(assignments);
        assert_eq!(states(&text), refused(6, 1, text.find("1001").unwrap(), 0));
    }
    let edge = "Wait -> Wait { sync spike?; }";
    let two = changed(POST, edge, &format!("{edge},\nWait -> Wait {{ sync spike?; assign x = 1; }}"));
    assert_eq!(states(&two), refused(11, 1, 0, 2));
}

/// Each clock has its own assignment, with the last value and the largest one (SPECIFICATION 5.4).
#[test]
fn assignments_of_three_clocks() {
    let text = changed(&assigning("z = 5, x = 2, z = 3, z = 4"), "clock x", "clock x, y, z");
    let record = read(TICK, text.as_bytes()).unwrap();
    let assigned = |value, largest| Some(Assignment { value, largest });
    assert_eq!((record.states, record.edges.len()), (140, 5));
    assert_eq!(record.edges[1].assignments, [assigned(2, 2), None, assigned(4, 5)]);
    assert!([0, 2, 3, 4].iter().all(|edge| record.edges[*edge].assignments == [None; 3]));
    let record = read(2, text.as_bytes()).unwrap();
    assert_eq!(record.edges[1].assignments, [assigned(1, 1), None, assigned(2, 3)]);
}

/// A joined edge sets each clock once, to the value that counts (SPECIFICATION 18.5).
#[test]
fn joined_assignments() {
    let text = joined(TICK, assigning("x = 7, x = 1").as_bytes(), rearm().as_bytes()).unwrap();
    assert_eq!(text.matches("{ sync spike ? ; assign c0 = 1 , c1 = 0 ; }").count(), 1);
    assert_eq!(read(TICK, text.as_bytes()).unwrap().states, 100);
    let text = joined(2, assigning("x = 3").as_bytes(), woken().as_bytes()).unwrap();
    assert_eq!(text.matches("{ sync spike ? ; assign c0 = 2 , c1 = 1 ; }").count(), 1);
}

/// SPECIFICATION 16.9.
#[test]
fn sheet_at_several_tick_lengths() {
    let (sheet, post) = (sheet(), read(TICK, POST.as_bytes()).unwrap());
    let at = |tick_length: usize| read(tick_length, &sheet).unwrap();
    let same = at(1_000);
    assert_eq!((same.states, same.init, same.clocks.len()), (post.states, post.init, post.clocks.len()));
    assert_eq!(same.locations[0].invariant, post.locations[0].invariant);
    assert_eq!(same.edges, post.edges);
    let bounds = |tick_length: usize| {
        let record = at(tick_length);
        let bound = |list: &[megzhoi::Comparison]| (list[0].sign, list[0].bound);
        (record.states, bound(&record.locations[0].invariant), bound(&record.edges[2].guard))
    };
    assert_eq!(bounds(2_000), (8, (Sign::AtMost, 2), (Sign::AtLeast, 1)));
    assert_eq!(bounds(TICK_LIMIT), (4, (Sign::AtMost, 0), (Sign::AtLeast, 0)));
    assert_eq!(implementation(1_000, &sheet), Ok(()));
    assert_eq!(implementation(2_000, &sheet), refused(22, 1, 1, 3));
    assert_eq!(implementation(TICK_LIMIT, &sheet), Ok(()));
    let place = sheet.windows(4).position(|part| part == b"3000").unwrap();
    assert_eq!(read(TICK, &sheet), refused(6, 1, place, 0));
}

/// 24 comes before every other code, for each operation, and touches nothing (SPECIFICATION 13.3 to 13.5).
#[test]
fn tick_lengths_out_of_range() {
    const LENT: (u8, u32) = (0xa5, 77);
    let long = vec![b' '; 32_769];
    for tick_length in [0, TICK_LIMIT + 1, 1 << 32 | 1, usize::MAX] {
        for text in [sheet(), b"?".to_vec(), long.clone()] {
            let (mut keep, mut table, mut entries) = ([LENT.0; 2], [LENT.0; 29], [[LENT.1; 100]; 3]);
            let [back, line, run] = &mut entries;
            assert_eq!(read(tick_length, &text), refused(24, 0, tick_length, 0));
            assert_eq!(safe_states(tick_length, &text, &mut keep), refused(24, 0, tick_length, 0));
            assert_eq!(implementation(tick_length, &text), refused(24, 0, tick_length, 0));
            let found = search(tick_length, &text, &long, &mut keep, back, line, run);
            assert_eq!(found, refused(24, 0, tick_length, 0));
            assert_eq!(check(tick_length, &text, &text, &mut keep, &table), refused(24, 0, tick_length, 0));
            assert_eq!(widest(tick_length, &text, &text, &mut keep, &mut table), refused(24, 0, tick_length, 0));
            assert_eq!((keep, table, entries), ([LENT.0; 2], [LENT.0; 29], [[LENT.1; 100]; 3]));
        }
    }
    let shown = read(0, POST.as_bytes()).unwrap_err().to_string();
    assert_eq!(shown, "code 24: the tick length is not 1 to 60,000 (tick length 0)");
}

/// Two posts joined, with room enough (SPECIFICATION 18).
fn joined(tick_length: usize, left: &[u8], right: &[u8]) -> Result<String, Refusal> {
    let mut out = vec![0; TEXT_LIMIT];
    let length = join(tick_length, left, right, &mut out)?;
    Ok(String::from_utf8(out[..length].to_vec()).expect("ASCII"))
}

#[test]
fn joined_posts() {
    let text = joined(TICK, loose().as_bytes(), early().as_bytes()).unwrap();
    assert_eq!((count(&text, &loose()), count(&text, &early())), (Ok(0), Ok(0)));
    assert_eq!((count(&early(), &text), count(&loose(), &text)), (Ok(0), Ok(3)));
    // A spike sets the one clock and not the other: after it no implementation keeps both.
    let contradicting = joined(TICK, POST.as_bytes(), rearm().as_bytes()).unwrap();
    assert_eq!(count(&contradicting, POST), refused(17, 1, 0, 0));
    assert_eq!(joined(1000, &sheet(), &sheet()), joined(TICK, POST.as_bytes(), POST.as_bytes()));
}

#[test]
fn joining_refused() {
    let (loose, early) = (loose(), early());
    let length = joined(TICK, loose.as_bytes(), early.as_bytes()).unwrap().len();
    for short in [0, length - 1] {
        let mut out = vec![7; short];
        assert_eq!(join(TICK, loose.as_bytes(), early.as_bytes(), &mut out), refused(26, 0, length, 0));
        assert_eq!(out, vec![7; short]);
    }
    let mut out = vec![7; length + 3];
    assert_eq!(join(TICK, loose.as_bytes(), early.as_bytes(), &mut out), Ok(length));
    assert_eq!(out[length..], [7; 3]);
    let two_clocks = changed(POST, "clock x", "clock x, y");
    assert_eq!(joined(TICK, two_clocks.as_bytes(), two_clocks.as_bytes()), refused(25, 0, 0, 0));
    assert_eq!(join(TICK, two_clocks.as_bytes(), two_clocks.as_bytes(), &mut []), refused(25, 0, 0, 0));
    assert_eq!(joined(TICK, POST.as_bytes(), b""), refused(2, 2, 0, 0));
    let other = changed(POST, "late", "tardy");
    assert_eq!(joined(TICK, POST.as_bytes(), other.as_bytes()), refused(12, 1, 3, 0));
    assert_eq!(joined(0, POST.as_bytes(), b""), refused(24, 0, 0, 0));
}
