//! Places where a rule could be read two ways, as docs/DECISIONS.md has them.

use plain::{read, search, Refusal};

/// The tick length with which a constant is as many ticks as it says.
const TICK: usize = 1;

/// Code and place for a text in which `#` marks the place that is refused; without `#` it is accepted.
fn judged(code: usize, text: &str) {
    let place = text.find('#');
    let answer = read(TICK, text.replace('#', "").as_bytes()).map(|_| ());
    let expected = place.map_or(Ok(()), |p| Err(Refusal { code, file: 1, p, q: 0 }));
    assert_eq!(answer, expected, "{text}");
}

/// A text with the given edges; channels a and b, clock x, location L.
fn with_edges(edges: &str) -> String {
    format!("broadcast chan a, b; process P() {{ clock x; state L; init L; trans {edges}; }} system P;\n")
}

fn with_guard(guard: &str) -> String {
    with_edges(&format!("L -> L {{ guard {guard}; sync a!; }}"))
}

fn with_invariant(invariant: &str) -> String {
    format!("process P() {{ clock x; state L {{ {invariant} }}; init L; }} system P;\n")
}

fn with_assign(assign: &str) -> String {
    with_edges(&format!("L -> L {{ sync a!; assign {assign}; }}"))
}

const LONG: &str = "n23456789_123456789_123456789_12";

#[test]
fn tokens() {
    judged(2, "process P() { state L; init L; } system P; \n#\u{b}");
    judged(2, "process P() { state L; init L; } system P#");
    judged(2, "#-");
    judged(2, &with_edges("L #- > L { sync a!; }"));
    judged(2, &with_edges("L ->#> L { sync a!; }"));
    judged(2, &with_guard("x < #= 3"));
    judged(2, &with_guard("x <= 3 #& & x <= 3"));
    judged(2, &with_guard("x <= 3#x"));
    judged(2, &with_guard("x ==#= 3"));
    judged(2, &with_assign("x #== 0"));
    judged(2, "process P() { state #state; init L; } system P;");
    judged(0, "process tick(){state A,State;init A;}system tick;");
}

#[test]
fn lists_are_not_empty() {
    judged(2, "process P() { state L { #} ; init L; } system P;");
    judged(2, "process P() { state L, #; init L; } system P;");
    judged(2, "process P() { state L; init L; trans #; } system P;");
    judged(2, &with_edges("L -> L { guard #; sync a!; }"));
    judged(2, &with_edges("L -> L { sync a!; assign #; }"));
}

#[test]
fn numerals() {
    judged(0, &with_guard("x <= 0001000"));
    judged(6, &with_guard("x <= #0001001"));
    judged(6, &with_guard(&format!("x <= #{}", "9".repeat(400))));
    judged(0, &with_assign("x = 00, x = 0, x = 0, x = 0, x = 0"));
    judged(0, &with_assign("x = 1"));
    judged(0, &with_assign("x = 0001000"));
    judged(6, &with_assign("x = #1001"));
    judged(6, &with_assign("x = #5000, x = 0"));
    judged(6, &with_assign("x = 0, x = 1000, x = #1001, y = 0"));
    judged(5, &with_assign("x = 1, #y = 1001"));
    judged(2, &with_assign("x = #y"));
    judged(2, &with_assign("x #1"));
    judged(2, &with_assign("x = 1 #2"));
    judged(2, "process P() { clock x; state L { x #>= 3 }; init L; } system P;");
}

#[test]
fn strict_signs() {
    for sign in ["<", ">", "<=", ">=", "=="] {
        judged(0, &with_guard(&format!("x {sign} 0")));
        judged(0, &with_guard(&format!("x{sign}1000")));
        judged(6, &with_guard(&format!("x {sign} #1001")));
    }
    judged(0, &with_invariant("x < 1 && x<=0 && x < 1000 && x < 01"));
    for sign in [">", ">=", "==", "="] {
        judged(2, &with_invariant(&format!("x #{sign} 3")));
    }
    for zero in ["0", "00", "000000000000000000000"] {
        judged(2, &with_invariant(&format!("x < #{zero}")));
        judged(2, &with_invariant(&format!("x <= {zero} && x < #{zero} && x < 2")));
    }
    judged(6, &with_invariant("x < #1001"));
    judged(7, &with_invariant("x < 1 && x < 2 && x < 3 && x < 4 && #x < 0"));
    judged(2, &with_guard("x <#< 3"));
    judged(2, &with_guard("x <#> 3"));
    judged(2, &with_guard("x >#> 3"));
    judged(2, &with_guard("x >=#= 3"));
    judged(2, &with_guard("x > #= 3"));
    judged(2, &with_guard("x #=< 3"));
    judged(2, &with_edges("L ->#= L { sync a!; }"));
    judged(2, &with_edges("L #> L { sync a!; }"));
    judged(2, &with_assign("x #< 0"));
    judged(2, "process P() { clock x; state L { x < #");
}

#[test]
fn strict_constants_count_as_written() {
    for (guard, states) in [("x < 5", 7), ("x > 5", 7), ("x < 0", 2), ("x > 0", 2), ("x <= 4 && x < 5", 7)] {
        assert_eq!(read(TICK, with_guard(guard).as_bytes()).unwrap().states, states, "{guard}");
    }
    assert_eq!(read(TICK, with_invariant("x < 5").as_bytes()).unwrap().states, 7);
}

/// Code, state and channel for an input that has an edge by each of the guards (an empty one: no guard). Every second
/// edge resets the clock where they are to lead to different states.
fn by_guards(guards: &[&str], lead_elsewhere: bool) -> Option<(usize, usize, usize)> {
    let edge = |(i, guard): (usize, &&str)| {
        let guard = if guard.is_empty() { String::new() } else { format!("guard {guard};") };
        let assign = if lead_elsewhere && i % 2 == 1 { "assign x = 0;" } else { "" };
        format!("L -> L {{ {guard} sync a?; {assign} }}")
    };
    let edges: Vec<String> = guards.iter().enumerate().map(edge).collect();
    read(TICK, with_edges(&edges.join(", ")).as_bytes()).err().map(|refusal| (refusal.code, refusal.p, refusal.q))
}

#[test]
fn strict_guards_of_an_input() {
    let judged = |guards: &[&str]| by_guards(guards, true);
    assert_eq!(judged(&["x < 3", "x >= 3"]), None);
    assert_eq!(judged(&["x <= 3", "x > 3"]), None);
    assert_eq!(judged(&["x < 3", "x == 3", "x > 3"]), None);
    assert_eq!(judged(&["x < 0", ""]), None);
    assert_eq!(judged(&["x < 0"]), Some((10, 0, 1)));
    assert_eq!(judged(&["x < 3"]), Some((10, 3, 1)));
    assert_eq!(judged(&["x < 3", "x > 3"]), Some((10, 3, 1)));
    assert_eq!(judged(&["x <= 3", "x > 2"]), Some((11, 3, 1)));
    assert_eq!(judged(&["x < 4", "x >= 3"]), Some((11, 3, 1)));
    assert_eq!(judged(&["x < 3", "x >= 3", "x > 3"]), Some((11, 4, 1)));
}

/// Where the guards meet, the edges are parallel: no fault (SPECIFICATION 7.2).
#[test]
fn strict_guards_of_parallel_edges() {
    for guards in [&["x <= 3", "x > 2"][..], &["x < 4", "x >= 3"], &["x < 3", "x >= 3", "x > 3"], &["", "", "x == 2"]] {
        assert_eq!(by_guards(guards, false), None, "{guards:?}");
    }
    assert_eq!(by_guards(&["x < 3", "x <= 2", "x > 3"], false), Some((10, 3, 1)));
}

#[test]
fn names() {
    judged(3, &format!("process P() {{ state L; init #{LONG}; }} system P;"));
    judged(0, &format!("process {0}() {{ state L; init L; }} system {0};", &LONG[..31]));
    judged(2, &format!("process P() {{ state L; init L; }} #{LONG} P;"));
    judged(4, "broadcast chan a; process #a() { state L; init L; } system a;");
    judged(4, "process P() { clock x; state L, #x; init L; } system P;");
    judged(5, "process P() { clock x; state L { #M <= 3 }, M; init L; } system P;");
    judged(5, "process P() { state L; init L; } system #L;");
    judged(3, &format!("process P() {{ state L; init L; }} system #{LONG};"));
}

#[test]
fn counts_come_after_names_at_one_place() {
    let edges = |last: &str| with_edges(&format!("{}{last}", "L -> L { sync a!; }, ".repeat(128)));
    judged(7, &edges("#L -> L { sync a!; }"));
    judged(7, &edges("#L"));
    judged(5, &edges("#M -> L { sync a!; }"));
    judged(2, &edges("#;"));
    let four = "x <= 3 && x <= 3 && x <= 3 && x <= 3";
    judged(7, &with_guard(&format!("{four} && #x <= 5000")));
    judged(3, &with_guard(&format!("{four} && #{LONG} <= 3")));
    judged(7, "process P() { clock x, y, z, #w; state L; init L; } system P;");
    judged(4, "process P() { clock x, y, z, #x; state L; init L; } system P;");
}

#[test]
fn marks() {
    judged(8, &with_edges("L -> L { sync a!; }, L -> L { sync #a?; }"));
    judged(8, &with_edges("L -> L { sync a!; }, L -> L { sync #a? }"));
    judged(2, &with_edges("L -> L { sync a!; }, L -> L { sync a #; }"));
}

#[test]
fn states_are_counted_exactly() {
    let guards = "guard x <= 1000 && y <= 1000 && z <= 1000;";
    let names: Vec<String> = (0..32).map(|i| format!("L{i}")).collect();
    let text = format!(
        "broadcast chan a; process P() {{ clock x, y, z; state {}; init L0; trans\n\
         L0 -> L0 {{ {guards} sync a!; }}; }} system P;",
        names.join(",")
    );
    assert_eq!(read(TICK, text.as_bytes()), Err(Refusal { code: 9, file: 1, p: 32_192_384_256, q: 0 }));
}

#[test]
fn lengths_come_before_all_reading() {
    let long = vec![b' '; 32_769];
    let refused = |file| Err(Refusal { code: 1, file, p: 0, q: 0 });
    let found = |left: &[u8], right: &[u8]| search(TICK, left, right, &mut [], &mut [], &mut [], &mut []);
    assert_eq!(found(b"?", &long), refused(2));
    assert_eq!(found(&long, &long), refused(1));
    assert_eq!(found(b"?", &long[1..]), Err(Refusal { code: 2, file: 1, p: 0, q: 0 }));
}
