//! Holds what stands in several places against each other: the codes and their texts in `megzhoi.h`, here, in plain
//! Rust and in the definitions of the proved crates; the record's layout, and the other numbers of the header.
use megzhoi::{raw, Code, KEEP_BYTES, STACK, TEXT_LIMIT, TICK_LIMIT};
use std::fs;

/// A file of the repository.
fn file(path: &str) -> String {
    let path = format!("{}/../../{path}", env!("CARGO_MANIFEST_DIR"));
    fs::read_to_string(&path).unwrap_or_else(|error| panic!("{path}: {error}"))
}

fn header() -> String {
    file("library/megzhoi.h")
}

/// What stands between two marks, up to the first occurrence of the second.
fn between<'a>(text: &'a str, from: &str, to: &str) -> Option<&'a str> {
    let (_, rest) = text.split_once(from)?;
    Some(rest.split_once(to)?.0)
}

/// The names and numbers of one `enum` of the header, without the names' common beginning.
fn enumerated(of: &str) -> Vec<(String, usize)> {
    let header = header();
    let block = header.split("enum {").find(|block| block.contains(of)).expect("an enum");
    let block = block.split_once("};").expect("its end").0;
    let item = |line: &str| {
        let (name, rest) = line.trim().strip_prefix("MEGZHOI_")?.split_once(" = ")?;
        let digits = rest.split(|c: char| !c.is_ascii_digit()).next()?;
        Some((name.to_string(), digits.parse().ok()?))
    };
    block.lines().filter_map(item).collect()
}

/// `KeepTooShort` as `KEEP_TOO_SHORT`.
fn in_capitals(name: &str) -> String {
    let one = |c: char| if c.is_ascii_uppercase() { format!("_{c}") } else { c.to_ascii_uppercase().to_string() };
    name.chars().map(one).collect::<String>().trim_start_matches('_').to_string()
}

/// The names and numbers of the codes here.
fn here() -> Vec<(String, usize)> {
    Code::ALL.iter().map(|code| (in_capitals(&format!("{code:?}")), code.number())).collect()
}

#[test]
fn numbers_and_names() {
    assert_eq!(here().iter().map(|code| code.1).collect::<Vec<_>>(), (1..=26).collect::<Vec<_>>());
    assert_eq!(enumerated("MEGZHOI_MISFIT ="), here());
    let plain: Vec<(String, usize)> = plain::codes::ALL.iter().map(|(name, code)| (name.to_string(), *code)).collect();
    assert_eq!(plain, here());
}

/// The proved crates' definition of the code: a line `code (Name ..) = n` for each.
#[test]
fn definitions_have_them_too() {
    let text = file("crates/refusals/specs/Refusals.antt");
    let item = |line: &str| {
        let (refusal, number) = line.strip_prefix("code ")?.split_once(" = ")?;
        let name = refusal.trim_matches(['(', ')']).split_whitespace().next()?;
        Some((in_capitals(name), number.parse().ok()?))
    };
    assert_eq!(text.lines().filter_map(item).collect::<Vec<(String, usize)>>(), here());
}

#[test]
fn numbers_to_codes() {
    for code in Code::ALL.iter().copied() {
        assert_eq!(Code::try_from(code.number()), Ok(code));
        assert_eq!(usize::from(code), code.number());
    }
    for number in [0, 27, usize::MAX] {
        assert_eq!(Code::try_from(number).unwrap_err().0, number);
    }
}

#[test]
fn texts() {
    let header = header();
    let text = |label: &str| between(&header, &format!("{label}: return \""), "\";").map(str::to_string);
    for code in Code::ALL.iter().copied() {
        let label = format!("case MEGZHOI_{}", in_capitals(&format!("{code:?}")));
        assert_eq!(text(&label).as_deref(), Some(code.text()), "{label}");
    }
    assert_eq!(text("case 0").as_deref(), Some("success"));
    assert_eq!(text("default").as_deref(), Some("no such code"));
    assert_eq!(header.matches(": return \"").count(), Code::ALL.len() + 2);
}

/// What p and q are, as the header's comments say it.
#[test]
fn values() {
    let header = header();
    for code in Code::ALL.iter().copied() {
        let name = format!("MEGZHOI_{} = ", in_capitals(&format!("{code:?}")));
        let line = header.lines().find(|line| line.trim().starts_with(&name)).expect("its line");
        let (p, q) = code.values();
        let values = format!("/* ({}, {})", p.unwrap_or("0"), q.unwrap_or("0").replace('×', "*"));
        assert!(line.contains(&values), "{line} lacks {values}");
    }
}

#[test]
fn layout_of_the_record() {
    let here = [
        ("RECORD_ENTRIES", raw::RECORD_ENTRIES),
        ("CHANNEL_COUNT", raw::CHANNEL_COUNT),
        ("CLOCK_COUNT", raw::CLOCK_COUNT),
        ("LOCATION_COUNT", raw::LOCATION_COUNT),
        ("INIT", raw::INIT),
        ("EDGE_COUNT", raw::EDGE_COUNT),
        ("STATE_COUNT", raw::STATE_COUNT),
        ("CHANNELS", raw::CHANNELS),
        ("CHANNEL_ENTRIES", raw::CHANNEL_ENTRIES),
        ("CLOCKS", raw::CLOCKS),
        ("CLOCK_ENTRIES", raw::CLOCK_ENTRIES),
        ("LOCATIONS", raw::LOCATIONS),
        ("LOCATION_ENTRIES", raw::LOCATION_ENTRIES),
        ("EDGES", raw::EDGES),
        ("EDGE_ENTRIES", raw::EDGE_ENTRIES),
        ("COMPARISON_ENTRIES", raw::COMPARISON_ENTRIES),
        ("ASSIGNMENT_ENTRIES", raw::ASSIGNMENT_ENTRIES),
    ];
    assert_eq!(enumerated("MEGZHOI_RECORD_ENTRIES ="), here.map(|(name, number)| (name.to_string(), number)));
    assert_eq!(plain::RECORD_ENTRIES, raw::RECORD_ENTRIES);
}

#[test]
fn other_numbers() {
    let header = header();
    let stack = between(&header, "#define MEGZHOI_STACK ((size_t)", " << 20)").expect("a line");
    assert_eq!(stack.parse::<usize>().unwrap() << 20, STACK);
    let keep = between(&header, "#define MEGZHOI_KEEP_BYTES ", "\n").expect("a line");
    assert_eq!(keep.parse(), Ok(KEEP_BYTES));
    let text = between(&header, "#define MEGZHOI_TEXT_LIMIT ", "\n").expect("a line");
    assert_eq!(text.parse(), Ok(TEXT_LIMIT));
    let tick = between(&header, "#define MEGZHOI_TICK_LIMIT ", "\n").expect("a line");
    assert_eq!((tick.parse(), plain::TICK_LIMIT), (Ok(TICK_LIMIT), TICK_LIMIT));
}

/// The header's signs are those of the definitions (SPECIFICATION 15.2), a line `sign_number Less = 3` each.
#[test]
fn signs() {
    let text = file("crates/reader_numbers/specs/Numbers.antt");
    let item = |line: &str| {
        let (name, number) = line.strip_prefix("sign_number ")?.split_once(" = ")?;
        Some((in_capitals(name), number.parse().ok()?))
    };
    let defined: Vec<(String, usize)> = text.lines().filter_map(item).collect();
    assert_eq!(defined.iter().map(|sign| sign.1).collect::<Vec<_>>(), [0, 1, 2, 3, 4]);
    assert_eq!(enumerated("MEGZHOI_AT_MOST ="), defined);
}
