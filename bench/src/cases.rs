//! The tables by size: every operation on texts that grow, the library beside plain Rust and, where it is given, beside
//! an older build.

use crate::contenders::{contenders, taking, with_implementation, with_join, Calls, Contender, Needs, PLAIN};
use crate::operations::{check, implementation, join, reached, read, safe_states, search, states, widest};
use crate::operations::{Operation, Texts};
use boundary::{ByPairs, Returned};
use plain::codes::{LIMIT_EXCEEDED, OUTPUT_BESIDE_TICK};
use std::rc::Rc;
use texts::{at_single_values, chain, drifting, each_edge_twice, early, full_of_edges, full_of_tokens};
use texts::{of_joined_length, passive, post, relay, scaled_post, short_rows, started_late, twice, woken, Kind, Reach};

pub struct Table {
    pub title: &'static str,
    /// A pair, a state or a byte.
    pub unit: &'static str,
    pub contenders: Vec<Contender>,
    /// Groups of cases that grow in size.
    pub groups: Vec<Vec<Case>>,
    operation: Operation,
    /// The number of units, from the texts and what was returned.
    units: fn(&Texts, Returned) -> usize,
}

/// The texts are made when the case's turn comes, so that only one case's slices are there at a time.
pub struct Case {
    pub name: String,
    /// What every contender has to return: 0, or the code of a refusal.
    code: usize,
    /// What a text has that an older build may refuse: those that do are left out.
    needs: Needs,
    texts: Box<dyn Fn() -> Texts>,
}

/// Values of each of the two clocks: 100, 1,024 and 4,096 states.
const SIZES: [usize; 3] = [10, 32, 64];
const CHANNELS: [usize; 2] = [4, 16];
const KINDS: [Kind; 2] = [Kind::Refining, Kind::Departing];
/// Values of the one clock of 32 locations: 128, 1,024 and 4,096 states.
const OF_32_LOCATIONS: [usize; 3] = [4, 32, 128];
/// With the words for it and the code of the implementation check.
const REACHES: [(Reach, &str, usize); 3] = [
    (Reach::All, "all reached", 0),
    (Reach::Few, "few reached", 0),
    (Reach::Fault, "fault at the end", OUTPUT_BESIDE_TICK),
];

pub fn tables() -> Vec<Table> {
    let contenders = contenders(&[(PLAIN, Rc::new(ByPairs))]);
    let table = |title, unit, groups: Vec<Vec<Case>>, operation, units| {
        let contenders = contenders.clone();
        Table { title, unit, contenders, groups, operation, units }
    };
    let refining = || groups(vec![drifting_groups(&[Kind::Refining]), doubled(), late(), vec![posts()]]);
    let (judging, joining) = (with_implementation(&contenders), with_join(&contenders));
    let of_left: fn(&Texts, Returned) -> usize = |(left, _), _| states(left);
    let all = groups(vec![drifting_groups(&KINDS), doubled(), late(), vec![posts(), chains()]]);
    let searched = groups(vec![drifting_groups(&KINDS), doubled(), late()]);
    vec![
        table("Search", "pair", searched, search, |texts, _| reached(texts)),
        table("Widest table", "pair", all, widest, |(left, right), _| states(left) * states(right)),
        table("Check of the widest table", "pair", refining(), check, |_, returned| returned.p),
        table("Safe states", "state", of_the_left(refining()), safe_states, of_left),
        Table { contenders: judging, ..table("Implementation", "state", implementations(), implementation, of_left) },
        table("Reading", "byte", reading(), read, |(text, _), _| text.len()),
        Table { contenders: joining, ..table("Joining", "byte", joined(), join, read_and_written) },
    ]
}

impl Table {
    /// Those that take the texts of a case.
    pub fn contenders(&self, case: &Case) -> Vec<Contender> {
        taking(&self.contenders, case.needs)
    }

    /// Compares contenders; gives the number of units and a call for each contender.
    pub fn make(&self, case: &Case, contenders: &[Contender]) -> (usize, Calls) {
        let texts = Rc::new((case.texts)());
        let (returned, calls) = (self.operation)(contenders, texts.clone());
        assert_eq!(returned.code, case.code, "{} is answered otherwise", case.name);
        ((self.units)(&texts, returned), calls)
    }
}

fn case(name: String, texts: impl Fn() -> Texts + 'static) -> Case {
    Case { name, code: 0, needs: Needs::Nothing, texts: Box::new(texts) }
}

/// The same with each edge of both texts twice.
fn in_double(case: Case) -> Case {
    let Case { name, texts, .. } = case;
    let texts = move || {
        let (left, right) = texts();
        (doubled_text(&left), doubled_text(&right))
    };
    let needs = Needs::ParallelEdges;
    Case { name: format!("{name}, each edge twice"), needs, texts: Box::new(texts), ..case }
}

/// The ticks to which clocks are set that start late: no more than most texts compare them with, so that these have as
/// many states as without.
const LATE_TICKS: usize = 1;

/// The same with each clock that is set to 0 set to a tick.
fn started(case: Case) -> Case {
    let Case { name, texts, .. } = case;
    let texts = move || {
        let (left, right) = texts();
        (started_late(&left, LATE_TICKS), started_late(&right, LATE_TICKS))
    };
    Case { name: format!("{name}, late clocks"), needs: Needs::LateClocks, texts: Box::new(texts), ..case }
}

/// A text that is not there, where an operation takes one only, stays so.
fn doubled_text(text: &[u8]) -> Vec<u8> {
    match text.is_empty() {
        true => Vec::new(),
        false => each_edge_twice(text).expect("room for as many edges again"),
    }
}

fn groups(parts: Vec<Vec<Vec<Case>>>) -> Vec<Vec<Case>> {
    parts.into_iter().flatten().collect()
}

/// The refining texts with each edge twice: their moves are the same, so what is dearer is the doubled edge.
fn doubled() -> Vec<Vec<Case>> {
    each(drifting_groups(&[Kind::Refining]), in_double)
}

/// The refining texts with clocks that start late.
fn late() -> Vec<Vec<Case>> {
    each(drifting_groups(&[Kind::Refining]), started)
}

fn each(groups: Vec<Vec<Case>>, form: fn(Case) -> Case) -> Vec<Vec<Case>> {
    groups.into_iter().map(|group| group.into_iter().map(form).collect()).collect()
}

fn drifting_groups(kinds: &[Kind]) -> Vec<Vec<Case>> {
    let mut groups = Vec::new();
    for channels in CHANNELS {
        groups.extend(kinds.iter().copied().map(|kind| {
            let sized = SIZES.map(|values| {
                let name = format!("{0} × {0} states, {channels} channels, {kind:?}", values * values);
                case(name.to_lowercase(), move || drifting(values, channels, kind))
            });
            Vec::from(sized)
        }));
    }
    groups
}

/// The larger posts, where only a part of the pairs is related.
fn posts() -> Vec<Case> {
    let sized = SIZES.map(|values| {
        let name = format!("{0} × {0} states, larger post", values * values);
        case(name, move || (scaled_post(values), scaled_post(values)))
    });
    Vec::from(sized)
}

/// The chains, where pairs are removed against the order of the state numbers.
fn chains() -> Vec<Case> {
    let chain_of = |values| case(format!("{0} × {0} states, chain", 32 * values), move || chain(values));
    Vec::from(OF_32_LOCATIONS.map(chain_of))
}

/// The same texts for an operation on one of them.
fn of_the_left(mut groups: Vec<Vec<Case>>) -> Vec<Vec<Case>> {
    for case in groups.iter_mut().flatten() {
        case.name = case.name.split(" × ").last().expect("a name").replace(", refining", "");
    }
    groups
}

/// Texts of which all states are reached, few are, or the last one has a fault; larger posts, and states that are reached
/// one after another.
fn implementations() -> Vec<Vec<Case>> {
    let mut groups = Vec::new();
    for channels in CHANNELS {
        groups.extend(REACHES.map(|(reach, words, code)| {
            let sized = SIZES.map(|values| {
                let name = format!("{} states, {channels} channels, {words}", values * values);
                Case { code, ..case(name, move || (passive(values, channels, reach), Vec::new())) }
            });
            Vec::from(sized)
        }));
    }
    for channels in CHANNELS {
        for form in [in_double, started] {
            let sized = SIZES.map(|values| {
                let name = format!("{} states, {channels} channels, all reached", values * values);
                form(case(name, move || (passive(values, channels, Reach::All), Vec::new())))
            });
            groups.push(Vec::from(sized));
        }
    }
    let relay_of =
        |values| case(format!("{} states, one after another", 32 * values), move || (relay(values), Vec::new()));
    groups.extend(of_the_left(vec![posts(), Vec::from(OF_32_LOCATIONS.map(relay_of))]));
    groups
}

/// A text for an operation on one.
type OneText = (&'static str, fn() -> Vec<u8>);

/// Texts with at most half of the edges that there can be, which are read with each edge twice and with late clocks too.
const READ_TWICE: [OneText; 5] = [
    ("4 channels, 4,096 states", || drifting(64, 4, Kind::Refining).0),
    ("16 channels, 4,096 states", || drifting(64, 16, Kind::Refining).0),
    ("4 channels, 4,050 states in rows of 2", || short_rows(45, 3)),
    ("16 channels, 4,050 states in rows of 2", || short_rows(45, 15)),
    ("64 edges, 4,096 states", || full_of_edges(32, 8).trim_ascii_end().to_vec()),
];

fn reading() -> Vec<Vec<Case>> {
    let more: [OneText; 3] = [
        ("128 edges, 4,096 states, 32,768 bytes", || full_of_edges(32, 16)),
        ("128 edges, 256 states, 32,768 bytes", || full_of_edges(8, 16)),
        ("as many tokens as possible, 32,768 bytes", full_of_tokens),
    ];
    let one = |(name, text): OneText| case(name.to_string(), move || (text(), Vec::new()));
    let posts = [
        one(("Post", post)),
        Case { needs: Needs::ParallelEdges, ..one(("Twice", twice)) },
        Case { needs: Needs::LateClocks, ..one(("Woken", woken)) },
    ];
    let texts = READ_TWICE.into_iter().chain(more).map(one);
    let doubled = READ_TWICE.into_iter().map(|given| in_double(one(given)));
    let late = READ_TWICE.into_iter().chain(more).map(|given| started(one(given)));
    posts.into_iter().chain(texts).chain(doubled).chain(late).map(|case| vec![case]).collect()
}

/// Bytes of the two texts and of the joined one.
fn read_and_written((left, right): &Texts, returned: Returned) -> usize {
    left.len() + right.len() + returned.p
}

/// Two texts to be joined.
type TwoTexts = (&'static str, fn() -> Texts);

/// Small pairs, which are joined with each edge twice too: in place of each joined edge there are four.
const JOINED_TWICE: [TwoTexts; 2] = [
    ("Post and Early", || (post(), early())),
    ("25 joined edges at single values", || (at_single_values(5), at_single_values(5))),
];

/// Pairs with assignments, which are joined with late clocks too.
const JOINED_LATE: [TwoTexts; 2] = [LARGER_POST, MOST_WRITTEN];
const LARGER_POST: TwoTexts = ("larger post of 100 states and Post", || (scaled_post(10), post()));
const MOST_WRITTEN: TwoTexts =
    ("32 locations, 128 edges, 32,768 bytes written", || of_joined_length(plain::TEXT_LIMIT));

/// Small pairs and large ones: much to read, much to write, and as many pairs of edges as there can be.
fn joined() -> Vec<Vec<Case>> {
    let more: [TwoTexts; 4] = [
        LARGER_POST,
        ("121 joined edges at single values", || (at_single_values(11), at_single_values(11))),
        MOST_WRITTEN,
        ("as many tokens as possible, 65,536 bytes read", || (full_of_tokens(), full_of_tokens())),
    ];
    let one = |(name, texts): TwoTexts| case(name.to_string(), texts);
    let too_many = one(("128 × 128 edges, which are too many", || (at_single_values(128), at_single_values(128))));
    let too_many = Case { code: LIMIT_EXCEEDED, ..too_many };
    let texts = JOINED_TWICE.into_iter().chain(more).map(one);
    let doubled = JOINED_TWICE.into_iter().map(|given| in_double(one(given)));
    let late = JOINED_LATE.into_iter().map(|given| started(one(given)));
    texts.chain([too_many]).chain(doubled).chain(late).map(|case| vec![case]).collect()
}
