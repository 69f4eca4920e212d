//! The tables by kind: the operations on two texts, on pairs of texts by kind. Beside the builds of the library stands
//! plain Rust by pairs and by rows.

use crate::contenders::{contenders, taking, Calls, Contender, Needs, PLAIN};
use crate::operations::{check, search, states, widest, Operation, Texts};
use boundary::{ByPairs, ByRows, Returned};
use std::rc::Rc;
use texts::kinds::{departing, texts, Kind, CHANNELS, KINDS};
use texts::{each_edge_twice, started_late};

const BY_PAIRS: &str = "plain by pairs";
const BY_ROWS: &str = "plain by rows";

/// A pair of texts to be timed, with its answer in words and a call for each contender that takes the texts.
pub struct Case {
    pub name: String,
    pub answer: String,
    pub contenders: Vec<Contender>,
    pub calls: Calls,
}

pub struct Table {
    pub title: &'static str,
    /// What the answer is.
    pub answer: &'static str,
    pub contenders: Vec<Contender>,
    /// With which of the contenders, beside the older build, this one is compared.
    pub against: &'static str,
    inputs: Vec<Input>,
    operation: Operation,
    words: fn(Returned) -> String,
}

/// A pair of texts before it is written.
#[derive(Clone, Copy)]
struct Input {
    kind: Kind,
    states: usize,
    clocks: usize,
    form: Form,
}

#[derive(Clone, Copy, PartialEq, Eq)]
enum Form {
    AsItIs,
    /// With an output that the right lacks.
    Departing,
    /// With fewer channels, so that there can be as many edges again.
    Fewer,
    /// The same with each edge twice.
    Twice,
    /// With each clock that is set to 0 set to a tick.
    Late,
}

impl Form {
    fn channels(self) -> usize {
        match self {
            Form::AsItIs | Form::Departing | Form::Late => CHANNELS,
            Form::Fewer | Form::Twice => CHANNELS - 1,
        }
    }

    fn needs(self) -> Needs {
        match self {
            Form::AsItIs | Form::Departing | Form::Fewer => Needs::Nothing,
            Form::Twice => Needs::ParallelEdges,
            Form::Late => Needs::LateClocks,
        }
    }
}

/// The kinds whose texts have clocks set to 0 in both texts, in the sizes in which every deadline allows a tick.
const LATE: [Kind; 3] = [Kind::Full, Kind::Late, Kind::Same];
const LATE_SIZES: [usize; 2] = [1_000, 4_096];
const LATE_TICKS: usize = 1;

/// The kinds whose texts have at most half of the edges that there can be, with one channel fewer.
const DOUBLED: [Kind; 3] = [Kind::Full, Kind::Late, Kind::Same];
/// The number of clocks of those, and of those with late clocks.
const TWO_CLOCKS: usize = 2;

const SIZES: [usize; 3] = [100, 1_000, 4_096];
const CLOCKS: [usize; 3] = [1, 2, 3];

pub fn tables() -> Vec<Table> {
    let of_tables = contenders(&[(BY_PAIRS, Rc::new(ByPairs)), (BY_ROWS, Rc::new(ByRows))]);
    let of_search = contenders(&[(PLAIN, Rc::new(ByPairs))]);
    let table = |title, operation| {
        let (contenders, inputs) = (of_tables.clone(), inputs(&[Form::AsItIs]));
        Table { title, answer: "pairs", contenders, against: BY_ROWS, inputs, operation, words: pairs }
    };
    vec![
        table("Widest table by kind", widest),
        table("Check of the widest table by kind", check),
        Table {
            title: "Search by kind",
            answer: "answer",
            contenders: of_search,
            against: PLAIN,
            inputs: inputs(&[Form::AsItIs, Form::Departing]),
            operation: search,
            words: answer,
        },
    ]
}

fn pairs(returned: Returned) -> String {
    match returned.code {
        0 => returned.p.to_string(),
        code => format!("code {code}"),
    }
}

fn answer(returned: Returned) -> String {
    assert_eq!(returned.code, 0, "a search that is refused");
    match returned.p {
        0 => "YES".to_string(),
        steps => format!("NO in {steps}"),
    }
}

/// Every kind in every size with every number of clocks; of those that depart anyway no second form. Then some with
/// each edge once and twice, and some with late clocks.
fn inputs(forms: &[Form]) -> Vec<Input> {
    let mut inputs = Vec::new();
    for kind in KINDS {
        for form in forms.iter().copied().filter(|form| !(*form == Form::Departing && kind.departs())) {
            for clocks in CLOCKS {
                inputs.extend(SIZES.map(|states| Input { kind, states, clocks, form }));
            }
        }
    }
    for kind in DOUBLED {
        for states in SIZES {
            inputs.extend([Form::Fewer, Form::Twice].map(|form| Input { kind, states, clocks: TWO_CLOCKS, form }));
        }
    }
    for kind in LATE {
        inputs.extend(LATE_SIZES.map(|states| Input { kind, states, clocks: TWO_CLOCKS, form: Form::Late }));
    }
    inputs
}

impl Table {
    /// The cases whose name has the words, each made when its turn comes.
    pub fn cases<'a>(&'a self, words: &'a str) -> impl Iterator<Item = Case> + 'a {
        let named = self.inputs.iter().map(|input| (input.name(), input));
        named.filter(move |(name, _)| name.contains(words)).map(|(name, input)| {
            let contenders = taking(&self.contenders, input.form.needs());
            let (returned, calls) = (self.operation)(&contenders, Rc::new(input.texts()));
            Case { name, answer: (self.words)(returned), contenders, calls }
        })
    }
}

impl Input {
    fn texts(self) -> Texts {
        let make = if self.form == Form::Departing { departing } else { texts };
        let (left, right) = make(self.kind, self.states, self.clocks, self.form.channels());
        let twice = |text: &[u8]| each_edge_twice(text).expect("room for as many edges again");
        match self.form {
            Form::Twice => (twice(&left), twice(&right)),
            Form::Late => (started_late(&left, LATE_TICKS), started_late(&right, LATE_TICKS)),
            Form::AsItIs | Form::Departing | Form::Fewer => (left, right),
        }
    }

    fn name(self) -> String {
        let (left, _) = self.texts();
        let clocks = if self.clocks == 1 { "1 clock".to_string() } else { format!("{} clocks", self.clocks) };
        let channels = self.form.channels();
        let form = match self.form {
            Form::AsItIs => String::new(),
            Form::Departing => ", departing".to_string(),
            Form::Fewer => format!(", {channels} channels"),
            Form::Twice => format!(", {channels} channels, each edge twice"),
            Form::Late => ", late clocks".to_string(),
        };
        format!("{}, {1} × {1} states, {clocks}{form}", self.kind.name(), states(&left))
    }
}
