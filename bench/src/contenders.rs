//! Those that are held against each other: an older build of the library (MEGZHOI_BEFORE), this one and plain Rust.

use crate::operations::TICK;
use boundary::{Build, Operations, Returned};
use std::rc::Rc;

#[derive(Clone)]
pub struct Contender {
    pub name: &'static str,
    operations: Rc<dyn Operations>,
}

pub const BEFORE: &str = "library before";
pub const AFTER: &str = "library after";
pub const PLAIN: &str = "plain";

/// The builds of the library, the older one only where it is given, and the others.
pub fn contenders(others: &[(&'static str, Rc<dyn Operations>)]) -> Vec<Contender> {
    let before = Build::before().map(|build| Contender { name: BEFORE, operations: Rc::new(build) });
    let after = Contender { name: AFTER, operations: Rc::new(Build::after()) };
    let others = others.iter().map(|(name, operations)| Contender { name, operations: operations.clone() });
    before.into_iter().chain([after]).chain(others).collect()
}

/// Those that have an operation, or answer a call as is asked, by what it gives: an older build may not.
fn having(contenders: &[Contender], call: impl Fn(&dyn Operations) -> Option<Returned>) -> Vec<Contender> {
    contenders.iter().filter(|contender| call(&*contender.operations).is_some()).cloned().collect()
}

/// Those that have the implementation check.
pub fn with_implementation(contenders: &[Contender]) -> Vec<Contender> {
    having(contenders, |operations| operations.implementation(TICK, &[]))
}

/// Those that join texts.
pub fn with_join(contenders: &[Contender]) -> Vec<Contender> {
    having(contenders, |operations| operations.join(TICK, &[], &[], &mut []))
}

/// What a text has that an older build may refuse.
#[derive(Clone, Copy, Debug, PartialEq, Eq)]
pub enum Needs {
    /// Clocks and edges as every build takes them.
    Nothing,
    /// Parallel edges (SPECIFICATION 7.2).
    ParallelEdges,
    /// Clocks that are set to more than 0 (SPECIFICATION 6.3).
    LateClocks,
}

/// Those that take texts that have what is named: an older build is asked for a post that has it.
pub fn taking(contenders: &[Contender], needs: Needs) -> Vec<Contender> {
    let post = match needs {
        Needs::Nothing => return contenders.to_vec(),
        Needs::ParallelEdges => texts::twice(),
        Needs::LateClocks => texts::woken(),
    };
    having(contenders, |operations| Some(operations.read(TICK, &post, &mut [])).filter(|read| read.code == 0))
}

/// Where the contender of a name stands, if it is there.
pub fn place(contenders: &[Contender], name: &str) -> Option<usize> {
    contenders.iter().position(|contender| contender.name == name)
}

/// Has every contender make a call, and holds what it returns and writes against what the first one does.
pub fn compare<T: PartialEq>(contenders: &[Contender], call: impl Fn(&dyn Operations) -> (Returned, T)) -> Returned {
    let first = call(&*contenders[0].operations);
    for contender in &contenders[1..] {
        let other = call(&*contender.operations);
        assert_eq!(first.0, other.0, "{} and {} answer otherwise", contenders[0].name, contender.name);
        assert!(first.1 == other.1, "{} and {} write otherwise", contenders[0].name, contender.name);
    }
    first.0
}

/// The calls to be timed, one for each contender.
pub type Calls = Vec<Box<dyn FnMut()>>;

pub fn calls(contenders: &[Contender], call: impl Fn(Rc<dyn Operations>) -> Box<dyn FnMut()>) -> Calls {
    contenders.iter().map(|contender| call(contender.operations.clone())).collect()
}
