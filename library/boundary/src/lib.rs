//! The verified library's seven functions, called on the caller's own thread.
//!
//! They go through the wrapper's declarations and return the numbers as they come, undecoded. The functions need more
//! stack than a thread has by default (`megzhoi::STACK`): call them inside `on_large_stack`.
//!
//! They are a trait, `Operations`, for the library that is linked (`Build::LINKED`), for one from a shared object and for
//! plain Rust, so that one program can hold them against each other. A build from before there was a tick length is
//! recognized, and is called with `ONLY_TICK` alone. One whose record says of an edge only which clocks it sets to 0 is
//! recognized too (`Layout`).

mod build;
mod layout;
mod operations;

pub use build::{Build, ONLY_TICK};
pub use layout::Layout;
pub use operations::{ByPairs, ByRows, Operations};

/// What a call returned: code 0 or that of the refusal, and the three numbers.
#[derive(Clone, Copy, Debug, PartialEq, Eq)]
pub struct Returned {
    pub code: usize,
    pub file: usize,
    pub p: usize,
    pub q: usize,
}

/// The stack of a whole test or benchmark: that of a call, and as much again many times over for all else.
const LARGE_STACK: usize = 16 * megzhoi::STACK;

/// Runs tests or benchmarks on a thread with a large stack.
pub fn on_large_stack<T: Send>(work: impl FnOnce() -> T + Send) -> T {
    std::thread::scope(|scope| {
        let thread = std::thread::Builder::new().stack_size(LARGE_STACK).spawn_scoped(scope, work);
        match thread.expect("a thread with a large stack").join() {
            Ok(answer) => answer,
            Err(panic) => std::panic::resume_unwind(panic),
        }
    })
}

/// Hands out places for the three numbers; they start from values no call returns.
fn returned(call: impl FnOnce(&mut usize, &mut usize, &mut usize) -> usize) -> Returned {
    let (mut file, mut p, mut q) = (usize::MAX, usize::MAX, usize::MAX);
    let code = call(&mut file, &mut p, &mut q);
    Returned { code, file, p, q }
}
