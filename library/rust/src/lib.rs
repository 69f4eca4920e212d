//! Refinement of timed I/O contracts over whole ticks: a safe wrapper around the proved library `libmegzhoi_c.a`.
//!
//! A draft (left) is held against a contract (right), both texts in a subset of XTA; docs/SPECIFICATION.md has the
//! rules. Every slice is the caller's: [`read`] gives the numbers of states, and [`keep_bytes`], [`table_bytes`] and
//! [`queue_entries`] say from these how long the slices are. [`join`] writes two contracts as one text, in at most
//! [`TEXT_LIMIT`] bytes.
//!
//! Each operation takes the tick length first, 1 to [`TICK_LIMIT`] milliseconds, one for both texts: a constant of c
//! milliseconds comes to c / tick length ticks, the nearest whole number, an exact half upward. With 1 the constants
//! are ticks. Any other length is refused with [`Code::TickOutOfRange`] before a text is looked at.
//!
//! ```
//! use megzhoi::{check, keep_bytes, queue_entries, read, search, table_bytes, widest};
//!
//! # fn example(name: &str) -> std::io::Result<Vec<u8>> {
//! #     std::fs::read(format!("{}/../../examples/{name}", env!("CARGO_MANIFEST_DIR")))
//! # }
//! # fn main() -> Result<(), Box<dyn std::error::Error>> {
//! let (draft, contract) = (example("Rearm.xta")?, example("Post.xta")?);
//! let tick = 1; // their constants are ticks
//! let (left, right) = (read(tick, &draft)?, read(tick, &contract)?);
//!
//! // A shortest run by which the draft departs from the contract.
//! let mut keep = vec![0; keep_bytes(left.states)];
//! let entries = queue_entries(left.states, right.states);
//! let (mut back, mut line, mut run) = (vec![0; entries], vec![0; entries], vec![0; entries]);
//! let n = search(tick, &draft, &contract, &mut keep, &mut back, &mut line, &mut run)?;
//! assert_eq!(run[..n], [0, 0, 0, 2, 0]); // three ticks, the channel `spike`, a tick
//! assert_eq!(draft[left.channels[2 - 1].name.clone()], *b"spike");
//!
//! // A table that shows that the contract keeps itself, made and checked again.
//! let mut table = vec![0; table_bytes(right.states, right.states)];
//! let made = widest(tick, &contract, &contract, &mut keep, &mut table)?;
//! assert_eq!((made.pairs, made.start), (29, true));
//! assert_eq!(check(tick, &contract, &contract, &mut keep, &table)?, 29);
//! # Ok(())
//! # }
//! ```
//!
//! Each operation runs the proved code on a thread of its own with [`STACK`] bytes of stack, since nothing in the
//! library checks that there is enough, and panics where the system gives no such thread. [`here`] has the same functions
//! for callers that see to the stack themselves.
//!
//! What nothing checks: that the archive linked is the proved one, that it follows the C ABI of x86-64 Linux as
//! declared in `megzhoi.h`, that the stack suffices (it was measured), and that the decoding of a record here, which
//! is plain Rust, is right. That slices do not overlap follows from Rust's borrow rules.
#![warn(missing_docs)]

pub mod here;
pub mod raw;
mod record;
mod refusal;

pub use record::{Assignment, Channel, Comparison, Direction, Edge, Label, Location, Record, Sign};
pub use refusal::{Code, NoSuchCode, Refusal, Side};

use std::thread;

/// Bytes of stack that each call is given: `MEGZHOI_STACK` of `megzhoi.h`, which says what was measured.
pub const STACK: usize = 6 << 20;

/// Bytes of the longest text, and so of the longest joined one.
pub const TEXT_LIMIT: usize = 32_768;

/// Milliseconds of the longest tick.
pub const TICK_LIMIT: usize = 60_000;

/// Bytes of `keep` that are enough for every text.
pub const KEEP_BYTES: usize = 512;

/// The safe states of a text.
#[derive(Clone, Copy, Debug, PartialEq, Eq)]
pub struct Safe {
    /// How many there are.
    pub count: usize,
    /// Whether the start is one.
    pub start: bool,
}

/// The widest table.
#[derive(Clone, Copy, Debug, PartialEq, Eq)]
pub struct Widest {
    /// How many pairs it has.
    pub pairs: usize,
    /// Whether the start pair is one.
    pub start: bool,
}

/// Runs a call on a thread with [`STACK`] bytes of stack. Panics where the system gives no thread.
fn with_stack<T: Send>(call: impl FnOnce() -> T + Send) -> T {
    thread::scope(|scope| {
        let started = thread::Builder::new().stack_size(STACK).spawn_scoped(scope, call);
        started.expect("no thread for the call").join().expect("the call does not panic")
    })
}

/// Reads a text: its record, with the number of its states. The constants in it are in ticks.
///
/// ```
/// use megzhoi::{read, Assignment, Direction, Refusal};
///
/// let text = b"broadcast chan go;
/// process Lamp() {
/// clock x;
/// state Off { x <= 2 };
/// init Off;
/// trans Off -> Off { sync go?; assign x = 0; };
/// }
/// system Lamp;";
/// let record = read(1, text)?;
/// assert_eq!(record.states, 4); // the clock has the values 0, 1 and 2, and one for all above
/// assert_eq!(record.channels[0].direction, Direction::Input);
/// assert_eq!(text[record.locations[0].name.clone()], *b"Off");
/// assert_eq!(record.edges[0].assignments, [Some(Assignment { value: 0, largest: 0 }), None, None]);
///
/// // The same constant in milliseconds, of ticks of 4: an exact half goes upward.
/// assert_eq!(read(4, text)?.locations[0].invariant[0].bound, 1);
/// # Ok::<(), Refusal>(())
/// ```
///
/// An edge may set a clock to another value than 0. Of several assignments of one clock the last counts, but every value
/// that is written makes the clock have states up to it. A value that the target's invariant forbids takes the move away.
///
/// ```
/// use megzhoi::{read, Assignment, Code};
///
/// # fn main() -> Result<(), Box<dyn std::error::Error>> {
/// # let woken = std::fs::read_to_string(concat!(env!("CARGO_MANIFEST_DIR"), "/../../examples/Woken.xta"))?;
/// // In examples/Woken.xta a spike sets the clock to 1.
/// let record = read(1, woken.as_bytes())?;
/// assert_eq!(record.states, 10);
/// assert_eq!(record.edges[1].assignments[0], Some(Assignment { value: 1, largest: 1 }));
///
/// let record = read(1, woken.replace("x = 1", "x = 7, x = 1").as_bytes())?;
/// assert_eq!(record.states, 18);
/// assert_eq!(record.edges[1].assignments[0], Some(Assignment { value: 1, largest: 7 }));
///
/// // With its clock at 4 the invariant of Wait does not hold, so Wait has no move by `spike`.
/// let refusal = read(1, woken.replace("x = 1", "x = 4").as_bytes()).unwrap_err();
/// assert_eq!((refusal.code, refusal.p, refusal.q), (Code::InputWithoutMove, 0, 2));
/// # Ok(())
/// # }
/// ```
///
/// Two edges that give moves by one channel make one move where they lead to one state; elsewhere the text is refused.
///
/// ```
/// use megzhoi::{read, Code};
///
/// # fn main() -> Result<(), Box<dyn std::error::Error>> {
/// # let twice = std::fs::read_to_string(concat!(env!("CARGO_MANIFEST_DIR"), "/../../examples/Twice.xta"))?;
/// // examples/Twice.xta has the edge for `pass` from Wait to Done two times.
/// assert_eq!(read(1, twice.as_bytes())?.states, 10);
///
/// // If the second one sets the clock to 0, they lead to one state where the clock is at 0, and not where it is at 1.
/// let edge = "Wait -> Done { sync pass?; }";
/// let resetting = twice.replacen(edge, "Wait -> Done { sync pass?; assign x = 0; }", 1);
/// let refusal = read(1, resetting.as_bytes()).unwrap_err();
/// assert_eq!((refusal.code, refusal.p, refusal.q), (Code::TwoEdges, 1, 1));
/// # Ok(())
/// # }
/// ```
pub fn read(tick_length: usize, text: &[u8]) -> Result<Record, Refusal> {
    // SAFETY: the thread has STACK bytes of stack; this holds for the others below too.
    with_stack(|| unsafe { here::read(tick_length, text) })
}

/// Finds the safe states of a text: one bit a state in `keep`, state 0 in the high bit of byte 0.
///
/// ```
/// use megzhoi::{keep_bytes, read, safe_states};
///
/// # fn main() -> Result<(), Box<dyn std::error::Error>> {
/// # let text = std::fs::read(concat!(env!("CARGO_MANIFEST_DIR"), "/../../examples/Post.xta"))?;
/// let mut keep = vec![0; keep_bytes(read(1, &text)?.states)];
/// let safe = safe_states(1, &text, &mut keep)?; // of examples/Post.xta, which has 10 states
/// assert_eq!((safe.count, safe.start), (9, true));
/// assert_eq!(keep, [0b1111_0111, 0b1100_0000]); // all but state 4
/// # Ok(())
/// # }
/// ```
pub fn safe_states(tick_length: usize, text: &[u8], keep: &mut [u8]) -> Result<Safe, Refusal> {
    with_stack(|| unsafe { here::safe_states(tick_length, text, keep) })
}

/// Says whether a text is an implementation: in every state that is reachable from the start, by inputs too, a tick is
/// possible or an output is, and not both. Where it is none, the refusal has the lowest state at fault.
///
/// ```
/// use megzhoi::{implementation, Code};
///
/// # fn main() -> Result<(), Box<dyn std::error::Error>> {
/// # let post = std::fs::read_to_string(concat!(env!("CARGO_MANIFEST_DIR"), "/../../examples/Post.xta"))?;
/// # let hush = std::fs::read(concat!(env!("CARGO_MANIFEST_DIR"), "/../../examples/Hush.xta"))?;
/// implementation(1, post.as_bytes())?; // examples/Post.xta raises `late` at tick 3 and no sooner
///
/// // A post that may raise it at tick 2 as well leaves open when it does.
/// let refusal = implementation(1, post.replace("x >= 3", "x >= 2").as_bytes()).unwrap_err();
/// assert_eq!((refusal.code, refusal.p, refusal.q), (Code::OutputBesideTick, 2, 3));
///
/// // examples/Hush.xta forbids a fourth tick and has no output to raise instead.
/// let refusal = implementation(1, &hush).unwrap_err();
/// assert_eq!((refusal.code, refusal.p, refusal.q), (Code::NeitherPossible, 3, 0));
/// # Ok(())
/// # }
/// ```
pub fn implementation(tick_length: usize, text: &[u8]) -> Result<(), Refusal> {
    with_stack(|| unsafe { here::implementation(tick_length, text) })
}

/// Looks for a shortest run of the left that departs from the right: n, the number of its steps, 0 where there is
/// none. `run` gets the steps, 0 for a tick and else the left's channel number, `keep` the left's safe states.
/// `back` and `line` are scratch of [`queue_entries`] entries each; no run has more steps than that.
///
/// ```
/// use megzhoi::{queue_entries, read, search, Code, KEEP_BYTES};
///
/// # fn main() -> Result<(), Box<dyn std::error::Error>> {
/// # let early = std::fs::read(concat!(env!("CARGO_MANIFEST_DIR"), "/../../examples/Early.xta"))?;
/// # let post = std::fs::read(concat!(env!("CARGO_MANIFEST_DIR"), "/../../examples/Post.xta"))?;
/// let entries = queue_entries(read(1, &early)?.states, read(1, &post)?.states);
/// let (mut keep, mut back, mut line) = ([0; KEEP_BYTES], vec![0; entries], vec![0; entries]);
/// let mut run = [0; 3];
/// let n = search(1, &early, &post, &mut keep, &mut back, &mut line, &mut run)?;
/// assert_eq!(run[..n], [0, 0, 3]); // examples/Early.xta raises `late` after two ticks
///
/// // A run that is too short is refused with the number of steps that it takes.
/// let refusal = search(1, &early, &post, &mut keep, &mut back, &mut line, &mut run[..2]).unwrap_err();
/// assert_eq!((refusal.code, refusal.p), (Code::RunTooShort, 3));
/// # Ok(())
/// # }
/// ```
pub fn search(
    tick_length: usize,
    left: &[u8],
    right: &[u8],
    keep: &mut [u8],
    back: &mut [u32],
    line: &mut [u32],
    run: &mut [u32],
) -> Result<usize, Refusal> {
    with_stack(|| unsafe { here::search(tick_length, left, right, keep, back, line, run) })
}

/// Checks a given table, a raw PBM whose width is the right's states and whose height is the left's: the number of
/// pairs set. `keep` gets the left's safe states.
///
/// ```
/// use megzhoi::{check, Code, KEEP_BYTES};
///
/// # fn main() -> Result<(), Box<dyn std::error::Error>> {
/// # let post = std::fs::read(concat!(env!("CARGO_MANIFEST_DIR"), "/../../examples/Post.xta"))?;
/// // Ten rows of two bytes, with the start pair alone: a tick leads to a pair that is not set.
/// let mut table = b"P4\n10 10\n".to_vec();
/// table.resize(29, 0);
/// table[9] = 0x80;
/// let refusal = check(1, &post, &post, &mut [0; KEEP_BYTES], &table).unwrap_err();
/// assert_eq!((refusal.code, refusal.p, refusal.q), (Code::RuleBroken, 0, 0));
/// # Ok(())
/// # }
/// ```
pub fn check(tick_length: usize, left: &[u8], right: &[u8], keep: &mut [u8], table: &[u8]) -> Result<usize, Refusal> {
    with_stack(|| unsafe { here::check(tick_length, left, right, keep, table) })
}

/// Makes the widest table, in [`table_bytes`] bytes. `keep` gets the left's safe states.
///
/// ```
/// use megzhoi::{read, table_bytes, widest, KEEP_BYTES};
///
/// # fn main() -> Result<(), Box<dyn std::error::Error>> {
/// # let rearm = std::fs::read(concat!(env!("CARGO_MANIFEST_DIR"), "/../../examples/Rearm.xta"))?;
/// # let post = std::fs::read(concat!(env!("CARGO_MANIFEST_DIR"), "/../../examples/Post.xta"))?;
/// let mut table = vec![0; table_bytes(read(1, &rearm)?.states, read(1, &post)?.states)];
/// let made = widest(1, &rearm, &post, &mut [0; KEEP_BYTES], &mut table)?;
/// assert_eq!((made.pairs, made.start), (25, false)); // without its start pair it shows nothing
/// # Ok(())
/// # }
/// ```
pub fn widest(
    tick_length: usize,
    left: &[u8],
    right: &[u8],
    keep: &mut [u8],
    table: &mut [u8],
) -> Result<Widest, Refusal> {
    with_stack(|| unsafe { here::widest(tick_length, left, right, keep, table) })
}

/// Joins two texts with equal channels: writes into `out` one that a system satisfies exactly if it satisfies both, and
/// gives the number of its bytes. Its constants are ticks whatever the tick length of the two was, so it is to be read
/// with tick length 1. No joined text has more than [`TEXT_LIMIT`] bytes. Each matching pair of edges is written,
/// parallel ones too.
///
/// ```
/// use megzhoi::{join, queue_entries, read, search, Code, KEEP_BYTES, TEXT_LIMIT};
///
/// # fn example(name: &str) -> std::io::Result<Vec<u8>> {
/// #     std::fs::read(format!("{}/../../examples/{name}", env!("CARGO_MANIFEST_DIR")))
/// # }
/// # fn main() -> Result<(), Box<dyn std::error::Error>> {
/// // One viewpoint has `late` at tick 2 or 3, the other at tick 2.
/// let (loose, early) = (example("Loose.xta")?, example("Early.xta")?);
/// let mut out = vec![0; TEXT_LIMIT];
/// let length = join(1, &loose, &early, &mut out)?;
/// let joined = &out[..length];
/// assert!(joined.starts_with(b"broadcast chan pass , spike , late ; process p0 ( ) { clock c0 , c1 ; state l0 { "));
///
/// // What keeps the joined text keeps both.
/// for viewpoint in [&loose, &early] {
///     let entries = queue_entries(read(1, joined)?.states, read(1, viewpoint)?.states);
///     let (mut back, mut line, mut run) = (vec![0; entries], vec![0; entries], vec![0; entries]);
///     assert_eq!(search(1, joined, viewpoint, &mut [0; KEEP_BYTES], &mut back, &mut line, &mut run)?, 0);
/// }
///
/// // A slice that is too short is refused with the number of bytes that are needed.
/// let refusal = join(1, &loose, &early, &mut [0; 40]).unwrap_err();
/// assert_eq!((refusal.code, refusal.p), (Code::OutTooShort, length));
/// # Ok(())
/// # }
/// ```
pub fn join(tick_length: usize, left: &[u8], right: &[u8], out: &mut [u8]) -> Result<usize, Refusal> {
    with_stack(|| unsafe { here::join(tick_length, left, right, out) })
}

/// The bytes of `keep` for a text, the left one, of so many states: a bit for each. 0 where no text has so many
/// states.
///
/// ```
/// assert_eq!(megzhoi::keep_bytes(10), 2);
/// assert_eq!(megzhoi::keep_bytes(4096), megzhoi::KEEP_BYTES);
/// assert_eq!(megzhoi::keep_bytes(4097), 0);
/// ```
pub fn keep_bytes(states: usize) -> usize {
    // SAFETY: plain numbers, in a function that needs no more stack than any other.
    unsafe { raw::megzhoi_keep_bytes(states) }
}

/// The bytes of a table for two texts of so many states, header and raster. 0 where no text has so many states.
///
/// ```
/// assert_eq!(megzhoi::table_bytes(10, 10), 29);
/// assert_eq!(megzhoi::table_bytes(10, 4097), 0);
/// ```
pub fn table_bytes(left_states: usize, right_states: usize) -> usize {
    // SAFETY: as in `keep_bytes`.
    unsafe { raw::megzhoi_table_bytes(left_states, right_states) }
}

/// The entries of `back`, and those of `line`, for two texts of so many states; `run` needs at most as many. 0 where
/// no text has so many states.
///
/// ```
/// assert_eq!(megzhoi::queue_entries(10, 12), 120);
/// assert_eq!(megzhoi::queue_entries(usize::MAX, usize::MAX), 0);
/// ```
pub fn queue_entries(left_states: usize, right_states: usize) -> usize {
    // SAFETY: as in `keep_bytes`.
    unsafe { raw::megzhoi_queue_entries(left_states, right_states) }
}
