//! Contract texts for tests and benchmarks: the posts (SPECIFICATION 16.1), seeded random texts, ones that are
//! implementations among them, texts with late clocks, texts with parallel edges, texts with one fault, texts at and over
//! each limit, texts of a chosen size, pairs of texts by kind, pairs to be joined, and any of these in milliseconds.

#![forbid(unsafe_code)]

mod damage;
mod joinable;
pub mod kinds;
mod late;
mod limits;
mod milliseconds;
mod model;
mod parallel;
mod posts;
mod random;
mod sized;
mod urgent;

pub use damage::{damaged, noise};
pub use joinable::{joinable, of_joined_length};
pub use late::started_late;
pub use limits::at_a_limit;
pub use milliseconds::{in_milliseconds, with_other_numeral};
pub use model::{Assignment, Comparison, Edge, Model};
pub use parallel::each_edge_twice;
pub use posts::{early, hush, idle, loose, post, rearm, sheet, spare, strict, twice, woken};
pub use random::Random;
pub use sized::{at_single_values, chain, drifting, full_of_edges, full_of_tokens, passive, relay, scaled_post};
pub use sized::{short_rows, Kind, Reach};
pub use urgent::urgent;
