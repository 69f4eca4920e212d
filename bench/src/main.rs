//! Times the verified library and plain Rust on the same inputs, in one run, turn about.
//!
//! Prints markdown tables. Every answer of the two is compared; a difference ends the run.
//! MEGZHOI_ROUNDS is how often each is timed (7); MEGZHOI_ONLY leaves out the cases whose line does not have it.
//! MEGZHOI_BEFORE is the path of an older build of the library as a shared object, which every table then shows beside
//! this one, timed in the same rounds; its answers have to be the same. An operation that it lacks is timed without it,
//! and so are texts with parallel edges and texts with late clocks, where it refuses them.
//! All calls are at tick length 1, and an older build that takes no tick length is called without one.
//! MEGZHOI_AFTER names this build's own shared object: calls into a shared object and into a linked archive differ by a
//! few hundredths.

mod cases;
mod contenders;
mod kinds;
mod operations;
mod timing;

use contenders::{place, AFTER, BEFORE, PLAIN};
use timing::{time, Times};

/// In place of the time of an older build that refuses the texts.
const REFUSED: &str = "refused";

fn main() {
    boundary::on_large_stack(run);
}

fn run() {
    let rounds = std::env::var("MEGZHOI_ROUNDS").map_or(7, |value| value.parse().expect("a number"));
    let only = std::env::var("MEGZHOI_ONLY").unwrap_or_default();
    cases::tables().iter().for_each(|table| print_sizes(table, rounds, &only));
    kinds::tables().iter().for_each(|table| print_kinds(table, rounds, &only));
}

/// Times and prints a table by size.
fn print_sizes(table: &cases::Table, rounds: usize, only: &str) {
    let (title, unit) = (table.title, table.unit);
    let (names, lines) = match place(&table.contenders, BEFORE) {
        Some(_) => (" before best | after / before |", "---:|---:|"),
        None => ("", ""),
    };
    println!("### {title}\n");
    if place(&table.contenders, AFTER).is_none() {
        println!("This build does not have the operation.\n");
        return;
    }
    println!(
        "| input | {unit}s | library best | median | plain best | median | ratio | library ns/{unit} \
         | plain ns/{unit} | growth |{names}"
    );
    println!("|---|---:|---:|---:|---:|---:|---:|---:|---:|---:|{lines}");
    for group in &table.groups {
        let mut smaller = None;
        for case in group.iter().filter(|case| case.name.contains(only)) {
            smaller = Some(print_case(table, case, rounds, smaller));
        }
    }
    println!();
}

/// Times one case and prints its line; gives the library's nanoseconds per unit. Growth is over those of the smaller
/// case on the line before.
fn print_case(table: &cases::Table, case: &cases::Case, rounds: usize, smaller: Option<f64>) -> f64 {
    let contenders = table.contenders(case);
    let (units, mut calls) = table.make(case, &contenders);
    let times = time(&mut calls, rounds);
    let of = |name| Some(&times[place(&contenders, name)?]);
    let (library, plain) = (of(AFTER).expect("this build"), of(PLAIN).expect("plain Rust"));
    let per_unit = |times: &Times| times.best / units as f64;
    let growth = smaller.map_or("".to_string(), |smaller| format!("{:.2}", per_unit(library) / smaller));
    let before = match (of(BEFORE), place(&table.contenders, BEFORE)) {
        (Some(before), _) => format!(" {} | {:.2} |", shown(before.best), library.best / before.best),
        (None, Some(_)) => format!(" {REFUSED} | |"),
        (None, None) => String::new(),
    };
    println!(
        "| {} | {units} | {} | {} | {} | {} | {:.2} | {:.2} | {:.2} | {growth} |{before}",
        case.name,
        shown(library.best),
        shown(library.median),
        shown(plain.best),
        shown(plain.median),
        library.best / plain.best,
        per_unit(library),
        per_unit(plain),
    );
    per_unit(library)
}

/// Times and prints a table by kind.
fn print_kinds(table: &kinds::Table, rounds: usize, only: &str) {
    let names: Vec<&str> = table.contenders.iter().map(|contender| contender.name).collect();
    let against: Vec<&str> = [BEFORE, table.against].into_iter().filter(|name| names.contains(name)).collect();
    let ratios: Vec<String> = against.iter().map(|name| format!("{AFTER} / {name}").replace("library ", "")).collect();
    println!("### {}\n", table.title);
    println!("| input | {} | {} | {} |", table.answer, names.join(" | "), ratios.join(" | "));
    println!("|---|---:|{}", "---:|".repeat(names.len() + ratios.len()));
    for mut case in table.cases(only) {
        let times: Vec<f64> = time(&mut case.calls, rounds).iter().map(|times| times.best).collect();
        let of = |name: &str| Some(times[place(&case.contenders, name)?]);
        let after = of(AFTER).expect("this build");
        let ratio = |name: &&str| of(name).map_or(String::new(), |other| format!("{:.2}", after / other));
        let ratios: Vec<String> = against.iter().map(ratio).collect();
        let times: Vec<String> = names.iter().map(|name| of(name).map_or(REFUSED.to_string(), shown)).collect();
        println!("| {} | {} | {} | {} |", case.name, case.answer, times.join(" | "), ratios.join(" | "));
    }
    println!();
}

/// Nanoseconds in a unit that is easy to read.
fn shown(nanoseconds: f64) -> String {
    match nanoseconds {
        n if n < 1e4 => format!("{n:.0} ns"),
        n if n < 1e7 => format!("{:.1} µs", n / 1e3),
        n => format!("{:.1} ms", n / 1e6),
    }
}
