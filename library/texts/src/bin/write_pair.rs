//! Writes a pair of texts of a kind as left.xta and right.xta:
//! `cargo run --package texts -- KIND STATES CLOCKS CHANNELS DIRECTORY`.

use std::path::Path;
use std::process::ExitCode;
use texts::kinds::{texts, Kind, KINDS};

fn main() -> ExitCode {
    let arguments: Vec<String> = std::env::args().skip(1).collect();
    let done = match arguments.as_slice() {
        [kind, states, clocks, channels, directory] => write(kind, [states, clocks, channels], directory),
        _ => Err("usage: KIND STATES CLOCKS CHANNELS DIRECTORY".to_string()),
    };
    match done {
        Ok(()) => ExitCode::SUCCESS,
        Err(why) => {
            eprintln!("{why}");
            ExitCode::from(2)
        }
    }
}

fn write(kind: &str, numbers: [&String; 3], directory: &str) -> Result<(), String> {
    let known = || format!("kinds: {}", KINDS.map(Kind::name).join(", "));
    let kind = Kind::named(kind).ok_or_else(known)?;
    let [states, clocks, channels] = numbers.map(|number| number.parse().unwrap_or(0));
    if !(1..=3).contains(&clocks) || !(2..=16).contains(&channels) {
        return Err("clocks are 1 to 3, channels 2 to 16".to_string());
    }
    let (left, right) = texts(kind, states, clocks, channels);
    let put = |name: &str, text: &[u8]| std::fs::write(Path::new(directory).join(name), text);
    std::fs::create_dir_all(directory)
        .and_then(|()| put("left.xta", &left))
        .and_then(|()| put("right.xta", &right))
        .map_err(|error| error.to_string())
}
