//! What the calls came to: the codes by operation, and how many texts had parallel edges and late clocks.

use crate::compare::{Made, SUCCESS};
use crate::OPERATIONS;

/// How often each code occurred, by code, with 0 for success, and file mark.
type Codes = [[u64; 3]; 1 + plain::codes::ALL.len()];

/// Something that a text may have, how it is called, and where the rules have it.
struct Property {
    name: &'static str,
    clause: &'static str,
    /// Whether a text is accepted at a tick length and has it.
    holds: fn(usize, &[u8]) -> bool,
}

const PROPERTIES: [Property; 2] = [
    Property { name: "parallel edges", clause: "7.2", holds: plain::has_parallel_edges },
    Property { name: "late clocks", clause: "5.4", holds: plain::has_late_clocks },
];

/// Accepted texts with a property.
#[derive(Clone, Copy, Default)]
struct Having {
    texts: u64,
    /// The calls that succeeded on such a text.
    succeeded: u64,
}

/// The accepted texts of an operation's calls.
#[derive(Clone, Copy, Default)]
struct Accepted {
    all: u64,
    /// Those with each property, in the order of `PROPERTIES`.
    having: [Having; PROPERTIES.len()],
}

/// All by operation, in the order of `OPERATIONS`.
#[derive(Default)]
pub struct Counts {
    codes: [Codes; OPERATIONS.len()],
    texts: [Accepted; OPERATIONS.len()],
}

impl Counts {
    pub fn add(&mut self, operation: usize, made: &Made) {
        let returned = made.returned;
        self.codes[operation][returned.code][returned.file] += 1;
        let accepted = made.texts().filter(|text| plain::read(made.tick_length, text).is_ok()).count();
        let texts = &mut self.texts[operation];
        texts.all += accepted as u64;
        for (having, property) in texts.having.iter_mut().zip(&PROPERTIES) {
            let count = made.texts().filter(|text| (property.holds)(made.tick_length, text)).count();
            having.texts += count as u64;
            having.succeeded += u64::from(count > 0 && returned.code == SUCCESS);
        }
    }

    pub fn print(&self) {
        println!("Calls by operation and code (file mark 2 in brackets):");
        for (operation, by_code) in OPERATIONS.iter().zip(&self.codes) {
            let entry = |(code, by_file): (usize, &[u64; 3])| {
                let [of_none, of_left, of_right] = by_file;
                let right = if *of_right > 0 { format!(" ({of_right})") } else { String::new() };
                (of_none + of_left + of_right > 0).then(|| format!("{code}: {}{right}", of_none + of_left + of_right))
            };
            let entries: Vec<String> = by_code.iter().enumerate().filter_map(entry).collect();
            if !entries.is_empty() {
                println!("{}: {}", operation.name, entries.join(", "));
            }
        }
        for (i, Property { name, clause, .. }) in PROPERTIES.iter().enumerate() {
            println!("Accepted texts with {name}, and calls that succeeded on one (SPECIFICATION {clause}):");
            let all = OPERATIONS.iter().zip(&self.texts).filter(|(_, texts)| texts.all > 0);
            for (operation, Accepted { all, having }) in all {
                let Having { texts, succeeded } = having[i];
                println!("{}: {texts} of {all} texts, {succeeded} calls", operation.name);
            }
        }
    }

    /// Codes that can occur and did not, of which 1 to 12 have to occur for either text, and operations that no text
    /// with parallel edges, or none with late clocks, passed.
    pub fn missing(&self) -> Vec<String> {
        let mut missing = Vec::new();
        for ((operation, by_code), texts) in OPERATIONS.iter().zip(&self.codes).zip(&self.texts) {
            for code in operation.codes {
                let marks: &[usize] = match code {
                    1..=12 if operation.two_texts => &[1, 2],
                    1..=12 | 17 | 22 | 23 => &[1],
                    _ => &[0],
                };
                let absent = marks.iter().filter(|mark| by_code[*code][**mark] == 0);
                missing.extend(absent.map(|mark| format!("{} {code} with file {mark}", operation.name)));
            }
            for (property, _) in PROPERTIES.iter().zip(&texts.having).filter(|(_, having)| having.succeeded == 0) {
                missing.push(format!("{} of a text with {}", operation.name, property.name));
            }
        }
        missing
    }
}
