//! Holds what the archive takes from outside against the words of `megzhoi.h`: memcpy and memset of the C library, and
//! nothing else.
use std::collections::BTreeSet;
use std::env;
use std::process::Command;

#[test]
fn the_archive_needs_two_functions() {
    let package = env!("CARGO_MANIFEST_DIR");
    let folder = env::var("MEGZHOI_LIB_DIR").unwrap_or_else(|_| format!("{package}/../../target/staticlib"));
    let archive = format!("{folder}/libmegzhoi_c.a");
    let listed = Command::new("nm").args(["--undefined-only", "--format=posix", &archive]).output().expect("nm runs");
    assert!(listed.status.success(), "{}", String::from_utf8_lossy(&listed.stderr));
    let lines = String::from_utf8(listed.stdout).expect("names are ASCII");
    let needed: BTreeSet<&str> = lines.lines().filter_map(|line| line.strip_suffix(" U").or(line.split_once(" U ").map(|(name, _)| name))).collect();
    assert_eq!(needed, BTreeSet::from(["memcpy", "memset"]));
}
