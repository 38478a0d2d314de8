//! What the crate has of `irikit.h` is what the installed header has.
use irikit::{Grammar, Kind, Mode, Part, Place};
use std::collections::HashMap;
use std::fs;
use std::process::Command;

fn header() -> String {
    let folder = std::env::var("IRIKIT_INCLUDE_DIR").unwrap_or_else(|_| {
        let said = Command::new("pkg-config")
            .args(["--variable=includedir", "irikit"])
            .output()
            .expect("pkg-config runs");
        String::from_utf8(said.stdout)
            .expect("a folder")
            .trim()
            .into()
    });
    fs::read_to_string(folder + "/irikit.h").expect("the header is installed")
}

/// The number of each constant `NAME = NUMBER` of a source, in C or Rust.
fn numbers(text: &str) -> HashMap<String, u32> {
    let pair = |line: &str| {
        let (name, number) = line.trim().split_once(" = ")?;
        let name = name.trim_start_matches("pub const ").split(':').next()?;
        let digits = number.split(|c: char| !c.is_ascii_digit()).next()?;
        let is_name = |c: char| c.is_ascii_uppercase() || c.is_ascii_digit() || c == '_';
        let whole = !name.is_empty() && name.chars().all(is_name);
        Some((name.into(), digits.parse().ok()?)).filter(|_| whole)
    };
    text.lines().filter_map(pair).collect()
}

#[test]
fn numbers_are_those_of_the_header() {
    let header = numbers(&header());
    let own = numbers(include_str!("../src/ffi.rs"));
    // The faults have the header's names without its prefix.
    let faults = numbers(include_str!("../src/fault.rs"));
    assert!(own.len() == 13 && faults.len() == 17, "{own:?} {faults:?}");
    for (name, number) in &own {
        assert_eq!(header.get(name), Some(number), "{name}");
    }
    for (name, number) in &faults {
        assert_eq!(
            header.get(&format!("IRIKIT_{name}")),
            Some(number),
            "{name}"
        );
    }
    let enums = [
        ("URI", Grammar::Uri as u32),
        ("IRI", Grammar::Iri as u32),
        ("NORMAL", Mode::Normal as u32),
        ("BY_SCHEME", Mode::ByScheme as u32),
        ("PRESERVING", Mode::Preserving as u32),
        ("REFERENCE", Kind::Reference as u32),
        ("WITH_SCHEME", Kind::WithScheme as u32),
        ("ABSOLUTE", Kind::Absolute as u32),
        ("RELATIVE", Kind::Relative as u32),
        ("IN_REG_NAME", Place::RegName as u32),
        ("IN_USER", Place::User as u32),
        ("IN_SEGMENT", Place::Segment as u32),
        ("IN_PATH", Place::Path as u32),
        ("IN_QUERY", Place::Query as u32),
        ("IN_FRAGMENT", Place::Fragment as u32),
        ("ANYWHERE", Place::Anywhere as u32),
        ("IN_REFERENCE", Place::Reference as u32),
        ("SCHEME", Part::Scheme as u32),
        ("USERINFO", Part::Userinfo as u32),
        ("HOST", Part::Host as u32),
        ("PORT", Part::Port as u32),
        ("PATH", Part::Path as u32),
        ("QUERY", Part::Query as u32),
        ("FRAGMENT", Part::Fragment as u32),
    ];
    for (name, number) in enums {
        assert_eq!(
            header.get(&format!("IRIKIT_{name}")),
            Some(&number),
            "{name}"
        );
    }
}

#[test]
fn the_library_is_that_of_the_header() {
    let header = header();
    let number = header
        .lines()
        .find_map(|line| line.strip_prefix("#define IRIKIT_VERSION "));
    assert_eq!(number, Some(&*irikit::library_version().to_string()));
}
