//! The repository speaks of the station alone: it names no machine that it was written on, and not
//! how the work on it was done. Its readers have neither.

use station_tests::{files, repository};
use std::fs;

/// What no file may hold, in small letters. Each is written in two pieces, so that this file does
/// not hold it either.
const PATHS: [&str; 5] = [
    concat!("/wo", "rk/"),
    concat!("/tm", "p/"),
    concat!("/ro", "ot/"),
    concat!("/ho", "me/"),
    concat!("sha", "red/0"),
];
const WORDS: [&str; 5] = [
    concat!("sub", "agent"),
    concat!("sub", "agents"),
    concat!("cla", "ude"),
    concat!("ses", "sion"),
    concat!("ses", "sions"),
];

/// The first thing in a line that no file may hold. A path counts where it starts, not inside a
/// longer path of the repository; a word counts whole.
fn forbidden(line: &str) -> Option<&'static str> {
    let line = line.to_lowercase();
    let starts = |at: usize| {
        let before = line[..at].chars().next_back();
        !matches!(before, Some(c) if c.is_alphanumeric() || c == '_' || c == '-')
    };
    let path = PATHS
        .iter()
        .find(|p| line.match_indices(**p).any(|(at, _)| starts(at)));
    let mut words = line.split(|c: char| !c.is_alphanumeric());
    path.or_else(|| words.find_map(|w| WORDS.iter().find(|f| **f == w)))
        .copied()
}

#[test]
fn no_file_names_a_machine_or_the_work() {
    let files = files();
    for path in [
        "README.md",
        "docs/document-01.md",
        ".ci/run",
        "tests/tests/speaks_of_itself.rs",
    ] {
        assert!(files.iter().any(|f| f == path), "{path} was not looked at");
    }
    let mut found = Vec::new();
    for path in files {
        if let Some(what) = forbidden(&path) {
            found.push(format!("{path}: its name holds {what}"));
        }
        let bytes = fs::read(repository().join(&path)).unwrap_or_else(|e| panic!("{path}: {e}"));
        if bytes.contains(&0) {
            continue; // not text
        }
        for (i, line) in String::from_utf8_lossy(&bytes).lines().enumerate() {
            if let Some(what) = forbidden(line) {
                found.push(format!("{path}:{}: {what}", i + 1));
            }
        }
    }
    assert!(found.is_empty(), "\n{}", found.join("\n"));
}

#[test]
fn what_is_forbidden_is_seen() {
    for path in PATHS {
        assert_eq!(forbidden(&format!("see `{path}x`")), Some(path));
        assert_eq!(forbidden(&format!("crates{path}x")), None);
    }
    for word in WORDS {
        assert_eq!(
            forbidden(&format!("A {}.", word.to_uppercase())),
            Some(word)
        );
        assert_eq!(forbidden(&format!("x{word}")), None);
    }
}
