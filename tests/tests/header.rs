//! The header's numbers are the library's own, and one version stands in all that is installed.

use station_tests::programs::{built_with_station, printed};
use station_tests::read;
use std::process::Command;

/// What the program prints: one line with the version, unless a number of the header is wrong.
fn limits(compiler: &str, options: &[&str], name: &str) -> String {
    let program = built_with_station(compiler, options, "tests/c/limits.c", name);
    printed(&mut Command::new(program))
}

/// The version that the line of a file holds, between what stands before and behind it.
fn version_in(path: &str, before: &str, behind: &str) -> String {
    let text = read(path);
    let rest = text.split_once(before).expect("the version stands there").1;
    rest.split_once(behind).expect("and ends").0.to_string()
}

#[test]
fn limits_and_version() {
    let version = version_in("packaging/station.pc.in", "\nVersion: ", "\n");
    let on_page = version_in("packaging/station-listing.1", "\"station ", "\"");
    assert_eq!(version, on_page);
    let numbers: Vec<u32> = version
        .split('.')
        .map(|n| n.parse().expect("a number"))
        .collect();
    let number = numbers.iter().fold(0, |sum, n| 100 * sum + n);
    assert_eq!(numbers.len(), 3);
    let line = format!("{version} {number}\n");
    assert_eq!(
        limits("gcc", &["-O2", "-std=c11", "-Wpedantic"], "limits-c"),
        line
    );
    let as_cpp = ["-O2", "-std=c++11", "-x", "c++"];
    assert_eq!(limits("g++", &as_cpp, "limits-cpp"), line);
}
