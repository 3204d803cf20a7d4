//! The host program in C, built with the machine's compilers and linked to the library, prints what
//! examples/host.out says.

use station_tests::programs::{built_with_station, printed, valgrind};
use station_tests::read;
use std::path::PathBuf;
use std::process::Command;

/// Builds the host program and returns where it is.
fn host(compiler: &str, options: &[&str], name: &str) -> PathBuf {
    built_with_station(compiler, options, "examples/host.c", name)
}

fn expected() -> String {
    read("examples/host.out")
}

#[test]
fn as_c() {
    let program = host("gcc", &["-O2", "-std=c11", "-Wpedantic"], "host-c");
    assert_eq!(printed(&mut Command::new(program)), expected());
}

#[test]
fn as_cpp() {
    let program = host("g++", &["-O2", "-std=c++11", "-x", "c++"], "host-cpp");
    assert_eq!(printed(&mut Command::new(program)), expected());
}

/// Nothing outside the buffers is read or written, and nothing that was never set decides anything.
#[test]
fn under_valgrind() {
    let program = host("gcc", &["-O2", "-std=c11", "-g"], "host-valgrind");
    assert_eq!(printed(valgrind().arg(program)), expected());
}
