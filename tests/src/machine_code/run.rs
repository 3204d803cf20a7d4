//! Which instructions a program ran, as valgrind's callgrind counts them.

use super::listing::{Function, Instruction, Listing};
use crate::programs::answered_for;
use std::collections::BTreeSet;
use std::fs;
use std::path::Path;
use std::process::Command;

/// Runs a program for these bytes, and gives what it answers and the addresses of all that it ran. The
/// counts are kept in a file that is named.
pub fn run(program: &Path, input: &[u8], counts: &Path) -> (Vec<u8>, BTreeSet<u64>) {
    let mut command = Command::new("valgrind");
    command
        .args([
            "--quiet",
            "--tool=callgrind",
            "--dump-instr=yes",
            "--dump-line=no",
        ])
        .args(["--compress-pos=no", "--compress-strings=no"])
        .arg(format!("--callgrind-out-file={}", counts.display()))
        .arg(program);
    let answered = answered_for(&mut command, input);
    let counts = fs::read_to_string(counts).expect("callgrind's counts");
    (answered, addresses(&counts))
}

/// Lines that begin with an address have a count behind it.
fn addresses(counts: &str) -> BTreeSet<u64> {
    assert!(counts.lines().any(|line| line == "positions: instr"));
    let mut found = BTreeSet::new();
    for line in counts.lines().filter_map(|line| line.strip_prefix("0x")) {
        let mut parts = line.split(' ');
        let address = parts.next().and_then(|x| u64::from_str_radix(x, 16).ok());
        let count = parts.next().and_then(|x| x.parse::<u64>().ok());
        match (address, count) {
            (Some(_), Some(0)) => false,
            (Some(address), Some(_)) => found.insert(address),
            _ => panic!("not understood: 0x{line}"),
        };
    }
    found
}

/// Instructions that stand one behind the other in a function and were not run.
#[derive(Clone, Debug, PartialEq)]
pub struct Unrun {
    pub function: String,
    pub at: u64,
    pub texts: Vec<String>,
}

/// The functions of a program that a library holds, instruction for instruction.
pub fn of_library<'a>(program: &'a Listing, library: &Listing) -> Vec<&'a Function> {
    let in_program = |function: &Function| {
        let found = program.function(&function.name);
        let found = found.unwrap_or_else(|| panic!("{} is not linked", function.name));
        let texts = |function: &Function| working(function).map(|i| i.text()).collect::<Vec<_>>();
        assert_eq!(texts(found), texts(function), "{}", function.name);
        found
    };
    library.functions.iter().map(in_program).collect()
}

/// All but the padding.
pub fn working(function: &Function) -> impl Iterator<Item = &Instruction> {
    function.instructions.iter().filter(|i| !i.is_padding())
}

/// What was not run of these functions.
pub fn unrun(functions: &[&Function], ran: &BTreeSet<u64>) -> Vec<Unrun> {
    let mut found: Vec<Unrun> = Vec::new();
    for function in functions {
        let mut open = false;
        for instruction in working(function) {
            if ran.contains(&instruction.at) {
                open = false;
                continue;
            }
            if !open {
                found.push(Unrun {
                    function: function.name.clone(),
                    at: instruction.at - function.instructions[0].at,
                    texts: Vec::new(),
                });
            }
            open = true;
            let last = found.last_mut().expect("one is open");
            last.texts.push(instruction.text());
        }
    }
    found
}
