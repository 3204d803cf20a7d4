//! Every instruction of libstation.a is run, each in a call whose result and whose every byte of lent memory
//! are compared with the independent judge's. What is proved is the source; this looks at what is linked.
//!
//! Where it fails after a change of the code: reach the instruction by another call (src/every_call/corpus.rs),
//! or put it into tests/unreachable.txt with the reason why no call can.

use station_tests::every_call::corpus::corpus;
use station_tests::every_call::Call;
use station_tests::independent::seen::{Entry, Seen};
use station_tests::large_stack::{ended, on_a_large_stack};
use station_tests::machine_code::listing::{Function, Listing};
use station_tests::machine_code::run::{of_library, run, unrun, working};
use station_tests::machine_code::unreachable::{faults, listed, Listed};
use station_tests::programs::built_with_station;
use station_tests::{machine_code, read};
use std::collections::BTreeSet;
use std::path::{Path, PathBuf};

const SEED: u64 = 0x0eac_41c5;
const JOBS: u64 = 2_000;

fn calls(jobs: u64) -> Vec<Call> {
    ended(on_a_large_stack(move || corpus(SEED, jobs)))
}

fn program(name: &str) -> PathBuf {
    // At fixed addresses, so that those that ran are those that are listed.
    let options = ["-O2", "-std=c11", "-no-pie"];
    built_with_station("gcc", &options, "tests/c/every_call.c", name)
}

/// Makes the calls and compares what comes back. Gives the addresses of what ran.
fn judged(program: &Path, calls: &[&Call]) -> BTreeSet<u64> {
    let asked: Vec<u8> = calls.iter().flat_map(|c| c.asked.clone()).collect();
    let (answered, ran) = run(program, &asked, &program.with_extension("counts"));
    let mut rest = &answered[..];
    for (i, call) in calls.iter().enumerate() {
        let (own, after) = rest.split_at(call.answered.len().min(rest.len()));
        let told = || format!("call {i}, {:?}, answer {}", call.entry, call.answer());
        assert!(own == call.answered, "{}", told());
        rest = after;
    }
    assert!(rest.is_empty());
    ran
}

#[test]
fn every_instruction_is_run_in_a_judged_call() {
    let calls = calls(JOBS);
    let mut seen = Seen::default();
    for call in &calls {
        seen.answer(call.entry, call.answer());
    }
    println!("{} calls from seed {SEED:#x}", calls.len());
    seen.print_answers();
    seen.assert_every_answer();

    let program = program("every-call");
    let ran = judged(&program, &calls.iter().collect::<Vec<_>>());
    let linked = machine_code::of_file(&program);
    let functions = of_library(&linked, &machine_code::of_library());
    let unrun = unrun(&functions, &ran);
    let all: usize = functions.iter().map(|f| working(f).count()).sum();
    let not: usize = unrun.iter().map(|one| one.texts.len()).sum();
    println!("{all} instructions of libstation.a, all run but {not}");
    let listed = listed(&read("tests/unreachable.txt"));
    let faults = faults(&functions, &unrun, &listed);
    assert!(faults.is_empty(), "\n{}", faults.join("\n"));
    println!("those {not} cannot be reached, as tests/unreachable.txt says");
}

#[test]
fn a_part_of_the_corpus_left_out_is_seen() {
    let calls = calls(100);
    let program = program("every-call-but-write");
    let but_write: Vec<&Call> = calls.iter().filter(|c| c.entry != Entry::Write).collect();
    let ran = judged(&program, &but_write);
    let linked = machine_code::of_file(&program);
    let functions = of_library(&linked, &machine_code::of_library());
    let unrun = unrun(&functions, &ran);
    let write = unrun.iter().find(|one| one.function == "station_write");
    let write = write.expect("nothing of it was run");
    let whole = functions.iter().find(|f| f.name == "station_write");
    let whole = working(whole.expect("it is linked")).count();
    assert_eq!((write.at, write.texts.len()), (0, whole));
    let listed = listed(&read("tests/unreachable.txt"));
    let faults = faults(&functions, &unrun, &listed);
    let told = |fault: &String| fault.starts_with("not run, from 0 of station_write:");
    assert!(faults.iter().any(told));
}

// ---- the list of what cannot be reached

const CODE: &str = "0000000000001000 <a::f>:
    1000:\tmov    %rdi,%rax
    1001:\tje     1003 <a::f+0x3>
    1002:\tinc    %rax
    1003:\tnop
    1004:\tret
";

fn told(ran: &[u64], list: &str) -> Vec<String> {
    let code = Listing::of(CODE, "");
    let functions: Vec<&Function> = code.functions.iter().collect();
    let ran = ran.iter().copied().collect();
    let listed: Vec<Listed> = listed(list);
    faults(&functions, &unrun(&functions, &ran), &listed)
}

#[test]
fn the_list_is_held_to_what_was_run() {
    let all = [0x1000, 0x1001, 0x1002, 0x1004];
    let but_one = [0x1000, 0x1001, 0x1004];
    let list = "# of f\n\nf: never asked for\n\n    inc %rax\n";
    let gone = "f: never asked for\n\n    dec %rax\n";
    let none: Vec<String> = Vec::new();
    assert_eq!(told(&all, ""), none);
    assert_eq!(told(&but_one, list), none);
    assert_eq!(told(&but_one, ""), ["not run, from 2 of f:\n    inc %rax"]);
    let run = "listed, and was run, or stands among others that were not: f:\n    inc %rax";
    assert_eq!(told(&all, list), [run]);
    let not_there = "listed, and is not there: f:\n    dec %rax";
    assert_eq!(told(&all, gone), [not_there]);
    assert_eq!(told(&[0x1000, 0x1001], list).len(), 2);
}
