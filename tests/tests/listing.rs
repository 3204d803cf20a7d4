//! The program `listing`: the lines that it prints for job files, good and refused.

use station_tests::jobs::{examples, file_of, Job, MOST_BYTES};
use station_tests::matching::{constants, example_a, example_c};
use station_tests::programs::{listing, listing_into};
use station_tests::repository;
use station_tests::table::{block_of, constant, variable, variables, words, MOST_WORDS, UNNAMED};
use std::fs::{File, OpenOptions};
use std::io::{ErrorKind, Write};
use std::process::{ChildStdin, Command, Stdio};
use std::thread;
use std::time::Duration;

/// What is said on standard error where standard output takes no more.
const NOT_WHOLE: &str = "station-listing: the listing was not written to its end\n";

/// The listing of a good file: the header, then these lines.
fn good(lines: &[&str]) -> String {
    let mut text = String::from("job answer place joins\n");
    for line in lines {
        text.push_str(line);
        text.push('\n');
    }
    text
}

#[test]
fn the_file_of_document_01() {
    let file = file_of(&examples());
    assert_eq!(file.len(), 106);
    let printed = "job answer place joins\n\
                   1 0 0 5\n\
                   v 3 1 11\n\
                   v 4 2 6\n\
                   v 16 3 11\n\
                   2 11 1 0\n";
    assert_eq!(listing(&file), printed);
}

#[test]
fn refused_files() {
    assert_eq!(listing(b""), "file 12 0\n");
    assert_eq!(listing(b"\x01"), "file 12 0\n");
    assert_eq!(listing(b"\0\0"), "file 13 0\n");
    assert_eq!(listing(b"\x41\0"), "file 13 0\n");
    let file = file_of(&examples());
    assert_eq!(listing(&file[..13]), "file 13 0\n");
    assert_eq!(listing(&file[..14]), "file 14 1\n");
    assert_eq!(listing(&file[..105]), "file 14 2\n");
    let mut follows = file.clone();
    follows.push(0);
    assert_eq!(listing(&follows), "file 14 3\n");
    let mut offset = file;
    offset[8] += 1;
    assert_eq!(listing(&offset), "file 14 2\n");
}

#[test]
fn no_words_and_too_many() {
    let many = vec![0; MOST_WORDS + 1];
    let file = file_of(&[
        (example_a(), vec![1, 9]),
        (vec![], vec![]),
        (many, vec![]),
        (vec![], vec![1, 1]),
        (example_c(), vec![3, 1]),
    ]);
    let lines = [
        "1 0 0 5",
        "v 3 1 11",
        "v 4 2 6",
        "v 16 3 11",
        "2 1 0 0",
        "3 1 0 0",
        "4 1 0 0",
        "5 0 0 1",
        "v 3 1 1",
    ];
    assert_eq!(listing(&file), good(&lines));
}

#[test]
fn limits_of_words_and_pairs() {
    let most = constants(MOST_WORDS);
    assert_eq!(listing(&file_of(&[(most, vec![])])), good(&["1 0 0 0"]));
    let file = file_of(&[
        (example_c(), [3, 1].repeat(256)),
        (example_c(), [3, 1].repeat(257)),
        (example_c(), [3, 1].repeat(5_000)),
        (vec![], [3, 1].repeat(257)),
        (vec![1], [3, 1].repeat(257)),
    ]);
    let lines = [
        "1 0 0 1", "v 3 1 1", "2 8 0 0", "3 8 0 0", "4 1 0 0", "5 3 0 0",
    ];
    assert_eq!(listing(&file), good(&lines));
}

#[test]
fn accepted_jobs_with_no_variables() {
    let file = file_of(&[
        (vec![0], vec![]),
        (constants(4), vec![2, 2]),
        (vec![0], vec![0, 0]),
    ]);
    assert_eq!(listing(&file), good(&["1 0 0 0", "2 0 0 0", "3 9 1 0"]));
}

#[test]
fn refusals_at_places() {
    let c = example_c();
    let file = file_of(&[
        (c.clone(), vec![3, 1, 3, 2]),
        (c.clone(), vec![1, 2]),
        (c, vec![1, 2, 0, 1]),
        (vec![0, 0], vec![]),
        (words(&[variable(7), variable(7)]), vec![]),
    ]);
    let lines = ["1 10 2 0", "2 10 1 0", "3 9 2 0", "4 3 1 0", "5 6 2 0"];
    assert_eq!(listing(&file), good(&lines));
}

#[test]
fn large_labels() {
    let table = words(&[variable(65_535), variable(0), variable(10)]);
    let lines = ["1 0 0 1", "v 1 65535 1", "v 2 0 2", "v 3 10 1"];
    assert_eq!(listing(&file_of(&[(table, vec![3, 1])])), good(&lines));
}

/// Document 02, E1: each has the label 0, an address of its own, and its own class's name.
#[test]
fn unnamed_variables() {
    let mut table = words(&block_of(&[UNNAMED; 3]));
    table.extend([constant(0), UNNAMED, variable(5)]);
    let file = file_of(&[
        (table.clone(), vec![]),
        (table.clone(), vec![4, 6, 7, 5, 8, 7]),
        (table, vec![3, 1]),
        (variables(&[0, 5, 5]), vec![]),
    ]);
    let all_free = [
        "1 0 0 0", "v 3 0 3", "v 4 0 4", "v 5 0 5", "v 7 0 7", "v 8 5 8",
    ];
    // one stays free, one is bound, and two are in one class with a named one
    let three_ways = [
        "2 0 0 3", "v 3 0 3", "v 4 0 6", "v 5 0 5", "v 7 0 5", "v 8 5 5",
    ];
    let refused = ["3 11 1 0", "4 6 3 0"];
    let lines = [&all_free[..], &three_ways, &refused].concat();
    assert_eq!(listing(&file), good(&lines));
}

#[test]
fn unnamed_variables_in_every_word() {
    let items = vec![UNNAMED; MOST_WORDS - 1];
    let mut lines = vec![String::from("1 0 0 1")];
    lines.extend((1..MOST_WORDS).map(|x| {
        let name = if x == 4_095 { 1 } else { x };
        format!("v {x} 0 {name}")
    }));
    let lines: Vec<&str> = lines.iter().map(String::as_str).collect();
    let file = file_of(&[(words(&items), vec![4_095, 1])]);
    assert_eq!(listing(&file), good(&lines));
}

#[test]
fn sixty_four_jobs() {
    let jobs: Vec<Job> = (0..64)
        .map(|k| (words(&[variable(k), variable(k + 1_000)]), vec![1, 2]))
        .collect();
    let mut lines = Vec::new();
    for k in 0..64 {
        lines.push(format!("{} 0 0 1", k + 1));
        lines.push(format!("v 1 {} 1", k));
        lines.push(format!("v 2 {} 1", k + 1_000));
    }
    let lines: Vec<&str> = lines.iter().map(String::as_str).collect();
    assert_eq!(listing(&file_of(&jobs)), good(&lines));
}

#[test]
fn variables_in_every_word() {
    // the longest listing of one job: 4,095 variables
    let items: Vec<u32> = (1..MOST_WORDS as u16).map(variable).collect();
    let mut lines = vec![String::from("1 0 0 1")];
    lines.extend((1..MOST_WORDS).map(|x| {
        let name = if x == 4_095 { 1 } else { x };
        format!("v {} {} {}", x, x, name)
    }));
    let lines: Vec<&str> = lines.iter().map(String::as_str).collect();
    assert_eq!(
        listing(&file_of(&[(words(&items), vec![4_095, 1])])),
        good(&lines)
    );
}

#[test]
fn sizes_of_files() {
    let full = file_of(&[(vec![0; (MOST_BYTES - 8) / 4], vec![])]);
    assert_eq!(full.len(), MOST_BYTES);
    assert_eq!(listing(&full), good(&["1 1 0 0"]));
    let pairs = file_of(&[(vec![0], [1, 1].repeat((MOST_BYTES - 12) / 4))]);
    assert_eq!(pairs.len(), MOST_BYTES);
    assert_eq!(listing(&pairs), good(&["1 8 0 0"]));
    let mut over = full;
    over.push(0);
    assert_eq!(listing(&over), "file 12 0\n");
    assert_eq!(listing(&vec![0; 60_000]), "file 12 0\n");
}

// ---- input that ends early, and output that takes nothing

#[test]
fn a_file_that_is_cut_short_is_refused() {
    let file = file_of(&examples());
    for end in 0..file.len() {
        let line = listing(&file[..end]);
        assert!(line.starts_with("file ") && line.lines().count() == 1);
    }
}

#[test]
fn input_that_cannot_be_read() {
    // a folder can be opened, but not read as a file
    let folder = File::open("/").expect("it can be opened");
    let output = Command::new(repository().join("target/bin/listing"))
        .stdin(folder)
        .output()
        .expect("the program is there");
    assert_eq!(output.stdout, b"file 12 0\n");
}

#[test]
fn a_full_device() {
    let full = OpenOptions::new().write(true).open("/dev/full");
    let (status, said) = listing_into(full.expect("it is there").into(), &file_of(&examples()));
    assert_eq!(said, NOT_WHOLE);
    assert!(!status.success(), "{status}");
}

/// The input of a program that has ended. A program that another test starts at that moment has the end that is read
/// too, until it runs, so a write is tried until it fails: from then on nobody reads.
fn pipe_that_nobody_reads() -> ChildStdin {
    let mut ended = Command::new("true")
        .stdin(Stdio::piped())
        .spawn()
        .expect("the program is there");
    let mut writer = ended.stdin.take().expect("its input is piped");
    ended.wait().expect("it ends");
    for _ in 0..10_000 {
        let written = writer.write(b"?");
        if written.is_err_and(|e| e.kind() == ErrorKind::BrokenPipe) {
            return writer;
        }
        thread::sleep(Duration::from_millis(1));
    }
    panic!("somebody reads the pipe");
}

#[test]
fn a_pipe_that_nobody_reads() {
    let (status, _) = listing_into(pipe_that_nobody_reads().into(), &file_of(&examples()));
    assert!(!status.success(), "{status}");
}
