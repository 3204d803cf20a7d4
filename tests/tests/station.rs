//! The host call on job files: its answers, and every byte of the room; and the entries on lent
//! buffers beside it.

use station_tests::checking::checked_on;
use station_tests::jobs::{bodies_of, examples, file_of, sizes_of, Job, BODY, CONTENTS, FILE};
use station_tests::matching::{example_a, example_b, example_c};
use station_tests::station::{check, match_job, match_lent, write, JOB};
use station_tests::table::{
    argument_count, constant, function, pointer, variable, ACCEPTED, ADDRESS, CLASH, CYCLE, LAYOUT,
    LIST, LOOP, NAME, POINTER, ROOM, SIZE, WORD,
};
use station_tests::table_reference::Graph;

/// What stood in a row before: none of it may count.
const OLD: u16 = 0xabcd;
const OLD_BYTE: u8 = 0xee;

/// How many bytes of the room come after the report in these tests.
const LATER: usize = 5;

const CLASSES_A: [u16; 17] = [0, 1, 0, 11, 6, 0, 6, 0, 0, 1, 0, 11, 0, 0, 6, 0, 11];

/// The bytes of a report.
fn report(answer: u16, place: u16, joins: u16, classes: &[u16]) -> Vec<u8> {
    [answer, place, joins]
        .iter()
        .chain(classes)
        .flat_map(|x| x.to_le_bytes())
        .collect()
}

/// The answer for a job, in room of `size` bytes, and the room.
fn called(file: &[u8], job: u32, size: usize) -> (u16, Vec<u8>) {
    let mut room = vec![OLD_BYTE; size];
    let answer = match_job(file, job, &mut room);
    (answer, room)
}

/// That a call is refused by one of the six numbers that write nothing.
fn refused_early(file: &[u8], job: u32, size: usize, answer: u16) {
    assert_eq!(called(file, job, size), (answer, vec![OLD_BYTE; size]));
}

/// That a file's first job is answered so, in a room with later bytes, which stay; and that a match
/// on lent buffers says the same.
fn answered(job: &Job, answer: u16, place: u16, joins: u16, classes: &[u16]) {
    let (table, list) = job;
    let file = file_of(&[job.clone()]);
    let mut wanted = report(answer, place, joins, classes);
    assert_eq!(wanted.len(), 6 + 2 * table.len());
    wanted.extend([OLD_BYTE; LATER]);
    assert_eq!(called(&file, 1, wanted.len()), (answer, wanted));

    assert_eq!(on_lent(table, list, classes), (answer, place, joins));
}

/// A refusal from 3 on: the class entries are zeros.
fn refused(job: &Job, answer: u16, place: u16) {
    answered(job, answer, place, 0, &vec![0; job.0.len()]);
}

/// A match on lent buffers that are full of old contents, with entries above those in use; that the
/// buffers are left as document 01 says.
fn on_lent(table: &[u32], list: &[u16], classes: &[u16]) -> (u16, u16, u16) {
    let n = table.len();
    let mut class = vec![OLD; n + 3];
    let mut work = vec![OLD; 4 * n + 3];
    let numbers = match_lent(table, list, &mut class, &mut work);
    assert_eq!(class[..n], classes[..]);
    assert_eq!(class[n..], [OLD; 3]);
    assert!(work[..4 * n].iter().all(|&e| e == 0));
    assert_eq!(work[4 * n..], [OLD; 3]);
    numbers
}

#[test]
fn the_file_of_document_01() {
    let file = file_of(&examples());
    assert_eq!(file.len(), 106);
    let size = 6 + 2 * 17;
    let (answer, room) = called(&file, 1, size + LATER);
    assert_eq!(answer, ACCEPTED);
    assert_eq!(room[..size], report(0, 0, 5, &CLASSES_A)[..]);
    assert_eq!(room[size..], [OLD_BYTE; LATER]);

    let size = 6 + 2 * 4;
    let (answer, room) = called(&file, 2, size + LATER);
    assert_eq!(answer, CYCLE);
    assert_eq!(room[..size], report(11, 1, 0, &[0; 4])[..]);
    assert_eq!(room[size..], [OLD_BYTE; LATER]);
}

#[test]
fn a_file_that_is_refused() {
    for job in [0, 1, 2, 3, u32::MAX] {
        refused_early(&[], job, 64, FILE);
        refused_early(&[1], job, 64, FILE);
        refused_early(&vec![0; 32_769], job, 64, FILE);
        refused_early(&[0, 0], job, 64, CONTENTS);
        refused_early(&[65, 0], job, 64, CONTENTS);
        refused_early(&[1, 0, 8, 0, 1, 0, 0], job, 64, CONTENTS);
        let mut file = file_of(&examples());
        file.push(0);
        refused_early(&file, job, 64, BODY);
        file.truncate(105);
        refused_early(&file, job, 64, BODY);
        let mut file = file_of(&examples());
        file[2] += 1;
        refused_early(&file, job, 64, BODY);
        refused_early(&file, job, 0, BODY);
    }
}

#[test]
fn a_number_that_no_job_has() {
    let file = file_of(&examples());
    for job in [0, 3, 4, 64, 65_536, 65_537, u32::MAX] {
        refused_early(&file, job, 64, JOB);
        refused_early(&file, job, 0, JOB);
    }
    // 15 comes before 1 and 2
    let file = file_of(&[(vec![], vec![])]);
    refused_early(&file, 0, 0, JOB);
    refused_early(&file, 1, 0, SIZE);
    refused_early(&file, 2, 0, JOB);
    // the last of 64
    let file = file_of(&vec![(vec![0], vec![]); 64]);
    assert_eq!(called(&file, 64, 8), (ACCEPTED, vec![0; 8]));
    refused_early(&file, 65, 8, JOB);
}

#[test]
fn sizes() {
    refused_early(&file_of(&[(vec![], vec![])]), 1, 64, SIZE);
    refused_early(&file_of(&[(vec![], vec![1, 1])]), 1, 64, SIZE);
    refused_early(&file_of(&[(vec![0; 4_097], vec![])]), 1, 9_000, SIZE);
    refused_early(&file_of(&[(vec![0; 8_190], vec![])]), 1, 0, SIZE);
    let mut table = vec![constant(7); 4_096];
    table[0] = 0;
    let own: Vec<u16> = (0..4_096).collect();
    answered(&(table, vec![]), ACCEPTED, 0, 0, &own);
    answered(&(vec![0], vec![]), ACCEPTED, 0, 0, &[0]);
}

/// The host call has rows for 64 words, for 512 and for 4,096, and for 257 pairs. Here a chain of
/// variables hangs together from address 1 on.
#[test]
fn sizes_about_those_of_the_rows() {
    for n in [63, 64, 65, 511, 512, 513, 4_095, 4_096] {
        for pairs in [0, 63, 64, 65, 256, 257] {
            let variables = n - 1;
            let mut table: Vec<u32> = (0..n).map(variable).collect();
            table[0] = 0;
            let side = |k| k % variables + 1;
            let list = (0..pairs).flat_map(|k| [side(k), side(k + 1)]).collect();
            if pairs > 256 {
                refused(&(table, list), LIST, 0);
                continue;
            }
            let joins = pairs.min(variables - 1);
            let mut classes: Vec<u16> = (0..n).collect();
            classes[1..=usize::from(joins) + 1].fill(1);
            answered(&(table, list), ACCEPTED, 0, joins, &classes);
        }
    }
}

#[test]
fn room() {
    let file = file_of(&examples());
    for (job, n, answer) in [(1, 17, ACCEPTED), (2, 4, CYCLE)] {
        let enough = 6 + 2 * n;
        for size in 0..enough {
            refused_early(&file, job, size, ROOM);
        }
        assert_eq!(called(&file, job, enough).0, answer);
    }
}

#[test]
fn refusals_of_the_match() {
    refused(&(vec![1], vec![]), WORD, 0);
    refused(&(vec![0, argument_count(1)], vec![]), LAYOUT, 1);
    refused(
        &(vec![0, function(1), argument_count(1)], vec![]),
        LAYOUT,
        3,
    );
    let named = |to| vec![0, function(1), argument_count(1), pointer(to)];
    refused(&(named(9), vec![]), POINTER, 3);
    refused(&(vec![0, variable(1), variable(1)], vec![]), NAME, 2);
    refused(&(named(1), vec![]), LOOP, 0);
    refused(&(example_c(), vec![1, 2, 0, 1]), ADDRESS, 2);
    refused(&(example_c(), vec![3, 1, 3, 2]), CLASH, 2);
    refused(&(example_c(), vec![1, 2]), CLASH, 1);
    refused(&(example_b(), vec![1, 3]), CYCLE, 1);
}

#[test]
fn lists_that_are_accepted() {
    answered(&(example_a(), vec![1, 9]), ACCEPTED, 0, 5, &CLASSES_A);
    answered(&(example_b(), vec![3, 3]), ACCEPTED, 0, 0, &[0, 1, 0, 3]);
    answered(&(example_c(), vec![3, 1]), ACCEPTED, 0, 1, &[0, 1, 2, 1]);
    answered(&(example_c(), vec![]), ACCEPTED, 0, 0, &[0, 1, 2, 3]);
}

#[test]
fn long_lists() {
    let list = |pairs: usize| [3, 1].repeat(pairs);
    for pairs in [255, 256] {
        answered(&(example_c(), list(pairs)), ACCEPTED, 0, 1, &[0, 1, 2, 1]);
    }
    for pairs in [257, 258, 259, 512, 4_000, 8_184] {
        refused(&(example_c(), list(pairs)), LIST, 0);
        // 3 to 7 come before 8, and 8 before 9 and 10
        refused(&(vec![1, 0, 0, 0], list(pairs)), WORD, 0);
        let mut looped = example_b();
        looped[3] = pointer(1);
        refused(&(looped, list(pairs)), LOOP, 0);
        refused(&(example_c(), [0, 9].repeat(pairs)), LIST, 0);
        refused(&(example_c(), [1, 2].repeat(pairs)), LIST, 0);
    }
    // the pair that is too many is the only bad one
    let mut last = list(256);
    last.extend([0, 0]);
    refused(&(example_c(), last), LIST, 0);
    let mut last = list(255);
    last.extend([1, 2]);
    refused(&(example_c(), last), CLASH, 256);
}

#[test]
fn jobs_do_not_see_each_other() {
    let jobs: Vec<Job> = (0..60)
        .map(|k| match k % 3 {
            0 => (example_a(), vec![1, 9]),
            1 => (example_c(), vec![3, 1]),
            _ => (example_b(), vec![1, 3]),
        })
        .collect();
    let file = file_of(&jobs);
    for k in (0..60).rev().chain(0..60) {
        let (answer, room) = called(&file, k + 1, 6 + 2 * 17 + LATER);
        let wanted = match k % 3 {
            0 => report(0, 0, 5, &CLASSES_A),
            1 => report(0, 0, 1, &[0, 1, 2, 1]),
            _ => report(11, 1, 0, &[0; 4]),
        };
        assert_eq!(answer.to_le_bytes(), wanted[..2]);
        assert_eq!(room[..wanted.len()], wanted[..]);
        assert!(room[wanted.len()..].iter().all(|&b| b == OLD_BYTE));
    }
}

#[test]
fn lent_buffers_too_short() {
    for (class_room, work_room, odd) in [(3, 16, false), (4, 15, false), (0, 0, true)] {
        let mut class = vec![OLD; class_room];
        let mut work = vec![OLD; work_room];
        let list: &[u16] = if odd { &[1] } else { &[3, 1] };
        let table = example_c();
        let found = match_lent(&table, list, &mut class, &mut work);
        assert_eq!(found, (ROOM, 0, 0));
        assert_eq!(check(&table, &mut class, &mut work), (ROOM, 0, 0));
        assert_eq!(match_lent(&[], list, &mut class, &mut work), (SIZE, 0, 0));
        assert_eq!(check(&[], &mut class, &mut work), (SIZE, 0, 0));
        assert!(class.iter().chain(&work).all(|&e| e == OLD));
    }
}

#[test]
fn lent_lists_of_odd_length() {
    // no file can hold one
    for list in [&[3][..], &[3, 1, 3], &[0; 511], &[0; 513], &[0; 514]] {
        let found = on_lent(&example_c(), list, &[0; 4]);
        assert_eq!(found, (LIST, 0, 0));
    }
}

#[test]
fn the_table_check_on_lent_buffers() {
    let tables = [
        example_a(),
        example_b(),
        example_c(),
        vec![0],
        vec![1],
        vec![0, function(1)],
        vec![0, function(1), argument_count(1), pointer(1)],
        vec![0, function(1), argument_count(1), pointer(4)],
        vec![0, variable(5), constant(5), variable(5)],
    ];
    for table in tables {
        let n = table.len();
        let mut class = vec![OLD; n + 3];
        let mut work = vec![OLD; 4 * n + 3];
        let (answer, place) = checked_on(&table, &mut class, &mut work);
        let wanted = Graph::of(&table).map_or_else(|fault| fault, |_| (ACCEPTED, 0));
        assert_eq!((answer, usize::from(place)), wanted);
        // what the check refuses, a match refuses the same way
        if answer != ACCEPTED {
            refused(&(table, vec![]), answer, place);
        }
    }
}

#[test]
fn written_and_matched() {
    let jobs = examples();
    let file = file_of(&jobs);
    let mut room = vec![OLD_BYTE; file.len() + LATER];
    assert_eq!(write(&sizes_of(&jobs), &bodies_of(&jobs), &mut room), 0);
    assert_eq!(room[..file.len()], file[..]);
    assert_eq!(room[file.len()..], [OLD_BYTE; LATER]);
    let (answer, report) = called(&room[..file.len()], 2, 14);
    assert_eq!((answer, report[0]), (CYCLE, 11));

    let untouched = |sizes: &[u16], bodies: &[u8], size: usize| {
        let mut room = vec![OLD_BYTE; size];
        let answer = write(sizes, bodies, &mut room);
        assert!(room.iter().all(|&b| b == OLD_BYTE));
        answer
    };
    assert_eq!(untouched(&[1], &[], 64), CONTENTS);
    assert_eq!(untouched(&[1, 0], &[0; 3], 64), BODY);
    assert_eq!(untouched(&[8_191, 0], &[0; 32_764], 40_000), FILE);
    assert_eq!(untouched(&[1, 0], &[0; 4], 11), ROOM);
}
