//! The job file, read number by number as document 01 says it, and what its writer refuses.

use super::faults::Fault;
use crate::jobs::{Job, BODY, CONTENTS, FILE, MOST_BYTES, MOST_JOBS};
use crate::table::ROOM;

/// The number of 16 bits at a place, low byte first.
pub fn number(bytes: &[u8], at: usize) -> usize {
    usize::from(bytes[at]) + 256 * usize::from(bytes[at + 1])
}

/// What is wrong with a file.
pub fn fault(file: &[u8]) -> Option<Fault> {
    if file.len() < 2 || file.len() > MOST_BYTES {
        return Some((FILE, 0));
    }
    let jobs = number(file, 0);
    if jobs == 0 || jobs > MOST_JOBS || 2 + 6 * jobs > file.len() {
        return Some((CONTENTS, 0));
    }
    let mut end = 2 + 6 * jobs;
    for (k, entry) in file[2..end].chunks(6).enumerate() {
        let here = end;
        end += 4 * (number(entry, 2) + number(entry, 4));
        if number(entry, 0) != here || end > file.len() {
            return Some((BODY, k + 1));
        }
    }
    if end < file.len() {
        return Some((BODY, jobs + 1));
    }
    None
}

/// The sizes of a good file: n, p, n, p, ..
pub fn sizes(file: &[u8]) -> Vec<u16> {
    let entries = file[2..2 + 6 * number(file, 0)].chunks(6);
    entries
        .flat_map(|entry| [2, 4].map(|at| number(entry, at) as u16))
        .collect()
}

/// The job of a number, from 1, of a good file.
pub fn job_of(file: &[u8], job: usize) -> Job {
    let entry = 2 + 6 * (job - 1);
    let [start, n, pairs] = [0, 2, 4].map(|at| number(file, entry + at));
    let (words, sides) = file[start..start + 4 * (n + pairs)].split_at(4 * n);
    let word = |four: &[u8]| number(four, 0) as u32 + 65_536 * number(four, 2) as u32;
    let table = words.chunks(4).map(word).collect();
    let list = sides.chunks(2).map(|two| number(two, 0) as u16).collect();
    (table, list)
}

/// The number by which the writer refuses sizes, bodies of `bodies` bytes and room of `room`.
pub fn refusal(sizes: &[u16], bodies: usize, room: usize) -> Option<u16> {
    let jobs = sizes.len() / 2;
    if sizes.len() % 2 == 1 || jobs == 0 || jobs > MOST_JOBS {
        return Some(CONTENTS);
    }
    if bodies != sizes.iter().map(|&size| 4 * usize::from(size)).sum() {
        return Some(BODY);
    }
    let size = 2 + 6 * jobs + bodies;
    if size > MOST_BYTES {
        return Some(FILE);
    }
    if size > room {
        return Some(ROOM);
    }
    None
}
