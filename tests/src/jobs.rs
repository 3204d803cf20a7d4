//! Jobs and the files that hold them, made by the words of document 01 and without the writer.

use crate::matching::{example_a, example_b};

pub const FILE: u16 = 12;
pub const CONTENTS: u16 = 13;
pub const BODY: u16 = 14;

/// The most bytes and the most jobs of a file.
pub const MOST_BYTES: usize = 32_768;
pub const MOST_JOBS: usize = 64;

/// A job as a test has it: the table's words, and the list's addresses, two a pair.
pub type Job = (Vec<u32>, Vec<u16>);

/// The two jobs of document 01: example A with the pair (1,9), and example B with the pair (1,3).
pub fn examples() -> Vec<Job> {
    vec![(example_a(), vec![1, 9]), (example_b(), vec![1, 3])]
}

/// The job as a file can hold it: with whole pairs.
pub fn in_pairs((table, mut list): Job) -> Job {
    list.truncate(list.len() / 2 * 2);
    (table, list)
}

pub fn sizes_of(jobs: &[Job]) -> Vec<u16> {
    jobs.iter()
        .flat_map(|(words, pairs)| [words.len() as u16, (pairs.len() / 2) as u16])
        .collect()
}

pub fn bodies_of(jobs: &[Job]) -> Vec<u8> {
    let mut bytes = Vec::new();
    for (words, pairs) in jobs {
        bytes.extend(words.iter().flat_map(|w| w.to_le_bytes()));
        bytes.extend(pairs.iter().flat_map(|a| a.to_le_bytes()));
    }
    bytes
}

pub fn file_of(jobs: &[Job]) -> Vec<u8> {
    file_from(&sizes_of(jobs), &bodies_of(jobs))
}

/// The file of these sizes and bodies, whether or not they can be one.
pub fn file_from(sizes: &[u16], bodies: &[u8]) -> Vec<u8> {
    let jobs = sizes.len() / 2;
    let mut bytes = (jobs as u16).to_le_bytes().to_vec();
    let mut start = 2 + 6 * jobs;
    for entry in sizes.chunks_exact(2) {
        for number in [start as u16, entry[0], entry[1]] {
            bytes.extend(number.to_le_bytes());
        }
        start += 4 * usize::from(entry[0]) + 4 * usize::from(entry[1]);
    }
    bytes.extend(bodies);
    bytes
}
