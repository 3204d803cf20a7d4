//! Random job files: a job among others, the number that is asked for, and room.

use super::{damage, lists, tables};
use crate::jobs::{bodies_of, in_pairs, sizes_of, Job};
use crate::random::Numbers;

/// A job as a file can hold it: a size has 16 bits, and pairs are whole.
pub fn fileable(table: &[u32], list: &[u16]) -> Job {
    let words = table.len().min(65_535);
    in_pairs((table[..words].to_vec(), list.to_vec()))
}

/// What the writer is sent for a job among others: sizes and bodies, once in a while not as they should
/// be.
pub struct Sent {
    pub sizes: Vec<u16>,
    pub bodies: Vec<u8>,
    /// The job's own number, and how many jobs there were.
    pub own_number: usize,
    pub jobs: usize,
}

pub fn sent(numbers: &mut Numbers, own: Job) -> Sent {
    let (jobs, own_number) = among_others(numbers, own);
    let (mut sizes, mut bodies) = (sizes_of(&jobs), bodies_of(&jobs));
    if numbers.one_in(8) {
        damage::sent(numbers, &mut sizes, &mut bodies);
    }
    Sent {
        sizes,
        bodies,
        own_number,
        jobs: jobs.len(),
    }
}

/// What becomes of a file on its way, once in a while.
pub fn underway(numbers: &mut Numbers, file: &mut Vec<u8>) {
    if file.len() > 2 && numbers.one_in(4) {
        damage::file(numbers, file);
    }
}

/// The job with others before and behind it, and its number.
fn among_others(numbers: &mut Numbers, job: Job) -> (Vec<Job>, usize) {
    let others = match numbers.below(16) {
        0..=7 => 0,
        8..=14 => 1 + numbers.below(4),
        _ => 55 + numbers.below(11),
    };
    let mut jobs: Vec<Job> = (0..others).map(|_| small(numbers)).collect();
    let before = numbers.below(jobs.len() + 1);
    jobs.insert(before, job);
    (jobs, before + 1)
}

fn small(numbers: &mut Numbers) -> Job {
    let table = tables::mixed(numbers, 3);
    let length = numbers.below(3);
    let list = lists::any(numbers, &table, length, 0);
    (table, list)
}

/// Mostly the job's own number; also the others' and numbers that no job has.
pub fn number(numbers: &mut Numbers, own: usize, jobs: usize) -> u32 {
    let (own, jobs) = (own as u32, jobs as u32);
    match numbers.below(60) {
        0 => 0,
        1 => jobs,
        2 => jobs + 1,
        3 => own + 256,
        4 => own + 65_536,
        5 => own + 0x8000_0000,
        6 => u32::MAX,
        7 => numbers.number(),
        8..=15 => 1 + numbers.below(jobs as usize) as u32,
        _ => own,
    }
}

/// Room by what is needed: as much, less by one, any less, or more.
pub fn room(numbers: &mut Numbers, least: usize) -> usize {
    match numbers.below(120) {
        0..=2 => least.saturating_sub(1),
        3 => numbers.below(least + 1),
        4..=60 => least,
        _ => least + 1 + numbers.below(9),
    }
}
