//! Calls that together reach every instruction of the library: random and damaged jobs, and the edges of
//! every size that the code tells apart.

use super::{check, lent, match_job, read, write, write_behind, Call};
use crate::independent::filed;
use crate::independent::jobs::job;
use crate::jobs::{bodies_of, file_from, in_pairs, sizes_of, Job, MOST_BYTES};
use crate::large_tables::{chains, row_of_variables, towers, wide_blocks};
use crate::matching::{constants, list};
use crate::random::Numbers;
use crate::table::{constant, variable, variables, words, MOST_PAIRS, MOST_WORDS};

/// Larger tables take long, and are no other than small ones to all but the edges.
const MOST_RANDOM_WORDS: usize = 1_000;

/// A random job through all entries.
fn random(numbers: &mut Numbers, calls: &mut Vec<Call>) {
    let made = job(numbers);
    if made.table.len() > MOST_RANDOM_WORDS {
        return;
    }
    let rooms = [made.class_room, made.work_room];
    calls.push(lent(numbers, &made.table, &made.list, rooms));
    calls.push(check(numbers, &made.table, rooms));

    let own = filed::fileable(&made.table, &made.list);
    let n = own.0.len();
    let sent = filed::sent(numbers, own);
    let mut file = file_from(&sent.sizes, &sent.bodies);
    let room = filed::room(numbers, file.len());
    calls.push(write(numbers, &sent.sizes, &sent.bodies, room));
    filed::underway(numbers, &mut file);
    let room = filed::room(numbers, 2 * sent.jobs);
    calls.push(read(numbers, &file, room));
    let asked = filed::number(numbers, sent.own_number, sent.jobs);
    let room = filed::room(numbers, 6 + 2 * n);
    calls.push(match_job(numbers, &file, asked, room));
}

/// A job through all entries, with just enough room.
fn exact(numbers: &mut Numbers, job: Job, calls: &mut Vec<Call>) {
    let n = job.0.len();
    calls.push(lent(numbers, &job.0, &job.1, [n, 4 * n]));
    calls.push(check(numbers, &job.0, [n, 4 * n]));
    let jobs = [in_pairs(job)];
    let (sizes, bodies) = (sizes_of(&jobs), bodies_of(&jobs));
    let file = file_from(&sizes, &bodies);
    calls.push(match_job(numbers, &file, 1, 6 + 2 * n));
    calls.push(write(numbers, &sizes, &bodies, file.len()));
    calls.push(read(numbers, &file, 2));
}

/// Tables of variables, all joined, and of constants.
fn flat(n: usize) -> [Job; 2] {
    let variables: Vec<u32> = (1..n as u16).map(variable).collect();
    let pairs: Vec<(u16, u16)> = (2..n as u16).map(|x| (x - 1, x)).take(MOST_PAIRS).collect();
    let joined = (words(&variables), list(&pairs));
    [joined, (constants(n), vec![])]
}

/// Small sizes one by one, since a loop over vectors has a remainder of its own for each; then the lengths
/// of the rows that a job is copied into, and one past them.
fn sizes(numbers: &mut Numbers, calls: &mut Vec<Call>) {
    let edges = [64, 512, MOST_WORDS]
        .iter()
        .flat_map(|&n| [n - 1, n, n + 1]);
    for n in (1..70).chain(edges) {
        for job in flat(n) {
            exact(numbers, job, calls);
        }
    }
    exact(numbers, (vec![], vec![]), calls);
}

/// Lists as long as they may be, and longer.
fn lists(numbers: &mut Numbers, calls: &mut Vec<Call>) {
    for pairs in [0, 1, 2, 3, 255, 256, 257, 258, 300] {
        exact(numbers, (constants(9), [1, 2].repeat(pairs)), calls);
    }
}

/// Deep, wide and shared tables.
fn large(numbers: &mut Numbers, calls: &mut Vec<Call>) {
    for ahead in [true, false] {
        let deep = chains(&[variable(1), constant(1)], 600, ahead);
        exact(numbers, (deep, vec![1, 1801]), calls);
        exact(numbers, (towers(8, ahead), vec![1, 33]), calls);
    }
    let (row, pairs) = row_of_variables();
    exact(numbers, (row, list(&pairs)), calls);
    let (wide, pairs) = wide_blocks(|block, i| variable(255 * block + i));
    exact(numbers, (wide, list(&pairs)), calls);
}

/// Variables of many different labels, in no order, and the first of them again at the end: a label is
/// compared with several before it is found to repeat.
fn names(numbers: &mut Numbers, calls: &mut Vec<Call>) {
    let mut labels: Vec<u16> = (1..=65_535).collect();
    for n in [9, 100, 1_000] {
        numbers.shuffle(&mut labels);
        let mut table = variables(&labels[..n - 1]);
        exact(numbers, (table.clone(), vec![]), calls);
        table[n - 1] = table[1];
        exact(numbers, (table, vec![]), calls);
    }
}

/// Unnamed variables in every word (document 02, E1), and in every word but two that have one label.
fn unnamed(numbers: &mut Numbers, calls: &mut Vec<Call>) {
    let (_, pairs) = row_of_variables();
    for n in [3, 4, 70, MOST_WORDS] {
        let mut table = words(&vec![variable(0); n - 1]);
        let joined = &pairs[..MOST_PAIRS.min(n - 2)];
        exact(numbers, (table.clone(), list(joined)), calls);
        table[1] = variable(5);
        table[n - 1] = variable(5);
        exact(numbers, (table, list(joined)), calls);
    }
    let (wide, pairs) = wide_blocks(|_, _| variable(0));
    exact(numbers, (wide, list(&pairs)), calls);
}

/// Files of every number of jobs, with bodies of every length that a copy tells apart; and rooms that
/// stand right behind the bodies.
fn files(numbers: &mut Numbers, calls: &mut Vec<Call>) {
    for jobs in 0..=65 {
        let sizes: Vec<u16> = (0..2 * jobs).map(|_| numbers.below(3) as u16).collect();
        let bytes = sizes.iter().map(|&size| 4 * usize::from(size)).sum();
        let bodies = numbers.bytes(bytes);
        let length = 2 + 6 * jobs + bytes;
        calls.push(write(numbers, &sizes, &bodies, length));
        calls.push(write_behind(numbers, &sizes, &bodies, length));
        let file = file_from(&sizes, &bodies);
        for room in [2 * jobs, (2 * jobs).saturating_sub(1)] {
            calls.push(read(numbers, &file, room));
        }
    }
    // the longest file, and one word more
    let longest = (MOST_BYTES - 8) / 4;
    for words in (0..40).chain([longest, longest + 1]) {
        let bodies = numbers.bytes(4 * words);
        let sizes = [words as u16, 0];
        calls.push(write(numbers, &sizes, &bodies, 8 + bodies.len()));
        calls.push(write_behind(numbers, &sizes, &bodies, 8 + bodies.len()));
    }
}

/// The whole corpus of a seed, with `jobs` random jobs.
pub fn corpus(seed: u64, jobs: u64) -> Vec<Call> {
    let mut calls = Vec::new();
    for part in 0..jobs {
        random(&mut Numbers::of_part(seed, part), &mut calls);
    }
    let numbers = &mut Numbers::new(seed);
    sizes(numbers, &mut calls);
    lists(numbers, &mut calls);
    large(numbers, &mut calls);
    names(numbers, &mut calls);
    unnamed(numbers, &mut calls);
    files(numbers, &mut calls);
    calls
}
