//! One random job through the entries of the station, each against its own naive judge.

use super::jobs::{job, Job};
use super::judge::{check, judge, wrong_as_replacement, Trees};
use super::seen::{Entry, Seen};
use super::{filed, host, jobfile, wanted};
use crate::checking::checked_on;
use crate::jobs::file_from;
use crate::matching::{matched_on, Given};
use crate::random::Numbers;
use crate::station;
use crate::table::{ACCEPTED, ROOM};
use std::thread::panicking;

/// Says which job it was when a comparison fails.
struct Told<'a>(u64, &'a Job);

impl Drop for Told<'_> {
    fn drop(&mut self) {
        let Told(number, job) = self;
        if panicking() {
            println!("job {number}: {:x?} {:?}", job.table, job.list);
            println!("rooms {} and {}", job.class_room, job.work_room);
        }
    }
}

/// Compares the job of a number, in a run of a seed.
pub fn compare(seed: u64, number: u64, seen: &mut Seen) {
    let numbers = &mut Numbers::of_part(seed, number);
    let job = job(numbers);
    let _told = Told(number, &job);
    let wanted = on_lent_buffers(numbers, &job, seen);
    check_alone(numbers, &job, seen);
    in_a_file(numbers, &job, &wanted, seen);
    // A unifier that does not end looks like one whose terms are too large, and would be passed over.
    assert!(seen.too_large_for_trees < 20 + seen.unified_as_trees / 50);
}

fn on_lent_buffers(numbers: &mut Numbers, job: &Job, seen: &mut Seen) -> Given {
    let mut class = numbers.entries(job.class_room);
    let mut work = numbers.entries(job.work_room);
    let given = matched_on(&job.table, &job.list, &mut class, &mut work);
    let (wanted, trees) = judge(&job.table, &job.list, job.class_room, job.work_room);
    assert_eq!(given, wanted);
    if let Trees::Unified(unifier) = &trees {
        match wrong_as_replacement(&job.table, &job.list, &given.classes, unifier) {
            Ok(None) => seen.answers_applied += 1,
            Ok(Some(wrong)) => panic!("{wrong}"),
            Err(_) => {}
        }
    }
    seen.answer(Entry::Lent, given.answer);
    seen.unnamed.answer(Entry::Lent, &job.table, given.answer);
    seen.job(&job.table, job.list.len() / 2, &given, &trees);
    given
}

fn check_alone(numbers: &mut Numbers, job: &Job, seen: &mut Seen) {
    let mut class = numbers.entries(job.class_room);
    let mut work = numbers.entries(job.work_room);
    let (answer, place) = checked_on(&job.table, &mut class, &mut work);
    let wanted = check(&job.table, job.class_room, job.work_room);
    assert_eq!((answer, place), (wanted.answer, wanted.place));
    seen.answer(Entry::Check, answer);
    seen.unnamed.answer(Entry::Check, &job.table, answer);
}

/// The job in a file among others, which the station writes; then whatever the file may have become.
fn in_a_file(numbers: &mut Numbers, job: &Job, wanted: &Given, seen: &mut Seen) {
    let own = filed::fileable(&job.table, &job.list);
    let known = own.0 == job.table && own.1 == job.list && wanted.answer != ROOM;

    let sent = filed::sent(numbers, own.clone());
    let mut file = file_from(&sent.sizes, &sent.bodies);
    write(numbers, &sent.sizes, &sent.bodies, &file, seen);

    filed::underway(numbers, &mut file);
    read(numbers, &file, 2 * sent.jobs, seen);
    let asked = filed::number(numbers, sent.own_number, sent.jobs);
    let room = filed::room(numbers, 6 + 2 * own.0.len());
    let mut room = numbers.bytes(room);
    let mut left = room.clone();
    let answer = match host::asked_for(&file, asked, room.len()) {
        Err(refusal) => refusal,
        Ok((table, list)) => {
            let n = table.len();
            let given = if known && (&table, &list) == (&own.0, &own.1) {
                wanted.clone()
            } else {
                judge(&table, &list, n, 4 * n).0
            };
            let report = host::report(&given, n);
            left[..report.len()].copy_from_slice(&report);
            seen.unnamed.answer(Entry::Match, &table, given.answer);
            given.answer
        }
    };
    assert_eq!(station::match_job(&file, asked, &mut room), answer);
    assert_eq!(room, left);
    seen.answer(Entry::Match, answer);
}

fn write(numbers: &mut Numbers, sizes: &[u16], bodies: &[u8], file: &[u8], seen: &mut Seen) {
    let room = filed::room(numbers, file.len());
    let mut room = numbers.bytes(room);
    let mut left = room.clone();
    let answer = jobfile::refusal(sizes, bodies.len(), room.len()).unwrap_or(ACCEPTED);
    if answer == ACCEPTED {
        left[..file.len()].copy_from_slice(file);
    }
    assert_eq!(station::write(sizes, bodies, &mut room), answer);
    assert_eq!(room, left);
    seen.answer(Entry::Write, answer);
}

fn read(numbers: &mut Numbers, file: &[u8], sizes: usize, seen: &mut Seen) {
    let room = filed::room(numbers, sizes);
    let mut room = numbers.entries(room);
    let mut left = room.clone();
    let (result, sizes) = wanted::of_read(file, room.len());
    left[..sizes.len()].copy_from_slice(&sizes);
    let (answer, place, jobs) = station::read(file, &mut room);
    assert_eq!(wanted::as_one(answer, place, jobs), result);
    assert_eq!(room, left);
    seen.answer(Entry::Read, answer);
}
