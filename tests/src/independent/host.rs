//! What the host call must answer, and what it must leave in the room.

use super::jobfile;
use crate::jobs::Job;
use crate::matching::Given;
use crate::station::JOB;
use crate::table::{MOST_WORDS, ROOM, SIZE};

/// The job that is asked for, or the number of one of the six refusals that write nothing.
pub fn asked_for(file: &[u8], job: u32, room: usize) -> Result<Job, u16> {
    if let Some((answer, _)) = jobfile::fault(file) {
        return Err(answer);
    }
    if job == 0 || job as usize > jobfile::number(file, 0) {
        return Err(JOB);
    }
    let (table, list) = jobfile::job_of(file, job as usize);
    if table.is_empty() || table.len() > MOST_WORDS {
        return Err(SIZE);
    }
    if room < 6 + 2 * table.len() {
        return Err(ROOM);
    }
    Ok((table, list))
}

/// The bytes of a report on a table of n words: answer, place, joins and the class entries.
pub fn report(given: &Given, n: usize) -> Vec<u8> {
    let mut entries = given.classes.clone();
    entries.resize(n, 0);
    let numbers = [given.answer, given.place, given.joins];
    let all = numbers.iter().chain(&entries);
    all.flat_map(|number| number.to_le_bytes()).collect()
}
