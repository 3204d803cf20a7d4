//! What the listing program must print for a file, by document 01's 'The host and the listing'.

use super::judge::judge;
use super::{filed, jobfile, jobs};
use crate::jobs::file_from;
use crate::random::Numbers;
use crate::table::{ACCEPTED, MOST_WORDS};

/// A random file: the job of a number, in a run of a seed, among others, whatever the file may have become.
pub fn file(seed: u64, number: u64) -> Vec<u8> {
    let numbers = &mut Numbers::of_part(seed, number);
    let job = jobs::job(numbers);
    let own = filed::fileable(&job.table, &job.list);
    let sent = filed::sent(numbers, own);
    let mut file = file_from(&sent.sizes, &sent.bodies);
    filed::underway(numbers, &mut file);
    // The program reads one byte more than a file may have, and a pipe holds no more than some 60,000.
    file.truncate(60_000);
    file
}

pub fn text(file: &[u8]) -> String {
    if let Some((answer, place)) = jobfile::fault(file) {
        return format!("file {answer} {place}\n");
    }
    let jobs = (1..=jobfile::number(file, 0)).map(|number| of_job(file, number));
    String::from("job answer place joins\n") + &jobs.collect::<String>()
}

fn of_job(file: &[u8], number: usize) -> String {
    let (table, list) = jobfile::job_of(file, number);
    let (given, _) = judge(&table, &list, MOST_WORDS, 4 * MOST_WORDS);
    let (answer, place, joins) = (given.answer, given.place, given.joins);
    let mut text = format!("{number} {answer} {place} {joins}\n");
    if answer == ACCEPTED {
        let is_variable = |(_, word): &(usize, &u32)| **word >> 16 == 16;
        for (x, word) in table.iter().enumerate().filter(is_variable) {
            text += &format!("v {x} {} {}\n", word & 0xffff, given.classes[x]);
        }
    }
    text
}
