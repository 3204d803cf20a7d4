//! What each entry of the station must return, and how the rows that it is lent must begin afterwards.

use super::judge::{check, judge};
use super::{host, jobfile};
use crate::jobs::file_from;
use crate::matching::Given;
use crate::table::{ACCEPTED, ROOM};

/// The result, and the fronts of the class and the work buffer.
pub type OnBuffers = (u64, [Vec<u16>; 2]);

/// The result, and the front of the row of sizes.
pub type InSizes = (u64, Vec<u16>);

/// The result, and the front of the room.
pub type InRoom = (u64, Vec<u8>);

/// Three numbers as an entry returns them.
pub fn as_one(answer: u16, place: u16, third: u16) -> u64 {
    u64::from(answer) + (u64::from(place) << 16) + (u64::from(third) << 32)
}

fn on_buffers(given: &Given, n: usize) -> OnBuffers {
    let (class, work) = given.left(n);
    let result = as_one(given.answer, given.place, given.joins);
    (result, [class, work])
}

pub fn of_lent(table: &[u32], list: &[u16], class_room: usize, work_room: usize) -> OnBuffers {
    let (given, _) = judge(table, list, class_room, work_room);
    on_buffers(&given, table.len())
}

pub fn of_check(table: &[u32], class_room: usize, work_room: usize) -> OnBuffers {
    on_buffers(&check(table, class_room, work_room), table.len())
}

pub fn of_match(file: &[u8], job: u32, room: usize) -> InRoom {
    match host::asked_for(file, job, room) {
        Err(refusal) => (u64::from(refusal), Vec::new()),
        Ok((table, list)) => {
            let n = table.len();
            let (given, _) = judge(&table, &list, n, 4 * n);
            (u64::from(given.answer), host::report(&given, n))
        }
    }
}

pub fn of_write(sizes: &[u16], bodies: &[u8], room: usize) -> InRoom {
    match jobfile::refusal(sizes, bodies.len(), room) {
        Some(refusal) => (u64::from(refusal), Vec::new()),
        None => (u64::from(ACCEPTED), file_from(sizes, bodies)),
    }
}

pub fn of_read(file: &[u8], room: usize) -> InSizes {
    if let Some((answer, place)) = jobfile::fault(file) {
        return (as_one(answer, place as u16, 0), Vec::new());
    }
    let sizes = jobfile::sizes(file);
    if room < sizes.len() {
        return (as_one(ROOM, 0, 0), Vec::new());
    }
    let jobs = sizes.len() as u16 / 2;
    (as_one(ACCEPTED, 0, jobs), sizes)
}
