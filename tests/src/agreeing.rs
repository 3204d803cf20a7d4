//! A job through every entry that takes it, which must agree. Room and buffers are full of old contents.

use crate::checking::checked_on;
use crate::independent::host::report;
use crate::jobs::file_of;
use crate::matching::{list, matched_entries, Given};
use crate::random::Numbers;
use crate::station::match_job;

/// What the match gives on lent buffers, and that the host call gives the same.
pub fn matched(table: &[u32], pairs: &[(u16, u16)]) -> Given {
    let given = matched_entries(table, &list(pairs));
    let wanted = report(&given, table.len());
    let mut room = vec![0xee; wanted.len()];
    let file = file_of(&[(table.to_vec(), list(pairs))]);
    assert_eq!(match_job(&file, 1, &mut room), given.answer);
    assert_eq!(room, wanted);
    given
}

/// What the check gives; and that the match of no pairs gives the same, with each node in a class of its own
/// where the table is good.
pub fn checked(table: &[u32]) -> (u16, u16) {
    let n = table.len();
    let mut old = Numbers::new(0x01d_c4ec_4e55 + n as u64);
    let (mut class, mut work) = (old.entries(n), old.entries(4 * n));
    let (answer, place) = checked_on(table, &mut class, &mut work);
    let given = matched(table, &[]);
    assert_eq!((given.answer, given.place), (answer, place));
    assert_eq!(given.joins, 0);
    for (x, &name) in given.classes.iter().enumerate() {
        let is_node = [16, 18, 19].contains(&(table[x] >> 16));
        assert_eq!(usize::from(name), if is_node { x } else { 0 });
    }
    (answer, place)
}
