//! The table check as the tests ask for it: on buffers full of old contents, which are looked at
//! afterwards.

use crate::station;
use crate::table::{ROOM, SIZE};

/// The answer and the place for a table on these buffers; and that they are left as document 01 says.
pub fn checked_on(table: &[u32], class: &mut [u16], work: &mut [u16]) -> (u16, u16) {
    let (old_class, old_work) = (class.to_vec(), work.to_vec());
    let (answer, place, joins) = station::check(table, class, work);
    let unchanged = answer == SIZE || answer == ROOM;
    let n = if unchanged { 0 } else { table.len() };
    for (name, row, old, in_use) in [
        ("class", class, old_class, n),
        ("work", work, old_work, 4 * n),
    ] {
        assert!(
            row[..in_use].iter().all(|&e| e == 0),
            "{name} entries in use"
        );
        assert_eq!(row[in_use..], old[in_use..], "{name} entries above");
    }
    assert_eq!(joins, 0, "joins of a check");
    (answer, place)
}
