//! A match as the tests ask for it: on buffers full of old contents, which are looked at afterwards;
//! and the example tables of document 01.

use crate::random::Numbers;
use crate::station;
use crate::table::{
    argument_count, constant, function, pointer, variable, words, ACCEPTED, ROOM, SIZE,
};

/// What a match gives: its three numbers, and the class table where it accepts.
#[derive(Clone, Debug, PartialEq)]
pub struct Given {
    pub answer: u16,
    pub place: u16,
    pub joins: u16,
    pub classes: Vec<u16>,
}

impl Given {
    /// How the class and the work buffer begin afterwards, for a table of n words; 1 and 2 change nothing.
    pub fn left(&self, n: usize) -> (Vec<u16>, Vec<u16>) {
        let unchanged = self.answer == SIZE || self.answer == ROOM;
        let in_use = if unchanged { 0 } else { n };
        let mut class = self.classes.clone();
        class.resize(in_use, 0);
        (class, vec![0; 4 * in_use])
    }
}

pub fn accepted(classes: &[u16], joins: u16) -> Given {
    Given {
        answer: ACCEPTED,
        place: 0,
        joins,
        classes: classes.to_vec(),
    }
}

pub fn refused(answer: u16, place: usize) -> Given {
    Given {
        answer,
        place: u16::try_from(place).expect("a place has 16 bits"),
        joins: 0,
        classes: Vec::new(),
    }
}

/// The entries of a list of pairs.
pub fn list(pairs: &[(u16, u16)]) -> Vec<u16> {
    pairs
        .iter()
        .flat_map(|&(left, right)| [left, right])
        .collect()
}

/// What the match gives for these pairs.
pub fn matched(table: &[u32], pairs: &[(u16, u16)]) -> Given {
    matched_entries(table, &list(pairs))
}

/// What the match gives for a list by its entries, with buffers just long enough and with longer ones.
pub fn matched_entries(table: &[u32], list: &[u16]) -> Given {
    let n = table.len();
    let given = matched_in(table, list, n, 4 * n);
    assert_eq!(given, matched_in(table, list, n + 3, 4 * n + 5));
    given
}

/// What the match gives in buffers of these lengths, whatever they held.
pub fn matched_in(table: &[u32], list: &[u16], class_room: usize, work_room: usize) -> Given {
    let mut old = Numbers::new(0x01d_c047_e475 + list.len() as u64);
    let mut class = old.entries(class_room);
    let mut work = old.entries(work_room);
    matched_on(table, list, &mut class, &mut work)
}

/// What the match gives on these buffers; and that it leaves them as document 01 says.
pub fn matched_on(table: &[u32], list: &[u16], class: &mut [u16], work: &mut [u16]) -> Given {
    let (old_class, old_work) = (class.to_vec(), work.to_vec());
    let (answer, place, joins) = station::match_lent(table, list, class, work);
    let unchanged = answer == SIZE || answer == ROOM;
    let n = if unchanged { 0 } else { table.len() };
    assert!(work[..4 * n].iter().all(|&e| e == 0), "work entries in use");
    assert_eq!(work[4 * n..], old_work[4 * n..], "work entries above");
    assert_eq!(class[n..], old_class[n..], "class entries above");
    if answer == ACCEPTED {
        assert_eq!(place, 0);
        return accepted(&class[..n], joins);
    }
    assert!(class[..n].iter().all(|&e| e == 0), "class entries in use");
    assert_eq!(joins, 0, "joins of a refusal");
    refused(answer, usize::from(place))
}

// ---- the tables of document 01

pub fn example_a() -> Vec<u32> {
    words(&[
        function(1),
        argument_count(3),
        variable(1),
        variable(2),
        pointer(6),
        function(2),
        argument_count(1),
        pointer(3),
        function(1),
        argument_count(3),
        constant(3),
        pointer(14),
        pointer(4),
        function(2),
        argument_count(1),
        variable(3),
    ])
}

pub fn example_b() -> Vec<u32> {
    words(&[function(1), argument_count(1), variable(1)])
}

pub fn example_c() -> Vec<u32> {
    words(&[constant(1), constant(2), variable(1)])
}

// ---- other tables

/// A function of `count` constants, at address 1.
pub fn block(count: u16) -> Vec<u32> {
    let mut items = vec![function(1), argument_count(count)];
    items.extend(vec![constant(1); usize::from(count)]);
    words(&items)
}

/// A table of n words, all constants.
pub fn constants(n: usize) -> Vec<u32> {
    words(&vec![constant(7); n - 1])
}
