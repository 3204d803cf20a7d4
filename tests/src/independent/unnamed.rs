//! What came of tables with two or more variables of label 0. Document 02, E1: "every one is a different
//! variable", so they may be in one class or in many, and one may be bound where another is free.

use super::graph::{read, Kind};
use super::seen::Entry;
use std::collections::BTreeSet;

/// The entries that look at a table, each with its last answer. Before 3 no word has been looked at.
const ENTRIES: [(&str, Entry, u16); 3] = [
    ("station_lent", Entry::Lent, 11),
    ("station_check", Entry::Check, 7),
    ("station_match", Entry::Match, 11),
];

#[derive(Default)]
pub struct Unnamed {
    /// By entry and answer.
    answers: [[usize; 12]; 5],
    two_in_one_class: usize,
    one_bound_and_one_free: usize,
    bound_to_two_terms: usize,
}

/// The addresses of the unnamed variables.
fn unnamed(table: &[u32]) -> Vec<usize> {
    let is_unnamed = |&at: &usize| read(table[at]) == Some((Kind::Variable, 0));
    (1..table.len()).filter(is_unnamed).collect()
}

impl Unnamed {
    pub fn answer(&mut self, entry: Entry, table: &[u32], answer: u16) {
        if unnamed(table).len() >= 2 {
            self.answers[entry as usize][usize::from(answer)] += 1;
        }
    }

    /// The class table of an accepted job. A variable is bound where its class's name is none.
    pub fn classes(&mut self, table: &[u32], classes: &[u16]) {
        let names: Vec<usize> = unnamed(table)
            .iter()
            .map(|&x| usize::from(classes[x]))
            .collect();
        let different: BTreeSet<usize> = names.iter().copied().collect();
        let is_bound = |name: &&usize| !matches!(read(table[**name]), Some((Kind::Variable, _)));
        let bound = different.iter().filter(is_bound).count();
        self.two_in_one_class += usize::from(different.len() < names.len());
        self.one_bound_and_one_free += usize::from(bound > 0 && bound < different.len());
        self.bound_to_two_terms += usize::from(bound >= 2);
    }

    /// What another part of the run saw.
    pub fn add(&mut self, other: &Unnamed) {
        for (sums, more) in self.answers.iter_mut().zip(&other.answers) {
            for (sum, times) in sums.iter_mut().zip(more) {
                *sum += times;
            }
        }
        self.two_in_one_class += other.two_in_one_class;
        self.one_bound_and_one_free += other.one_bound_and_one_free;
        self.bound_to_two_terms += other.bound_to_two_terms;
    }

    fn of_classes(&self) -> [(&str, usize); 3] {
        [
            ("two of them in one class", self.two_in_one_class),
            ("one bound and one free", self.one_bound_and_one_free),
            ("bound to two terms", self.bound_to_two_terms),
        ]
    }

    pub fn print(&self) {
        println!("answers 0 to 11 for tables with two or more unnamed variables");
        for (name, entry, _) in ENTRIES {
            println!("  {name:13} {:?}", self.answers[entry as usize]);
        }
        for (what, times) in self.of_classes() {
            println!("  accepted by station_lent, {what} {times}");
        }
    }

    /// That all of it came up.
    pub fn assert_all(&self) {
        for (name, entry, last) in ENTRIES {
            for answer in (3..=last).chain([0]) {
                let times = self.answers[entry as usize][usize::from(answer)];
                assert!(
                    times > 0,
                    "{name} never gave {answer} with unnamed variables"
                );
            }
        }
        for (what, times) in self.of_classes() {
            assert!(times > 0, "never accepted: {what}, of unnamed variables");
        }
    }
}
