//! What came up in a run, so that it shows what it compared.

use super::judge::Trees;
use super::robinson::Obstacle;
use super::unnamed::Unnamed;
use crate::matching::Given;
use crate::table::{ACCEPTED, CLASH, CYCLE};

#[derive(Clone, Copy, Debug, PartialEq)]
pub enum Entry {
    Lent,
    Check,
    Match,
    Write,
    Read,
}

const ENTRIES: [(&str, Entry); 5] = [
    ("station_lent", Entry::Lent),
    ("station_check", Entry::Check),
    ("station_match", Entry::Match),
    ("station_write", Entry::Write),
    ("station_read", Entry::Read),
];

impl Entry {
    /// The answers that document 01 knows for it.
    fn possible(self) -> Vec<usize> {
        match self {
            Entry::Lent => (0..=11).collect(),
            Entry::Check => (0..=7).collect(),
            Entry::Match => (0..=15).collect(),
            Entry::Write | Entry::Read => vec![0, 2, 12, 13, 14],
        }
    }
}

/// Up to 1, up to 5, up to 20, up to 100, and more.
type Ranges = [usize; 5];

fn range(number: usize) -> usize {
    [1, 5, 20, 100].iter().filter(|&&end| number > end).count()
}

#[derive(Default)]
pub struct Seen {
    /// By entry and answer.
    pub answers: [[usize; 16]; 5],
    pub unified_as_trees: usize,
    pub too_large_for_trees: usize,
    pub answers_applied: usize,
    pub clash_where_trees_met_an_occurrence_first: usize,
    pub accepted_with_pairs: Ranges,
    pub clash_at_pair: Ranges,
    pub cycle_at_pair: Ranges,
    pub joins: usize,
    pub most_joins: usize,
    pub most_words_accepted: usize,
    pub unnamed: Unnamed,
}

impl Seen {
    pub fn answer(&mut self, entry: Entry, answer: u16) {
        self.answers[entry as usize][usize::from(answer)] += 1;
    }

    /// A job, by its table and the number of its pairs.
    pub fn job(&mut self, table: &[u32], pairs: usize, given: &Given, trees: &Trees) {
        match trees {
            Trees::NotAsked => {}
            Trees::TooLarge => self.too_large_for_trees += 1,
            Trees::Unified(_) => self.unified_as_trees += 1,
            Trees::Apart(obstacle) => {
                self.unified_as_trees += 1;
                if *obstacle == Obstacle::Occurs && given.answer == CLASH {
                    self.clash_where_trees_met_an_occurrence_first += 1;
                }
            }
        }
        let place = range(usize::from(given.place));
        match given.answer {
            ACCEPTED => {
                self.accepted_with_pairs[range(pairs)] += 1;
                self.most_words_accepted = self.most_words_accepted.max(table.len());
                self.unnamed.classes(table, &given.classes);
            }
            CLASH => self.clash_at_pair[place] += 1,
            CYCLE => self.cycle_at_pair[place] += 1,
            _ => {}
        }
        self.joins += usize::from(given.joins);
        self.most_joins = self.most_joins.max(usize::from(given.joins));
    }

    /// What another part of the run saw.
    pub fn add(&mut self, other: &Seen) {
        let add = |sums: &mut [usize], more: &[usize]| {
            for (sum, number) in sums.iter_mut().zip(more) {
                *sum += number;
            }
        };
        for (sums, more) in self.answers.iter_mut().zip(&other.answers) {
            add(sums, more);
        }
        add(&mut self.accepted_with_pairs, &other.accepted_with_pairs);
        add(&mut self.clash_at_pair, &other.clash_at_pair);
        add(&mut self.cycle_at_pair, &other.cycle_at_pair);
        self.unified_as_trees += other.unified_as_trees;
        self.too_large_for_trees += other.too_large_for_trees;
        self.answers_applied += other.answers_applied;
        self.clash_where_trees_met_an_occurrence_first +=
            other.clash_where_trees_met_an_occurrence_first;
        self.joins += other.joins;
        self.most_joins = self.most_joins.max(other.most_joins);
        self.most_words_accepted = self.most_words_accepted.max(other.most_words_accepted);
        self.unnamed.add(&other.unnamed);
    }

    /// How often each answer came, of all entries together.
    fn all_answers(&self) -> [usize; 16] {
        let mut all = [0; 16];
        for answers in &self.answers {
            for (sum, times) in all.iter_mut().zip(answers) {
                *sum += times;
            }
        }
        all
    }

    pub fn print_answers(&self) {
        println!("answers 0 to 15");
        for (name, entry) in ENTRIES {
            println!("  {name:13} {:?}", self.answers[entry as usize]);
        }
        println!("  all five      {:?}", self.all_answers());
    }

    pub fn print(&self) {
        self.print_answers();
        println!("pairs up to 1, 5, 20, 100, more");
        println!("  accepted      {:?}", self.accepted_with_pairs);
        println!("  clash at      {:?}", self.clash_at_pair);
        println!("  cycle at      {:?}", self.cycle_at_pair);
        println!("joins {}, at most {}", self.joins, self.most_joins);
        println!("words accepted, at most {}", self.most_words_accepted);
        println!("unified as trees {}", self.unified_as_trees);
        println!(
            "  too large, so by the partition alone {}",
            self.too_large_for_trees
        );
        println!("  answers applied to both sides {}", self.answers_applied);
        println!(
            "  a clash where the trees met an occurrence first {}",
            self.clash_where_trees_met_an_occurrence_first
        );
        self.unnamed.print();
    }

    /// That each entry gave each of its answers.
    pub fn assert_every_answer(&self) {
        for (name, entry) in ENTRIES {
            for answer in entry.possible() {
                let times = self.answers[entry as usize][answer];
                assert!(times > 0, "{name} never gave {answer}");
            }
        }
        assert!(self.all_answers().iter().all(|&times| times > 0));
    }
}
