//! The matcher against the definitions of document 01, on many small tables and lists; names as document 02,
//! E1, amends them.

use station_tests::match_reference::reference;
use station_tests::matching::matched_on;
use station_tests::random::Numbers;
use station_tests::table::{
    argument_count, constant, function, pointer, variable, words, MOST_WORDS, SIZE,
};

const SEED: u64 = 0x5741_11a6_91e0_0001;
const JOBS: usize = 12_000;

/// A row of items with few labels, so that heads often agree. Pointers name nodes, mostly of higher
/// addresses: then a loop is rare.
fn table(numbers: &mut Numbers) -> Vec<u32> {
    let items = 1 + numbers.below(7);
    let mut table = words(&[]);
    let mut pointers = Vec::new();
    let mut next_variable = 0;
    // no unnamed variables, a third, or nothing else
    let unnamed = [0, 0, 1, 3][numbers.below(4)];
    let mut leaf = |numbers: &mut Numbers| {
        if numbers.one_in(3) {
            constant(numbers.below(6) as u16 / 5)
        } else if numbers.below(3) < unnamed {
            variable(0)
        } else {
            next_variable += 1;
            variable(next_variable)
        }
    };
    for _ in 0..items {
        if numbers.one_in(3) {
            table.push(leaf(numbers));
            continue;
        }
        let count = 1 + numbers.below(3).min(1 + numbers.below(2));
        table.extend([
            function(numbers.below(6) as u16 / 5),
            argument_count(count as u16),
        ]);
        for _ in 0..count {
            if numbers.one_in(2) {
                pointers.push(table.len());
                table.push(pointer(0));
            } else {
                table.push(leaf(numbers));
            }
        }
    }
    let nodes = nodes(&table);
    for at in pointers {
        let higher: Vec<u16> = nodes
            .iter()
            .copied()
            .filter(|&x| usize::from(x) > at)
            .collect();
        table[at] = if higher.is_empty() || numbers.one_in(30) {
            pointer(nodes[numbers.below(nodes.len())])
        } else {
            pointer(higher[numbers.below(higher.len())])
        };
    }
    table
}

/// The addresses of variables, constants and functions.
fn nodes(table: &[u32]) -> Vec<u16> {
    let is_node = |&a: &u16| [16, 18, 19].contains(&(table[usize::from(a)] >> 16));
    (1..table.len() as u16).filter(is_node).collect()
}

/// The table with a copy of its items behind them, in which variables have other labels, or none as before,
/// and stand for some constants; and pairs of nodes with their copies, which can often be joined.
fn doubled(numbers: &mut Numbers, table: &[u32]) -> (Vec<u32>, Vec<u16>) {
    let shift = table.len() as u16 - 1;
    let mut both = table.to_vec();
    for &word in &table[1..] {
        both.push(match word >> 16 {
            16 if word == variable(0) => word,
            16 => word + 100,
            18 if numbers.one_in(2) => variable(200 + both.len() as u16),
            20 => word + u32::from(shift),
            _ => word,
        });
    }
    let nodes = nodes(table);
    let mut list = Vec::new();
    for _ in 0..1 + numbers.below(4) {
        let node = nodes[numbers.below(nodes.len())];
        list.extend([node, node + shift]);
    }
    (both, list)
}

/// One word becomes another, which may or may not stand there.
fn damage(numbers: &mut Numbers, table: &mut [u32]) {
    let n = table.len();
    let at = numbers.below(n);
    let small = numbers.below(n + 2) as u16;
    let kinds = [
        variable(small % 4),
        variable(1),
        constant(small),
        function(small),
        pointer(small),
        argument_count(small),
        pointer(numbers.number() as u16),
        argument_count(256),
        numbers.number(),
        0,
        table[at] ^ 1 << numbers.below(32),
    ];
    table[at] = kinds[numbers.below(kinds.len())];
}

/// Pairs of nodes, the left ones mostly variables: then many lists are accepted.
fn list(numbers: &mut Numbers, table: &[u32]) -> Vec<u16> {
    let nodes = nodes(table);
    let is_variable = |a: &&u16| table[usize::from(**a)] >> 16 == 16;
    let variables: Vec<u16> = nodes.iter().filter(is_variable).copied().collect();
    let mut list = Vec::new();
    if !nodes.is_empty() {
        for _ in 0..numbers.below(8) {
            let lefts = if variables.is_empty() || numbers.one_in(3) {
                &nodes
            } else {
                &variables
            };
            list.push(lefts[numbers.below(lefts.len())]);
            list.push(nodes[numbers.below(nodes.len())]);
        }
    }
    if numbers.one_in(20) {
        list.push(1);
    }
    if numbers.one_in(100) {
        list = vec![1; 512 + numbers.below(3)];
    }
    if !list.is_empty() && numbers.one_in(15) {
        let at = numbers.below(list.len());
        list[at] = numbers.below(table.len() + 2) as u16;
    }
    list
}

#[test]
fn the_definitions_on_many_small_jobs() {
    println!("seed {SEED:#x}");
    let mut numbers = Numbers::new(SEED);
    let mut answers = [0_usize; 12];
    let mut with_unnamed = [0_usize; 12];
    let (mut joined, mut most_joins) = (0, 0);
    for job in 0..JOBS {
        let mut table = table(&mut numbers);
        let mut list = list(&mut numbers, &table);
        if numbers.one_in(5) {
            let (both, copies) = doubled(&mut numbers, &table);
            table = both;
            list.splice(0..0, copies);
        }
        if numbers.one_in(4) {
            damage(&mut numbers, &mut table);
        }
        if numbers.one_in(200) {
            let n = if numbers.one_in(2) { 0 } else { MOST_WORDS + 1 };
            table = vec![0; n];
        }
        let n = table.len();
        let mut room = |least: usize| match numbers.below(40) {
            0 => least.saturating_sub(1),
            1..=20 => least,
            _ => least + 4,
        };
        let (class_room, work_room) = (room(n), room(4 * n));
        let (mut class, mut work) = (numbers.entries(class_room), numbers.entries(work_room));
        let wanted = reference(&table, &list, class_room, work_room);
        let given = matched_on(&table, &list, &mut class, &mut work);
        assert_eq!(given, wanted, "job {job}: {table:x?} {list:?}");
        answers[usize::from(given.answer)] += 1;
        if table.iter().filter(|&&word| word == variable(0)).count() >= 2 {
            with_unnamed[usize::from(given.answer)] += 1;
        }
        joined += usize::from(given.joins);
        most_joins = most_joins.max(given.joins);
    }
    println!("answers 0 to 11: {answers:?}; {joined} joins, at most {most_joins}");
    println!("with two or more unnamed variables: {with_unnamed:?}");
    assert!(answers.iter().all(|&seen| seen > 0));
    // a table that is refused by its size has no variables here
    let mut possible = (0..12).filter(|&answer| answer != usize::from(SIZE));
    assert!(possible.all(|answer| with_unnamed[answer] > 0));
}
