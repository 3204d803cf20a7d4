//! The station's entries against an independent judge with a unifier of its own, on many random jobs.
//!
//! STATION_JOBS says how many, and STATION_SEED from which seed; `make soak` runs millions. The listing
//! program is compared with the same judge on files of some of them.

use station_tests::independent::compare::compare;
use station_tests::independent::judge::{judge, wrong_as_replacement, Trees};
use station_tests::independent::listed;
use station_tests::independent::seen::Seen;
use station_tests::independent::terms::{Replacement, TooLarge};
use station_tests::large_stack::{ended, on_a_large_stack};
use station_tests::matching::{accepted, example_a, example_b, example_c, refused, Given};
use station_tests::programs::listing;
use station_tests::table::{
    argument_count, block_of, constant, function, pointer, variable, variables, words, ADDRESS,
    CLASH, CYCLE, LOOP, NAME, UNNAMED,
};
use std::{env, thread, time};

const SEED: u64 = 0x0b1d_5eed_1965_0023;
const JOBS: u64 = 200_000;

/// A number from the environment, by tens or by sixteens.
fn setting(name: &str, otherwise: u64) -> u64 {
    let text = match env::var(name) {
        Ok(text) => text,
        Err(_) => return otherwise,
    };
    let number = match text.strip_prefix("0x") {
        Some(digits) => u64::from_str_radix(digits, 16),
        None => text.parse(),
    };
    number.unwrap_or_else(|_| panic!("{name} is no number: {text}"))
}

#[test]
fn an_independent_unifier_on_many_random_jobs() {
    let (seed, jobs) = (setting("STATION_SEED", SEED), setting("STATION_JOBS", JOBS));
    println!("seed {seed:#x}, {jobs} jobs");
    let began = time::Instant::now();
    let threads = thread::available_parallelism().map_or(2, |cores| cores.get() as u64);
    // A job depends on the seed and its number alone, so the threads may share the numbers out.
    let parts: Vec<_> = (0..threads)
        .map(|first| {
            on_a_large_stack(move || {
                let mut seen = Seen::default();
                for number in (first..jobs).step_by(threads as usize) {
                    compare(seed, number, &mut seen);
                }
                seen
            })
        })
        .collect();
    let mut seen = Seen::default();
    for part in parts {
        seen.add(&ended(part));
    }
    println!("{} s on {threads} threads", began.elapsed().as_secs());
    seen.print();
    seen.assert_every_answer();
    seen.unnamed.assert_all();
}

/// The listing program is started anew for each file, so these are fewer.
const FILES: u64 = 1_000;

#[test]
fn the_listing_of_random_files() {
    let seed = setting("STATION_SEED", SEED);
    let (mut refused, mut listed) = (0, 0);
    ended(on_a_large_stack(move || {
        for number in 0..FILES {
            let file = listed::file(seed, number);
            let wanted = listed::text(&file);
            assert_eq!(listing(&file), wanted, "file {number} of seed {seed:#x}");
            match wanted.starts_with("file ") {
                true => refused += 1,
                false => listed += 1,
            }
        }
        println!("{listed} files listed, {refused} refused");
        assert!(listed > FILES / 2 && refused > FILES / 20);
    }));
}

// ---- the judge itself

/// What the judge wants where the buffers are long enough.
fn wanted(table: &[u32], list: &[u16]) -> Given {
    judge(table, list, table.len(), 4 * table.len()).0
}

#[test]
fn the_unifier_knows_the_sheet() {
    let (a, b, c) = (example_a(), example_b(), example_c());
    let p1 = [0, 1, 0, 11, 6, 0, 6, 0, 0, 1, 0, 11, 0, 0, 6, 0, 11];
    assert_eq!(wanted(&a, &[1, 9]), accepted(&p1, 5));
    assert_eq!(wanted(&b, &[1, 3]), refused(CYCLE, 1));
    assert_eq!(wanted(&b, &[3, 3]), accepted(&[0, 1, 0, 3], 0));
    assert_eq!(wanted(&c, &[3, 1]), accepted(&[0, 1, 2, 1], 1));
    assert_eq!(wanted(&c, &[3, 1, 3, 2]), refused(CLASH, 2));
    assert_eq!(wanted(&c, &[1, 2]), refused(CLASH, 1));
    assert_eq!(wanted(&c, &[]), accepted(&[0, 1, 2, 3], 0));
    assert_eq!(wanted(&c, &[1, 2, 0, 1]), refused(ADDRESS, 2));
    let first = [function(1), argument_count(2), variable(1), constant(1)];
    let second = [function(1), argument_count(2), pointer(1), constant(2)];
    let p8 = words(&[first, second].concat());
    assert_eq!(wanted(&p8, &[1, 5]), refused(CLASH, 1));
    let one = [function(5), argument_count(1), variable(1)];
    let two = [function(5), argument_count(2), variable(2), variable(3)];
    let p9 = words(&[&one[..], &two[..]].concat());
    assert_eq!(wanted(&p9, &[1, 4]), refused(CLASH, 1));
    let p10 = words(&[function(1), argument_count(1), pointer(1)]);
    assert_eq!(wanted(&p10, &[]), refused(LOOP, 0));
    assert_eq!(wanted(&[0], &[]), accepted(&[0], 0));
}

/// Document 02, E1.
#[test]
fn the_unifier_tells_unnamed_variables_apart() {
    let known = block_of(&[constant(1), constant(2)]);
    let apart = words(&[block_of(&[UNNAMED, UNNAMED]), known.clone()].concat());
    let classes = [0, 1, 0, 7, 8, 1, 0, 7, 8];
    assert_eq!(wanted(&apart, &[1, 5]), accepted(&classes, 3));
    let shared = words(&[block_of(&[UNNAMED, pointer(3)]), known].concat());
    assert_eq!(wanted(&shared, &[1, 5]), refused(CLASH, 1));
    assert_eq!(wanted(&apart, &[3, 1]), refused(CYCLE, 1));
    // other labels still may not repeat
    let two = variables(&[0, 0]);
    assert_eq!(wanted(&two, &[]), accepted(&[0, 1, 2], 0));
    assert_eq!(wanted(&two, &[2, 1]), accepted(&[0, 1, 1], 1));
    for label in [1, 5, 65_535] {
        let table = variables(&[0, label, 0, label, 0, label]);
        assert_eq!(wanted(&table, &[]), refused(NAME, 4));
    }
}

/// What is wrong with a class table, against the unifier that the judge finds.
fn wrong(table: &[u32], list: &[u16], classes: &[u16]) -> Result<Option<String>, TooLarge> {
    let unifier = match judge(table, list, table.len(), 4 * table.len()).1 {
        Trees::Unified(unifier) => unifier,
        _ => Replacement::new(),
    };
    wrong_as_replacement(table, list, classes, &unifier)
}

#[test]
fn a_wrong_class_table_is_told_by_its_replacement() {
    let (a, b, c) = (example_a(), example_b(), example_c());
    let mut classes = wanted(&a, &[1, 9]).classes;
    assert_eq!(wrong(&a, &[1, 9], &classes), Ok(None));
    // A variable that stays as it is, where it must become a constant.
    classes[3] = 3;
    let apart = "pair 1 is not made one term".to_string();
    assert_eq!(wrong(&a, &[1, 9], &classes), Ok(Some(apart)));
    // A variable that is bound where nothing asks for it.
    let more = "variable 3 is bound more than it must be".to_string();
    assert_eq!(wrong(&c, &[], &[0, 1, 2, 1]), Ok(Some(more)));
    // A variable that would become a term in which it stands.
    let endless = ended(on_a_large_stack(move || wrong(&b, &[1, 3], &[0, 1, 0, 1])));
    assert_eq!(endless, Err(TooLarge));
}
