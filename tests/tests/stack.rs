//! How much stack a match uses, on the tables and lists that ask the most of it and on random ones.

use station_tests::independent::jobs::job;
use station_tests::jobs::Job;
use station_tests::large_tables::{chains, row_of_variables, towers, wide_blocks};
use station_tests::matching::list;
use station_tests::programs::{built_with_station, printed_for};
use station_tests::random::Numbers;
use station_tests::requests::{put, put_row};
use station_tests::table::{
    constant, pointer, variable, ACCEPTED, CLASH, CYCLE, LOOP, MOST_PAIRS, MOST_WORDS,
};
use std::process::Command;

/// A match may use fewer bytes of stack than this.
const LIMIT: usize = 2_048;

/// What a job is, its answer where it is known, and the job.
type Case = (String, Option<u16>, Job);

/// The most blocks of three words that each chain can have, where there are this many.
fn blocks(chains: usize) -> usize {
    (MOST_WORDS - 1) / 3 / chains
}

/// The functions of a chain from its outermost on.
fn functions(chain: usize, blocks: usize, ahead: bool) -> Vec<u16> {
    let first = chain * blocks;
    let mut found: Vec<u16> = (first..first + blocks).map(|b| 3 * b as u16 + 1).collect();
    if !ahead {
        found.reverse();
    }
    found
}

/// One chain as deep as can be.
fn one_chain(ahead: bool) -> Vec<Case> {
    let table = chains(&[variable(1)], blocks(1), ahead);
    let functions = functions(0, blocks(1), ahead);
    let (top, end) = (functions[0], functions[blocks(1) - 1] + 2);
    let mut looped = table.clone();
    looped[usize::from(end)] = pointer(top);
    let case = |what: &str, answer, table: &[u32], pairs: &[(u16, u16)]| {
        let what = format!("one chain, {}, {what}", way(ahead));
        (what, Some(answer), (table.to_vec(), list(pairs)))
    };
    vec![
        case("no pairs", ACCEPTED, &table, &[]),
        case("in a loop", LOOP, &looped, &[]),
        case("on its own end", CYCLE, &table, &[(end, top)]),
        case("and its inside", CYCLE, &table, &[(top, functions[1])]),
    ]
}

/// Two chains as deep as can be, with one pair and with the most pairs that a list holds.
fn two_chains(ahead: bool) -> Vec<Case> {
    let open = chains(&[variable(1), variable(2)], blocks(2), ahead);
    let apart = chains(&[constant(1), constant(2)], blocks(2), ahead);
    let [one, other] = [0, 1].map(|chain| functions(chain, blocks(2), ahead));
    let tops = (one[0], other[0]);
    let from_the_ends: Vec<(u16, u16)> = (0..MOST_PAIRS)
        .map(|k| blocks(2) - 1 - k * blocks(2) / MOST_PAIRS)
        .map(|depth| (one[depth], other[depth]))
        .collect();
    let mut closed = vec![tops; MOST_PAIRS - 1];
    closed.push((one[blocks(2) - 1] + 2, other[1]));
    let mut clash = vec![(one[0], one[0]); MOST_PAIRS - 1];
    clash.push(tops);
    let case = |what: &str, answer, table: &[u32], pairs: &[(u16, u16)]| {
        let what = format!("two chains, {}, {what}", way(ahead));
        (what, Some(answer), (table.to_vec(), list(pairs)))
    };
    vec![
        case("one pair", ACCEPTED, &open, &[tops]),
        case("256 pairs from the ends", ACCEPTED, &open, &from_the_ends),
        case("a cycle by pair 256", CYCLE, &open, &closed),
        case("a clash by pair 256", CLASH, &apart, &clash),
    ]
}

fn way(ahead: bool) -> &'static str {
    if ahead {
        "pointers ahead"
    } else {
        "pointers back"
    }
}

/// What is long in other ways: links, sharing, arguments that wait at once.
fn not_deep() -> Vec<Case> {
    let levels = (MOST_WORDS - 1) / 8;
    let top = |ahead: bool| if ahead { 1 } else { 4 * levels as u16 - 3 };
    let both = |ahead: bool| [(top(ahead), top(ahead) + 4 * levels as u16)];
    let (row, pairs) = row_of_variables();
    let back: Vec<(u16, u16)> = pairs.iter().rev().copied().collect();
    let (wide, wide_pairs) = wide_blocks(|block, i| variable(255 * block + i));
    let case = |what: &str, table: &[u32], pairs: &[(u16, u16)]| {
        let job = (table.to_vec(), list(pairs));
        (what.to_string(), Some(ACCEPTED), job)
    };
    vec![
        case("a row of variables", &row, &pairs),
        case("a row of variables from its end", &row, &back),
        case("towers ahead", &towers(levels, true), &both(true)),
        case("towers back", &towers(levels, false), &both(false)),
        case("wide blocks", &wide, &wide_pairs),
    ]
}

fn random() -> Vec<Case> {
    let made = (0..300).map(|part| job(&mut Numbers::of_part(0x57ac, part)));
    made.filter(|job| job.table.len() <= MOST_WORDS)
        .map(|job| ("a random job".to_string(), None, (job.table, job.list)))
        .collect()
}

/// The bytes used and the answer, of a call of nothing and then of each case.
fn measured(cases: &[Case]) -> Vec<(usize, u16)> {
    let mut asked = format!("{}\n", cases.len());
    for (_, _, (table, list)) in cases {
        put_row(&mut asked, table);
        put_row(&mut asked, list);
        put(&mut asked, &[table.len(), 4 * table.len()]);
        asked.push('\n');
    }
    // What is called outside the library is found before it runs: the search would be on the stack too.
    let options = ["-O2", "-std=gnu11", "-Wl,-z,now"];
    let program = built_with_station("gcc", &options, "tests/c/stack.c", "stack");
    let lines = printed_for(&mut Command::new(program), &asked);
    let number = |text: &str| text.parse::<u64>().expect("a number");
    let line = |line: &str| match line.split_once(' ') {
        Some((bytes, result)) => (number(bytes) as usize, number(result) as u16),
        None => panic!("two numbers: {line}"),
    };
    lines.lines().map(line).collect()
}

#[test]
fn the_stack_of_a_match() {
    let ways = [true, false];
    let deep = ways.map(|ahead| [one_chain(ahead), two_chains(ahead)].concat());
    let cases = [deep.concat(), not_deep(), random()].concat();
    let measured = measured(&cases);
    assert_eq!(measured.len(), 1 + cases.len());
    let (nothing, _) = measured[0];
    println!("{nothing} bytes by a call of nothing, which are in all that follows");
    let mut most = 0;
    for ((what, wanted, _), &(bytes, answer)) in cases.iter().zip(&measured[1..]) {
        assert_eq!(answer, wanted.unwrap_or(answer), "{what}");
        if wanted.is_some() || bytes > most {
            println!("{bytes:4} bytes: {what}");
        }
        most = most.max(bytes);
    }
    println!("at most {most} bytes of stack");
    assert!(nothing < most && most < LIMIT);
}
