//! "Errors this trade makes": a test of the matcher for each.

use station_tests::matching::{
    accepted, constants, example_a, example_b, example_c, list, matched, matched_in, matched_on,
    refused, Given,
};
use station_tests::random::Numbers;
use station_tests::table::{
    argument_count, constant, function, pointer, variable, words, ACCEPTED, CLASH, CYCLE,
    MOST_WORDS,
};

/// A table and the entries of a list.
type Job = (Vec<u32>, Vec<u16>);

/// A job for each answer but 2, which is for the buffers, in the order of the answers; and more that
/// are accepted.
fn jobs() -> Vec<Job> {
    let job = |items: &[u32], pairs: &[(u16, u16)]| (words(items), list(pairs));
    vec![
        (example_a(), list(&[(1, 9)])),
        (vec![], vec![]),
        job(&[constant(1), 0], &[]),
        job(&[constant(1), pointer(1)], &[]),
        job(&[function(1), argument_count(1), pointer(2)], &[]),
        job(&[variable(1), variable(1)], &[]),
        job(&[function(1), argument_count(1), pointer(1)], &[]),
        (example_c(), vec![3]),
        (example_c(), list(&[(3, 1), (3, 0)])),
        (example_c(), list(&[(3, 1), (3, 2)])),
        (example_b(), list(&[(1, 1), (1, 3)])),
        (example_c(), list(&[(3, 1)])),
        (example_c(), list(&[(3, 2)])),
        (example_c(), list(&[])),
        (example_b(), list(&[(3, 3)])),
        (example_a(), list(&[(3, 4), (4, 16)])),
        (example_a(), list(&[])),
        job(&[variable(1), variable(2), variable(3)], &[(3, 2)]),
        (vec![0], vec![]),
    ]
}

/// What a job gives in buffers of zeros.
fn in_clean_buffers((table, list): &Job) -> Given {
    let n = table.len();
    matched_on(table, list, &mut vec![0; n], &mut vec![0; 4 * n])
}

#[test]
fn there_is_a_job_for_each_answer() {
    let answers: Vec<u16> = jobs()
        .iter()
        .map(|job| in_clean_buffers(job).answer)
        .collect();
    assert_eq!(answers[..11], [0, 1, 3, 4, 5, 6, 7, 8, 9, 10, 11]);
    assert!(answers[11..].iter().all(|&a| a == ACCEPTED));
}

/// "Trusting a class entry of the last list": each job after each other, in buffers that hold what
/// the other left, with what stood in them before that.
#[test]
fn trusting_a_class_entry_of_the_last_list() {
    let mut old = Numbers::new(0x1a57_1157);
    for first in jobs() {
        for second in jobs() {
            for (mut class, mut work) in [
                (vec![0; 17], vec![0; 68]),
                (old.entries(17), old.entries(68)),
                (old.entries(20), old.entries(100)),
            ] {
                matched_on(&first.0, &first.1, &mut class, &mut work);
                let given = matched_on(&second.0, &second.1, &mut class, &mut work);
                assert_eq!(given, in_clean_buffers(&second), "{first:?}, {second:?}");
            }
        }
    }
}

/// The same for buffers that look like a class table: all entries in use the same address, each its
/// own, or those of another list.
#[test]
fn old_contents_that_look_like_classes() {
    for job in jobs() {
        let n = job.0.len();
        let rows: Vec<Vec<u16>> = vec![
            vec![1; n],
            (0..n as u16).collect(),
            (0..n as u16).rev().collect(),
            vec![n as u16; n],
            vec![65_535; n],
        ];
        for mut class in rows {
            for old in [0, 1, 2, n as u16, 65_535] {
                let mut work = vec![old; 4 * n];
                let given = matched_on(&job.0, &job.1, &mut class, &mut work);
                assert_eq!(given, in_clean_buffers(&job));
            }
        }
    }
}

/// "Clearing only on success": `matched_on` looks at the entries in use and above, with random old
/// contents, for each answer; answer 2 is for short buffers.
#[test]
fn clearing_only_on_success() {
    let mut seen = Vec::new();
    for (table, list) in jobs() {
        let n = table.len();
        for (above_n, above_4n) in [(0, 0), (1, 0), (0, 1), (5, 7), (4_096, 16_384)] {
            let given = matched_in(&table, &list, n + above_n, 4 * n + above_4n);
            seen.push(given.answer);
        }
        if n > 0 {
            seen.push(matched_in(&table, &list, n - 1, 4 * n).answer);
            seen.push(matched_in(&table, &list, n, 4 * n - 1).answer);
        }
    }
    assert!((0..12).all(|answer| seen.contains(&answer)), "{seen:?}");
    // in a table of the largest size, whose entries in use are the most
    let (mut class, mut work) = (vec![7; MOST_WORDS], vec![9; 4 * MOST_WORDS]);
    let table = constants(MOST_WORDS);
    let given = matched_on(&table, &[1, 4_095, 1, 0], &mut class, &mut work);
    assert_eq!(given.place, 2);
    assert!(class.iter().chain(&work).all(|&e| e == 0));
}

/// "Joining a variable to a term that holds it, as most Prolog systems do."
#[test]
fn joining_a_variable_to_a_term_that_holds_it() {
    assert_eq!(matched(&example_b(), &[(3, 1)]), refused(CYCLE, 1));
    assert_eq!(matched(&example_b(), &[(1, 3)]), refused(CYCLE, 1));
    // deep inside, and through a pointer
    let table = words(&[
        function(1),
        argument_count(2),
        constant(1),
        pointer(5),
        function(2),
        argument_count(1),
        pointer(8),
        variable(1),
    ]);
    assert_eq!(matched(&table, &[(8, 1)]), refused(CYCLE, 1));
    assert_eq!(matched(&table, &[(8, 5)]), refused(CYCLE, 1));
    assert_eq!(matched(&table, &[(8, 3)]).joins, 1);
    // a term that holds another variable is none
    let table = words(&[function(1), argument_count(1), variable(1), variable(2)]);
    assert_eq!(matched(&table, &[(4, 1)]), accepted(&[0, 1, 0, 3, 1], 1));
    // two terms, one inside the other
    let table = words(&[
        function(1),
        argument_count(1),
        pointer(4),
        function(1),
        argument_count(1),
        variable(1),
    ]);
    assert_eq!(matched(&table, &[(1, 4)]), refused(CYCLE, 1));
}

/// "Looking for cycles along a term's own words only: a cycle can close through classes that an
/// earlier pair made."
#[test]
fn a_cycle_through_classes_of_earlier_pairs() {
    // 1: f(X1), 4: g(X2), 7: h(X3)
    let table = words(&[
        function(1),
        argument_count(1),
        variable(1),
        function(2),
        argument_count(1),
        variable(2),
        function(3),
        argument_count(1),
        variable(3),
    ]);
    let pairs = [(3, 4), (6, 7), (9, 1)];
    for order in [
        [0, 1, 2],
        [0, 2, 1],
        [1, 0, 2],
        [1, 2, 0],
        [2, 0, 1],
        [2, 1, 0],
    ] {
        let pairs = order.map(|i| pairs[i]);
        assert_eq!(matched(&table, &pairs), refused(CYCLE, 3));
        assert_eq!(matched(&table, &pairs[..2]).joins, 2);
    }
    // f(X1) and f(g(X2)), then X2 and X1: the arguments are joined by pair 1 alone
    let table = words(&[
        function(1),
        argument_count(1),
        variable(1),
        function(1),
        argument_count(1),
        pointer(7),
        function(2),
        argument_count(1),
        variable(2),
    ]);
    assert_eq!(matched(&table, &[(1, 4)]).answer, ACCEPTED);
    assert_eq!(matched(&table, &[(1, 4), (9, 3)]), refused(CYCLE, 2));
    assert_eq!(matched(&table, &[(9, 3), (1, 4)]), refused(CYCLE, 2));
    // f(X1, X2) at 1 and f(X3, 1) at 5: neither holds itself, and either pair closes a cycle
    let table = words(&[
        function(1),
        argument_count(2),
        variable(1),
        variable(2),
        function(1),
        argument_count(2),
        variable(3),
        pointer(1),
    ]);
    assert_eq!(matched(&table, &[(3, 7), (1, 5)]), refused(CYCLE, 2));
    assert_eq!(matched(&table, &[(3, 7), (4, 5)]), refused(CYCLE, 2));
    assert_eq!(matched(&table, &[(3, 7), (3, 5)]), refused(CYCLE, 2));
    assert_eq!(matched(&table, &[(7, 4), (3, 7)]).joins, 2);
}

/// "Comparing labels and not counts".
#[test]
fn labels_compared_and_not_counts() {
    let table = words(&[
        function(5),
        argument_count(1),
        variable(1),
        function(5),
        argument_count(2),
        variable(2),
        variable(3),
        function(5),
        argument_count(1),
        constant(5),
        variable(4),
    ]);
    for pair in [(1, 4), (4, 1), (4, 8), (8, 4)] {
        assert_eq!(matched(&table, &[pair]), refused(CLASH, 1), "{pair:?}");
        // through a variable
        let pairs = [(11, pair.0), (11, pair.1)];
        assert_eq!(matched(&table, &pairs), refused(CLASH, 2), "{pair:?}");
    }
    assert_eq!(matched(&table, &[(1, 8)]).joins, 2);
}

/// "taking constant 5 for function 5", and variable 5 for neither.
#[test]
fn constant_5_and_function_5() {
    let table = words(&[
        constant(5),
        function(5),
        argument_count(1),
        variable(5),
        constant(5),
    ]);
    assert_eq!(matched(&table, &[(1, 2)]), refused(CLASH, 1));
    assert_eq!(matched(&table, &[(2, 1)]), refused(CLASH, 1));
    assert_eq!(matched(&table, &[(4, 1), (2, 4)]), refused(CLASH, 2));
    assert_eq!(matched(&table, &[(5, 1)]).joins, 1);
    let classes = [0, 1, 2, 0, 1, 5];
    assert_eq!(matched(&table, &[(4, 1)]), accepted(&classes, 1));
}

/// "Naming a class by the order of joins": a permuted list, and pairs turned round, have the class
/// table of the list.
#[test]
fn naming_by_the_order_of_joins() {
    // 1 to 4 variables, 5: f(X5), 8: f(1), 11: f(X6), 14 constant
    let table = words(&[
        variable(1),
        variable(2),
        variable(3),
        variable(4),
        function(1),
        argument_count(1),
        variable(5),
        function(1),
        argument_count(1),
        constant(1),
        function(1),
        argument_count(1),
        variable(6),
        constant(1),
    ]);
    let mut numbers = Numbers::new(0x0dd_07de7);
    for (mut pairs, classes, joins) in [
        (
            vec![(4, 3), (3, 2)],
            [0, 1, 2, 2, 2, 5, 0, 7, 8, 0, 10, 11, 0, 13, 14],
            2,
        ),
        (
            vec![(4, 11), (4, 8), (8, 1), (5, 1)],
            [0, 5, 2, 3, 5, 5, 0, 10, 5, 0, 10, 5, 0, 10, 14],
            6,
        ),
        (
            vec![(2, 14), (2, 3), (3, 10), (13, 7), (7, 4), (4, 1)],
            [0, 1, 10, 10, 1, 5, 0, 1, 8, 0, 10, 11, 0, 1, 10],
            6,
        ),
    ] {
        for _ in 0..200 {
            numbers.shuffle(&mut pairs);
            for pair in &mut pairs {
                if numbers.one_in(2) {
                    *pair = (pair.1, pair.0);
                }
            }
            assert_eq!(
                matched(&table, &pairs),
                accepted(&classes, joins),
                "{pairs:?}"
            );
        }
    }
}
