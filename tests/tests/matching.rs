//! The matcher on document 01's sheet of examples, and on example 1 of source 000.

use station_tests::matching::{
    accepted, block, constants, example_a, example_b, example_c, matched, refused,
};
use station_tests::table::{
    argument_count, constant, function, pointer, variable, words, ACCEPTED, ADDRESS, CLASH, CYCLE,
    LIST, LOOP, SIZE, WORD,
};

#[test]
fn p1_example_a() {
    let classes = [0, 1, 0, 11, 6, 0, 6, 0, 0, 1, 0, 11, 0, 0, 6, 0, 11];
    assert_eq!(matched(&example_a(), &[(1, 9)]), accepted(&classes, 5));
}

#[test]
fn p2_a_variable_and_the_term_that_holds_it() {
    assert_eq!(matched(&example_b(), &[(1, 3)]), refused(CYCLE, 1));
}

#[test]
fn p3_a_pair_of_one_node() {
    assert_eq!(matched(&example_b(), &[(3, 3)]), accepted(&[0, 1, 0, 3], 0));
}

/// "Sides may be equal, and pairs may repeat": a pair that comes again, or again with its sides changed over, adds nothing,
/// and a refusal stays where it was.
#[test]
fn a_pair_again() {
    let once = matched(&example_a(), &[(1, 9)]);
    assert_eq!(
        matched(&example_a(), &[(1, 9), (1, 9), (9, 1), (9, 9)]),
        once
    );
    assert_eq!(
        matched(&example_c(), &[(3, 1), (3, 1), (1, 3), (3, 2), (3, 2)]),
        refused(CLASH, 4)
    );
}

#[test]
fn p4_a_variable_and_a_constant() {
    assert_eq!(matched(&example_c(), &[(3, 1)]), accepted(&[0, 1, 2, 1], 1));
}

#[test]
fn p5_two_constants_through_a_variable() {
    assert_eq!(matched(&example_c(), &[(3, 1), (3, 2)]), refused(CLASH, 2));
}

#[test]
fn p6_two_constants() {
    assert_eq!(matched(&example_c(), &[(1, 2)]), refused(CLASH, 1));
}

#[test]
fn p7_no_pairs() {
    assert_eq!(matched(&example_c(), &[]), accepted(&[0, 1, 2, 3], 0));
}

#[test]
fn p8_both_faults_in_one_pair() {
    let table = words(&[
        function(1),
        argument_count(2),
        variable(1),
        constant(1),
        function(1),
        argument_count(2),
        pointer(1),
        constant(2),
    ]);
    assert_eq!(matched(&table, &[(1, 5)]), refused(CLASH, 1));
}

#[test]
fn p9_one_label_and_two_counts() {
    let table = words(&[
        function(5),
        argument_count(1),
        variable(1),
        function(5),
        argument_count(2),
        variable(2),
        variable(3),
    ]);
    assert_eq!(matched(&table, &[(1, 4)]), refused(CLASH, 1));
}

#[test]
fn p10_a_table_that_loops() {
    let table = words(&[function(1), argument_count(1), pointer(1)]);
    assert_eq!(matched(&table, &[]), refused(LOOP, 0));
}

#[test]
fn the_rest_of_the_sheet() {
    assert_eq!(matched(&[0], &[]), accepted(&[0], 0));
    assert_eq!(matched(&block(255), &[]).answer, ACCEPTED);
    assert_eq!(matched(&block(256), &[]), refused(WORD, 2));
    assert_eq!(matched(&constants(4_096), &[]).answer, ACCEPTED);
    assert_eq!(matched(&constants(4_097), &[]), refused(SIZE, 0));
    assert_eq!(matched(&example_c(), &[(3, 1); 256]).answer, ACCEPTED);
    assert_eq!(matched(&example_c(), &[(3, 1); 257]), refused(LIST, 0));
    assert_eq!(
        matched(&example_c(), &[(1, 2), (0, 1)]),
        refused(ADDRESS, 2)
    );
}

/// Source 000, example 1: f(X1, X2, a, X1) and f(a, g(Y1), Y2, Y2), in the words of its figure 4.
#[test]
fn example_1_of_source_000() {
    let table = words(&[
        function(1),
        argument_count(4),
        variable(1),
        variable(2),
        constant(2),
        pointer(3),
        function(1),
        argument_count(4),
        constant(2),
        pointer(13),
        variable(3),
        pointer(11),
        function(3),
        argument_count(1),
        variable(4),
    ]);
    let classes = [0, 1, 0, 5, 13, 5, 0, 1, 0, 5, 0, 5, 0, 13, 0, 15];
    assert_eq!(matched(&table, &[(1, 7)]), accepted(&classes, 5));
}
