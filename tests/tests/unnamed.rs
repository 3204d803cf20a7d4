//! Document 02, E1: a variable of label 0 is unnamed, and every one is a different variable. Such words may
//! repeat, other labels still may not; variables are told apart by address.

use station_tests::agreeing::{checked, matched};
use station_tests::large_tables::row_of_variables;
use station_tests::matching::{accepted, refused};
use station_tests::random::Numbers;
use station_tests::table::{
    argument_count, block_of, constant, function, pointer, variable, variables, words, ACCEPTED,
    CLASH, CYCLE, MOST_WORDS, UNNAMED,
};

const GOOD: (u16, u16) = (ACCEPTED, 0);

// ---- accepted

#[test]
fn as_many_as_a_table_holds() {
    for n in [2, 3, 4, 5, 64, 1_000, MOST_WORDS - 1, MOST_WORDS] {
        assert_eq!(checked(&words(&vec![UNNAMED; n - 1])), GOOD, "n {n}");
    }
    // as arguments: 15 blocks of 255, and 240 items behind them
    let mut items = block_of(&[UNNAMED; 255]).repeat(15);
    items.resize(MOST_WORDS - 1, UNNAMED);
    assert_eq!(checked(&words(&items)), GOOD);
}

/// 4,095 of them, and 256 pairs that join 257, from either end and in other orders.
#[test]
fn pairs_in_a_row() {
    let table = words(&vec![UNNAMED; MOST_WORDS - 1]);
    let (_, mut pairs) = row_of_variables();
    let mut numbers = Numbers::new(0x0e1_0c4a_1270);
    for first in [1, 2_000, 4_095 - 256] {
        let mut classes: Vec<u16> = (0..4_096).collect();
        classes[usize::from(first)..=usize::from(first) + 256].fill(first);
        for _ in 0..3 {
            let from_first = pairs.iter().map(|&(x, y)| (x + first - 1, y + first - 1));
            let mut moved: Vec<(u16, u16)> = from_first.collect();
            assert_eq!(matched(&table, &moved), accepted(&classes, 256));
            moved.reverse();
            assert_eq!(matched(&table, &moved), accepted(&classes, 256));
            numbers.shuffle(&mut pairs);
        }
    }
}

#[test]
fn one_class_is_named_by_its_lowest_address() {
    let table = variables(&[0, 0, 0, 0]);
    assert_eq!(matched(&table, &[(4, 2)]), accepted(&[0, 1, 2, 3, 2], 1));
    assert_eq!(matched(&table, &[(2, 4)]), accepted(&[0, 1, 2, 3, 2], 1));
    let pairs = [(4, 3), (2, 3), (1, 4)];
    assert_eq!(matched(&table, &pairs), accepted(&[0, 1, 1, 1, 1], 3));
    // a pair of one of them with itself joins nothing
    assert_eq!(matched(&table, &[(3, 3)]), accepted(&[0, 1, 2, 3, 4], 0));
    // a label is no reason to name a class, and neither is having none
    for row in [[0, 7, 0], [7, 0, 0], [0, 0, 7]] {
        let pairs = [(3, 2), (2, 1)];
        assert_eq!(
            matched(&variables(&row), &pairs),
            accepted(&[0, 1, 1, 1], 2)
        );
    }
}

#[test]
fn one_is_bound_and_one_is_free() {
    let table = words(&[UNNAMED, UNNAMED, constant(1)]);
    assert_eq!(matched(&table, &[(1, 3)]), accepted(&[0, 3, 2, 3], 1));
    assert_eq!(matched(&table, &[(3, 2)]), accepted(&[0, 1, 3, 3], 1));
    // to a term that another of them is in
    let mut items = vec![UNNAMED, UNNAMED];
    items.extend(block_of(&[UNNAMED]));
    let classes = [0, 3, 2, 3, 0, 5];
    assert_eq!(matched(&words(&items), &[(1, 3)]), accepted(&classes, 1));
}

#[test]
fn two_are_bound_to_two_constants() {
    let table = words(&[UNNAMED, UNNAMED, constant(1), constant(2)]);
    let apart = [(1, 3), (2, 4)];
    assert_eq!(matched(&table, &apart), accepted(&[0, 3, 4, 3, 4], 2));
    // one variable cannot, nor can two that are joined
    assert_eq!(matched(&table, &[(1, 3), (1, 4)]), refused(CLASH, 2));
    let joined = [(1, 3), (2, 4), (2, 1)];
    assert_eq!(matched(&table, &joined), refused(CLASH, 3));
    let joined = [(1, 2), (1, 3), (2, 4)];
    assert_eq!(matched(&table, &joined), refused(CLASH, 3));
}

// ---- in terms

/// f(_,_) agrees with f(a,b). f(X,X) does not, whether or not X has a name: a pointer names an address.
#[test]
fn two_arguments_of_a_function() {
    let known = block_of(&[constant(1), constant(2)]);
    let with = |arguments: [u32; 2]| words(&[block_of(&arguments), known.clone()].concat());
    let classes = [0, 1, 0, 7, 8, 1, 0, 7, 8];
    for pair in [(1, 5), (5, 1)] {
        let given = matched(&with([UNNAMED, UNNAMED]), &[pair]);
        assert_eq!(given, accepted(&classes, 3));
        let given = matched(&with([variable(1), UNNAMED]), &[pair]);
        assert_eq!(given, accepted(&classes, 3));
        for shared in [variable(1), UNNAMED] {
            let given = matched(&with([shared, pointer(3)]), &[pair]);
            assert_eq!(given, refused(CLASH, 1));
            let given = matched(&with([pointer(4), shared]), &[pair]);
            assert_eq!(given, refused(CLASH, 1));
        }
    }
}

/// f(_,_) against f(_,_): each argument is joined with the one at its own place, and with no other.
#[test]
fn unnamed_arguments_of_two_functions() {
    let two = block_of(&[UNNAMED, UNNAMED]);
    let table = words(&[two.clone(), two].concat());
    let classes = [0, 1, 0, 3, 4, 1, 0, 3, 4];
    assert_eq!(matched(&table, &[(1, 5)]), accepted(&classes, 3));
    assert_eq!(matched(&table, &[(5, 1)]), accepted(&classes, 3));
}

/// f(_) and another _: the other may be f(_), and the one in it may not.
#[test]
fn a_cycle_is_closed_by_its_own_variable_alone() {
    let mut items = block_of(&[UNNAMED]);
    items.push(UNNAMED);
    let table = words(&items);
    assert_eq!(matched(&table, &[(4, 1)]), accepted(&[0, 1, 0, 3, 1], 1));
    assert_eq!(matched(&table, &[(3, 1)]), refused(CYCLE, 1));
    assert_eq!(matched(&table, &[(1, 3)]), refused(CYCLE, 1));
    // the other becomes the one in it, and then f(_)
    assert_eq!(matched(&table, &[(4, 3), (4, 1)]), refused(CYCLE, 2));
    assert_eq!(matched(&table, &[(4, 1), (4, 3)]), refused(CYCLE, 2));
    // f(_) and f(_), each of whose variables is to be the other term
    let table = words(&block_of(&[UNNAMED]).repeat(2));
    assert_eq!(
        matched(&table, &[(3, 4)]),
        accepted(&[0, 1, 0, 4, 4, 0, 6], 1)
    );
    assert_eq!(matched(&table, &[(3, 4), (6, 1)]), refused(CYCLE, 2));
}

// ---- label 0 of other words

/// "Variable labels are a name space of their own": a constant or function of label 0 is one like any other.
#[test]
fn constants_and_functions_of_label_0() {
    let table = words(&[constant(0), constant(0), constant(1), UNNAMED, UNNAMED]);
    assert_eq!(checked(&table), GOOD);
    assert_eq!(matched(&table, &[(1, 2)]), accepted(&[0, 1, 1, 3, 4, 5], 1));
    assert_eq!(matched(&table, &[(1, 3)]), refused(CLASH, 1));
    let bound = [(4, 1), (5, 3)];
    assert_eq!(matched(&table, &bound), accepted(&[0, 1, 2, 3, 1, 3], 2));
    assert_eq!(matched(&table, &[(4, 1), (4, 3)]), refused(CLASH, 2));

    let of_0 = [function(0), argument_count(1), UNNAMED];
    let of_1 = [function(1), argument_count(1), UNNAMED];
    let table = words(&[of_0, of_0, of_1].concat());
    let classes = [0, 1, 0, 3, 1, 0, 3, 7, 0, 9];
    assert_eq!(matched(&table, &[(1, 4)]), accepted(&classes, 2));
    assert_eq!(matched(&table, &[(1, 7)]), refused(CLASH, 1));
    // a function of label 0 is no variable and no constant of label 0
    let table = words(&[&of_0[..], &[constant(0), UNNAMED]].concat());
    assert_eq!(matched(&table, &[(1, 4)]), refused(CLASH, 1));
    assert_eq!(matched(&table, &[(1, 5)]), accepted(&[0, 1, 0, 3, 4, 1], 1));
}
