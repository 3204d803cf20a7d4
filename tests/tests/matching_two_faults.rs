//! Which of a clash and a cycle the matcher tells: "10 and 11 go by the lower k and cannot share one".

use station_tests::matching::{matched, refused};
use station_tests::table::{
    argument_count, constant, function, pointer, variable, words, CLASH, CYCLE,
};

/// 1: f(X1), 4 and 5: two constants, 6: a variable.
fn clash_and_cycle() -> Vec<u32> {
    words(&[
        function(1),
        argument_count(1),
        variable(1),
        constant(1),
        constant(2),
        variable(2),
    ])
}

const FINE: (u16, u16) = (6, 6);
const CLASHES: (u16, u16) = (4, 5);
const CLOSES: (u16, u16) = (3, 1);

#[test]
fn a_cycle_at_k_hidden_by_a_clash_at_k_plus_1() {
    for k in 1..40 {
        let mut pairs = vec![FINE; k - 1];
        pairs.extend([CLOSES, CLASHES]);
        assert_eq!(matched(&clash_and_cycle(), &pairs), refused(CYCLE, k));
        pairs.extend([FINE; 9]);
        assert_eq!(matched(&clash_and_cycle(), &pairs), refused(CYCLE, k));
    }
}

/// The same with pairs between the two, and where the clash needs what closed the cycle.
#[test]
fn a_clash_long_after_a_cycle() {
    for k in [1, 2, 3, 100, 128, 200] {
        for between in [0, 1, 2, 30, 54] {
            let mut pairs = vec![FINE; k - 1];
            pairs.push(CLOSES);
            pairs.extend(vec![FINE; between]);
            pairs.push((3, 4));
            assert_eq!(matched(&clash_and_cycle(), &pairs), refused(CYCLE, k));
        }
    }
}

#[test]
fn a_clash_at_k_hidden_by_a_cycle_at_k_plus_1() {
    for k in 1..40 {
        let mut pairs = vec![FINE; k - 1];
        pairs.extend([CLASHES, CLOSES]);
        assert_eq!(matched(&clash_and_cycle(), &pairs), refused(CLASH, k));
    }
}

#[test]
fn a_clash_at_k_after_a_cycle_at_k_minus_1() {
    for k in 2..=256 {
        let mut pairs = vec![FINE; k - 2];
        pairs.extend([CLOSES, CLASHES]);
        assert_eq!(matched(&clash_and_cycle(), &pairs), refused(CYCLE, k - 1));
    }
}

/// A pair that brings both is a clash, whichever of them the children meet first.
#[test]
fn both_in_one_pair() {
    for swap in [false, true] {
        let arguments = |first: u32, second: u32| {
            if swap {
                [second, first]
            } else {
                [first, second]
            }
        };
        let mut items = vec![function(1), argument_count(2)];
        items.extend(arguments(variable(1), constant(1)));
        items.extend([function(1), argument_count(2)]);
        items.extend(arguments(pointer(1), constant(2)));
        let table = words(&items);
        for pair in [(1, 5), (5, 1)] {
            for before in 0..5 {
                let mut pairs = vec![(1, 1); before];
                pairs.push(pair);
                assert_eq!(matched(&table, &pairs), refused(CLASH, before + 1));
            }
        }
    }
}
