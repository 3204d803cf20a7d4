//! Document 02, E1: what tables with unnamed variables, those of label 0, are still refused for, and what no
//! longer. "Other labels still may not repeat. Refusals: 6 is no longer given for label 0."

use station_tests::agreeing::{checked, matched};
use station_tests::checking::checked_on;
use station_tests::matching::{accepted, matched_entries, matched_on, refused};
use station_tests::table::{
    argument_count, block_of, constant, function, pointer, variable, variables, words, ACCEPTED,
    ADDRESS, LAYOUT, LIST, LOOP, MOST_WORDS, NAME, POINTER, UNNAMED, WORD,
};

const GOOD: (u16, u16) = (ACCEPTED, 0);

/// One label at every two places of a row of unnamed variables.
#[test]
fn a_label_that_repeats_among_unnamed_ones() {
    for label in [1, 2, 5, 256, 32_768, 65_535] {
        for later in 2..10_u16 {
            for earlier in 1..later {
                let mut table = words(&[UNNAMED; 9]);
                table[usize::from(later)] = variable(label);
                assert_eq!(checked(&table), GOOD);
                table[usize::from(earlier)] = variable(label);
                assert_eq!(checked(&table), (NAME, later), "{label} at {earlier}");
            }
        }
    }
}

#[test]
fn the_lowest_later_address() {
    assert_eq!(checked(&variables(&[0, 5, 0, 5, 0])), (NAME, 4));
    assert_eq!(checked(&variables(&[0, 5, 7, 0, 7, 5, 0])), (NAME, 5));
    assert_eq!(checked(&variables(&[0, 7, 5, 0, 0, 7, 5])), (NAME, 6));
    assert_eq!(checked(&variables(&[0, 0, 5, 5, 5, 0])), (NAME, 4));
    assert_eq!(
        checked(&variables(&[0, 1, 0, 65_535, 0, 65_535, 1])),
        (NAME, 6)
    );
    assert_eq!(checked(&variables(&[0, 1, 0, 65_535, 0])), GOOD);
}

#[test]
fn in_blocks_and_as_items() {
    let five = variable(5);
    let tables = [
        (vec![block_of(&[UNNAMED, five, UNNAMED, five])], 6),
        (vec![block_of(&[UNNAMED, five]), vec![UNNAMED, five]], 6),
        (vec![vec![five, UNNAMED], block_of(&[UNNAMED, five])], 6),
        (
            vec![block_of(&[five, UNNAMED]), block_of(&[UNNAMED, five])],
            8,
        ),
    ];
    for (parts, later) in tables {
        let mut table = words(&parts.concat());
        assert_eq!(checked(&table), (NAME, later));
        table[usize::from(later)] = UNNAMED;
        assert_eq!(checked(&table), GOOD);
    }
}

#[test]
fn a_label_that_repeats_among_4_093_unnamed_ones() {
    for (earlier, later) in [(1, 2), (1, 4_095), (2_047, 2_048), (4_094, 4_095)] {
        let mut table = words(&vec![UNNAMED; MOST_WORDS - 1]);
        table[earlier] = variable(1);
        table[later] = variable(1);
        assert_eq!(checked(&table), (NAME, later as u16));
        table[later] = variable(2);
        assert_eq!(checked(&table), GOOD);
    }
}

/// Constants and functions neither bring a 6 nor keep one back, whatever their label.
#[test]
fn a_repeated_label_beside_constants_and_functions() {
    for label in [0, 5] {
        let of_function = [function(label), argument_count(2)];
        let between = [constant(label), UNNAMED, constant(label), UNNAMED];
        let table = |first: u32, last: u32| {
            let parts = [
                &[first][..],
                &between,
                &of_function,
                &[constant(label), last],
            ];
            words(&parts.concat())
        };
        assert_eq!(checked(&table(UNNAMED, UNNAMED)), GOOD);
        assert_eq!(checked(&table(variable(5), UNNAMED)), GOOD);
        assert_eq!(checked(&table(variable(5), variable(5))), (NAME, 9));
    }
}

// ---- the order of numbers

/// Behind two unnamed variables and two of one label a fault of a lower number; and then behind unnamed ones
/// alone.
#[test]
fn lower_numbers_come_first() {
    let faults = [
        (vec![0], (WORD, 5)),
        (vec![17 << 16], (WORD, 5)),
        (vec![UNNAMED | 1 << 21], (WORD, 5)),
        (vec![function(1), argument_count(0)], (WORD, 6)),
        (vec![pointer(1)], (LAYOUT, 5)),
        (vec![function(1), argument_count(1)], (LAYOUT, 7)),
        (block_of(&[function(1)]), (LAYOUT, 7)),
        (block_of(&[pointer(0)]), (POINTER, 7)),
        (block_of(&[pointer(8)]), (POINTER, 7)),
    ];
    for (items, fault) in faults {
        for label in [5, 0] {
            let mut table = variables(&[0, 0, label, label]);
            table.extend(&items);
            assert_eq!(checked(&table), fault, "{items:x?}");
        }
    }
}

/// 7 to 9 are reached by tables with two unnamed variables.
#[test]
fn higher_numbers_are_reached() {
    let loops = block_of(&[UNNAMED, pointer(1), UNNAMED]);
    assert_eq!(checked(&words(&loops)), (LOOP, 0));
    let named = block_of(&[UNNAMED, pointer(1), UNNAMED, variable(1), variable(1)]);
    assert_eq!(checked(&words(&named)), (NAME, 7));
    // through two blocks, each with an unnamed variable
    let through = [
        block_of(&[UNNAMED, pointer(5)]),
        block_of(&[UNNAMED, pointer(1)]),
    ];
    assert_eq!(checked(&words(&through.concat())), (LOOP, 0));

    let table = variables(&[0, 0]);
    assert_eq!(matched_entries(&table, &[1]), refused(LIST, 0));
    assert_eq!(matched_entries(&table, &[1; 514]), refused(LIST, 0));
    assert_eq!(matched(&table, &[(1, 2), (2, 3)]), refused(ADDRESS, 2));
    assert_eq!(matched(&table, &[(0, 2)]), refused(ADDRESS, 1));
    assert_eq!(matched(&table, &[(1, 2); 256]), accepted(&[0, 1, 1], 1));
}

// ---- old contents

/// Buffers that held what looks like names or classes, and buffers that the last call left.
#[test]
fn old_contents_do_not_count() {
    let good = variables(&[0, 5, 0, 7, 0]);
    let repeats = variables(&[0, 5, 0, 5, 0]);
    let n = good.len();
    let addresses: Vec<u16> = (0..4 * n as u16).map(|i| i % n as u16).collect();
    let rows = [vec![0; 4 * n], vec![1; 4 * n], vec![2; 4 * n]];
    let others = [vec![5; 4 * n], vec![65_535; 4 * n], addresses];
    for old in rows.iter().chain(&others) {
        let (mut class, mut work) = (old[..n].to_vec(), old.clone());
        assert_eq!(checked_on(&good, &mut class, &mut work), GOOD);
        let (mut class, mut work) = (old[..n].to_vec(), old.clone());
        assert_eq!(checked_on(&repeats, &mut class, &mut work), (NAME, 4));

        let (mut class, mut work) = (old[..n].to_vec(), old.clone());
        let joined = accepted(&[0, 1, 2, 1, 4, 4], 2);
        for _ in 0..2 {
            let given = matched_on(&good, &[3, 1, 5, 4], &mut class, &mut work);
            assert_eq!(given, joined);
            // the class table of the last list is still there
            let apart = matched_on(&good, &[], &mut class, &mut work);
            assert_eq!(apart, accepted(&[0, 1, 2, 3, 4, 5], 0));
            let given = matched_on(&repeats, &[3, 1], &mut class, &mut work);
            assert_eq!(given, refused(NAME, 4));
            assert_eq!(checked_on(&good, &mut class, &mut work), GOOD);
        }
    }
}
