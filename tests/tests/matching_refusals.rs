//! The matcher's refusals 1 to 11, each at its edge and one past it.

use station_tests::matching::{
    accepted, block, constants, example_c, matched, matched_entries, matched_in, refused,
};
use station_tests::table::{
    argument_count, constant, function, pointer, variable, words, ACCEPTED, ADDRESS, CLASH, CYCLE,
    LAYOUT, LIST, LOOP, MOST_PAIRS, MOST_WORDS, NAME, POINTER, ROOM, SIZE, WORD,
};

#[test]
fn refusal_1_size() {
    assert_eq!(matched(&[], &[]), refused(SIZE, 0));
    assert_eq!(matched(&[0], &[]).answer, ACCEPTED);
    let mut own: Vec<u16> = (0..4_096).collect();
    assert_eq!(matched(&constants(MOST_WORDS), &[]), accepted(&own, 0));
    own[4_095] = 1;
    let last_and_first = [(4_095, 1)];
    assert_eq!(
        matched(&constants(MOST_WORDS), &last_and_first),
        accepted(&own, 1)
    );
    assert_eq!(matched(&constants(MOST_WORDS + 1), &[]), refused(SIZE, 0));
    // before room, words and list
    assert_eq!(matched_in(&[], &[0], 0, 0), refused(SIZE, 0));
    let bad_words = vec![1; MOST_WORDS + 1];
    assert_eq!(matched_in(&bad_words, &[0], 0, 0), refused(SIZE, 0));
}

#[test]
fn refusal_2_room() {
    for table in [vec![0], example_c(), constants(MOST_WORDS)] {
        let n = table.len();
        for (class_room, work_room, answer) in [
            (n, 4 * n, ACCEPTED),
            (n - 1, 4 * n, ROOM),
            (n, 4 * n - 1, ROOM),
            (n - 1, 4 * n - 1, ROOM),
            (n + 1, 4 * n + 1, ACCEPTED),
            (4 * n, n, ROOM),
            (0, 4 * n, ROOM),
            (n, 0, ROOM),
        ] {
            let given = matched_in(&table, &[], class_room, work_room);
            assert_eq!(given.answer, answer, "{n} {class_room} {work_room}");
            assert_eq!(given.place, 0);
        }
    }
    // before words and list
    assert_eq!(matched_in(&[1], &[0], 0, 4), refused(ROOM, 0));
}

#[test]
fn refusal_3_word() {
    assert_eq!(matched(&[1], &[]), refused(WORD, 0));
    assert_eq!(matched(&[variable(0)], &[]), refused(WORD, 0));
    assert_eq!(matched(&words(&[0]), &[]), refused(WORD, 1));
    assert_eq!(matched(&words(&[constant(1), 0, 0]), &[]), refused(WORD, 2));
    for high in 21..32 {
        let table = words(&[variable(1), constant(1) | 1 << high]);
        assert_eq!(matched(&table, &[]), refused(WORD, 2));
    }
    for tag in 0..32 {
        let table = words(&[tag << 16 | 1]);
        let known = [16, 18, 19, 20, 24].contains(&tag);
        assert_eq!(matched(&table, &[]).answer == WORD, !known, "tag {tag}");
    }
    assert_eq!(matched(&block(0), &[]), refused(WORD, 2));
    assert_eq!(matched(&block(1), &[]).answer, ACCEPTED);
    assert_eq!(matched(&block(255), &[]).answer, ACCEPTED);
    assert_eq!(matched(&block(256), &[]), refused(WORD, 2));
    let mut last_is_bad = constants(MOST_WORDS);
    last_is_bad[4_095] = 0;
    assert_eq!(matched(&last_is_bad, &[]), refused(WORD, 4_095));
    // before the layout, at a lower address, and the list
    let table = words(&[pointer(0), 0]);
    assert_eq!(matched_entries(&table, &[0]), refused(WORD, 2));
}

#[test]
fn refusal_4_layout() {
    for (items, place) in [
        (vec![pointer(1)], 1),
        (vec![argument_count(1)], 1),
        (vec![constant(1), pointer(1)], 2),
        (vec![function(1)], 2),
        (vec![function(1), constant(1)], 2),
        (vec![function(1), function(1)], 2),
        (vec![function(1), argument_count(1)], 3),
        (vec![function(1), argument_count(1), function(1)], 3),
        (vec![function(1), argument_count(1), argument_count(1)], 3),
        (vec![function(1), argument_count(2), constant(1)], 4),
        (
            vec![function(1), argument_count(1), constant(1), pointer(1)],
            4,
        ),
    ] {
        let table = words(&items);
        assert_eq!(matched(&table, &[]), refused(LAYOUT, place), "{items:?}");
    }
    // the last block of a table of 4,096 words, whole and one word short
    let mut table = constants(MOST_WORDS);
    table[4_093] = function(1);
    table[4_094] = argument_count(1);
    assert_eq!(matched(&table, &[]).answer, ACCEPTED);
    table[4_094] = argument_count(2);
    assert_eq!(matched(&table, &[]), refused(LAYOUT, 4_096));
    // before the pointers, at a lower address, and the list
    let table = words(&[
        function(1),
        argument_count(1),
        pointer(0),
        argument_count(1),
    ]);
    assert_eq!(matched_entries(&table, &[0]), refused(LAYOUT, 4));
}

#[test]
fn refusal_5_pointer() {
    let to = |address: u16| {
        words(&[
            function(1),
            argument_count(2),
            pointer(address),
            variable(1),
            constant(1),
        ])
    };
    assert_eq!(matched(&to(4), &[]).answer, ACCEPTED);
    assert_eq!(matched(&to(5), &[]).answer, ACCEPTED); // n - 1
    for bad in [0, 2, 3, 6, 7, 65_535] {
        assert_eq!(matched(&to(bad), &[]), refused(POINTER, 3), "{bad}");
    }
    // the lowest of two; before the names, at a lower address, and the list
    let table = words(&[
        variable(1),
        variable(1),
        function(1),
        argument_count(2),
        pointer(4),
        pointer(0),
    ]);
    assert_eq!(matched_entries(&table, &[0]), refused(POINTER, 5));
}

#[test]
fn refusal_6_name() {
    let labels = |labels: &[u16]| {
        let items: Vec<u32> = labels.iter().map(|&l| variable(l)).collect();
        words(&items)
    };
    assert_eq!(matched(&labels(&[0, 1, 65_535]), &[]).answer, ACCEPTED);
    assert_eq!(matched(&labels(&[1, 1]), &[]), refused(NAME, 2));
    // document 02, E1: not for label 0
    assert_eq!(matched(&labels(&[0, 0]), &[]).answer, ACCEPTED);
    assert_eq!(matched(&labels(&[1, 2, 3, 2, 1]), &[]), refused(NAME, 4));
    let mut many: Vec<u16> = (0..4_095).collect();
    assert_eq!(matched(&labels(&many), &[]).answer, ACCEPTED);
    many[4_094] = 0;
    assert_eq!(matched(&labels(&many), &[]).answer, ACCEPTED);
    many[4_094] = 1;
    assert_eq!(matched(&labels(&many), &[]), refused(NAME, 4_095));
    // before the loop, and the list
    let table = words(&[
        function(1),
        argument_count(3),
        pointer(1),
        variable(1),
        variable(1),
    ]);
    assert_eq!(matched_entries(&table, &[0]), refused(NAME, 5));
}

#[test]
fn refusal_7_loop() {
    let to = |address: u16| {
        words(&[
            function(1),
            argument_count(1),
            pointer(4),
            function(1),
            argument_count(2),
            constant(1),
            pointer(address),
        ])
    };
    assert_eq!(matched(&to(6), &[]).answer, ACCEPTED);
    assert_eq!(matched(&to(1), &[]), refused(LOOP, 0));
    assert_eq!(matched(&to(4), &[]), refused(LOOP, 0));
    // before the list
    assert_eq!(matched_entries(&to(1), &[0]), refused(LOOP, 0));
    assert_eq!(matched(&to(1), &[(0, 0)]), refused(LOOP, 0));
}

#[test]
fn refusal_8_list() {
    for (entries, good) in [
        (0, true),
        (1, false),
        (2, true),
        (3, false),
        (511, false),
        (512, true),
        (513, false),
        (514, false),
        (65_536, false),
    ] {
        let given = matched_entries(&example_c(), &vec![1; entries]);
        let wanted = if good {
            accepted(&[0, 1, 2, 3], 0)
        } else {
            refused(LIST, 0)
        };
        assert_eq!(given, wanted, "{entries} entries");
    }
    // before a bad side, and before a clash
    assert_eq!(matched_entries(&example_c(), &[0]), refused(LIST, 0));
    assert_eq!(matched_entries(&example_c(), &[1, 2, 3]), refused(LIST, 0));
    assert_eq!(matched(&example_c(), &[(0, 9); 257]), refused(LIST, 0));
}

#[test]
fn refusal_9_address() {
    // address 7 is n - 1; 2 and 4 are a count and a pointer
    let table = words(&[
        function(1),
        argument_count(2),
        variable(1),
        pointer(5),
        constant(1),
        constant(1),
        variable(2),
    ]);
    for (side, is_node) in [
        (0, false),
        (1, true),
        (2, false),
        (3, true),
        (4, false),
        (5, true),
        (7, true),
        (8, false),
        (9, false),
        (65_535, false),
    ] {
        for pair in [(side, 7), (7, side), (side, side)] {
            let given = matched(&table, &[(5, 6), pair]);
            if is_node {
                assert_eq!(given.answer, ACCEPTED, "{pair:?}");
            } else {
                assert_eq!(given, refused(ADDRESS, 2), "{pair:?}");
            }
        }
    }
    // the lowest of several, also where an earlier pair clashes or closes a cycle
    for first in [(5, 5), (1, 5), (1, 3)] {
        let pairs = [first, (7, 7), (7, 0), (2, 2), (0, 7)];
        assert_eq!(matched(&table, &pairs), refused(ADDRESS, 3));
    }
    let mut pairs = [(1, 1); MOST_PAIRS];
    pairs[255] = (1, 0);
    assert_eq!(matched(&table, &pairs), refused(ADDRESS, 256));
    pairs[0] = (8, 1);
    assert_eq!(matched(&table, &pairs), refused(ADDRESS, 1));
    // the only address of the smallest table
    assert_eq!(matched(&[0], &[(0, 0)]), refused(ADDRESS, 1));
}

/// A clash or a cycle with pair k, for each k of 256 pairs.
#[test]
fn refusals_10_and_11_at_each_pair() {
    let table = words(&[
        function(1),
        argument_count(1),
        variable(1),
        constant(1),
        constant(2),
    ]);
    for (bad, answer) in [((4, 5), CLASH), ((1, 4), CLASH), ((1, 3), CYCLE)] {
        for k in 1..=MOST_PAIRS {
            let mut pairs = [(1, 1); MOST_PAIRS];
            pairs[k - 1] = bad;
            assert_eq!(matched(&table, &pairs), refused(answer, k));
            // nothing after the first counts, and nothing before it
            pairs[k..].fill(bad);
            assert_eq!(matched(&table, &pairs), refused(answer, k));
            assert_eq!(matched(&table, &pairs[..k]), refused(answer, k));
            assert_eq!(matched(&table, &pairs[..k - 1]).answer, ACCEPTED);
        }
    }
}

/// The pairs before k are all needed for the fault at k: a row of variables, each joined to the next,
/// from a term to one that clashes with it, or to a variable inside it.
#[test]
fn a_fault_that_needs_every_pair() {
    let mut items: Vec<u32> = (0..255).map(variable).collect();
    items.extend([function(1), argument_count(1), variable(255), constant(1)]);
    let table = words(&items);
    for (end, answer) in [(258, CYCLE), (259, CLASH)] {
        let mut pairs = vec![(256, 1)];
        pairs.extend((1..255).map(|x| (x, x + 1)));
        pairs.push((255, end));
        assert_eq!(matched(&table, &pairs), refused(answer, 256));
        pairs.pop();
        assert_eq!(matched(&table, &pairs).joins, 255);
        pairs.reverse();
        pairs.insert(0, (255, end));
        assert_eq!(matched(&table, &pairs), refused(answer, 256));
    }
}
