//! The matcher on tables that are deep, wide or shared, up to the largest. None may take long: a
//! walk that follows terms and not words would not end here.

use station_tests::large_tables::{chains, row_of_variables, towers, wide_blocks, wide_start};
use station_tests::matching::{accepted, matched, refused};
use station_tests::random::Numbers;
use station_tests::table::{
    argument_count, constant, function, pointer, variable, ACCEPTED, CLASH, CYCLE, MOST_PAIRS,
    MOST_WORDS,
};

/// Two chains whose pointers lead ahead, and the address of the second.
fn two_chains(blocks: usize, first_end: u32, second_end: u32) -> (Vec<u32>, u16) {
    let table = chains(&[first_end, second_end], blocks, true);
    (table, 3 * blocks as u16 + 1)
}

const BLOCKS: usize = (MOST_WORDS - 1) / 6;

#[test]
fn deep_chains() {
    let (table, second) = two_chains(BLOCKS, variable(1), constant(1));
    let (end, other_end) = (second - 1, 2 * second - 2);
    let mut classes: Vec<u16> = vec![0; table.len()];
    for block in (1..second).step_by(3) {
        classes[usize::from(block)] = block;
        classes[usize::from(block + second - 1)] = block;
    }
    classes[usize::from(end)] = other_end;
    classes[usize::from(other_end)] = other_end;
    let joins = BLOCKS as u16 + 1;
    assert_eq!(matched(&table, &[(1, second)]), accepted(&classes, joins));
    assert_eq!(matched(&table, &[(second, 1)]), accepted(&classes, joins));
    // the same, block by block, from the end, as far as a list goes
    let pairs: Vec<(u16, u16)> = (0..255)
        .map(|i| (second - 3 - 3 * i, 2 * second - 4 - 3 * i))
        .chain([(1, second)])
        .collect();
    assert_eq!(matched(&table, &pairs), accepted(&classes, joins));
}

#[test]
fn deep_chains_that_fail_at_the_end() {
    let (table, second) = two_chains(BLOCKS, constant(1), constant(2));
    assert_eq!(matched(&table, &[(1, second)]), refused(CLASH, 1));
    // a cycle through all blocks of both
    let (table, second) = two_chains(BLOCKS, variable(1), variable(2));
    let (end, other_end) = (second - 1, 2 * second - 2);
    let through = [(end, second), (other_end, 1)];
    assert_eq!(matched(&table, &through), refused(CYCLE, 2));
    assert_eq!(matched(&table, &through[..1]).joins, 1);
    // a chain and its own inside: the last block meets a variable, one block deeper
    assert_eq!(matched(&table, &[(1, 4)]), refused(CYCLE, 1));
    let (table, _) = two_chains(BLOCKS, constant(1), constant(1));
    assert_eq!(matched(&table, &[(1, 4)]), refused(CLASH, 1));
}

/// 257 variables in a row of 256 pairs, in three orders: one class, named by the lowest address.
#[test]
fn pairs_in_a_row() {
    let (table, mut pairs) = row_of_variables();
    let mut classes: Vec<u16> = (0..4_096).collect();
    classes[1..=257].fill(1);
    let mut numbers = Numbers::new(0x0c4a_1270);
    for _ in 0..10 {
        assert_eq!(matched(&table, &pairs), accepted(&classes, 256));
        pairs.reverse();
        assert_eq!(matched(&table, &pairs), accepted(&classes, 256));
        numbers.shuffle(&mut pairs);
    }
    // by halves, which links roots to roots
    let mut tree = Vec::new();
    for step in [1, 2, 4, 8, 16, 32, 64, 128] {
        tree.extend((1..=256).step_by(2 * step).map(|x| (x, x + step as u16)));
    }
    tree.push((257, 256));
    assert_eq!(matched(&table, &tree), accepted(&classes, 256));
}

/// Variables in all wide blocks but one.
#[test]
fn wide() {
    let (table, pairs) = wide_blocks(|block, i| {
        if block == 7 {
            constant(i)
        } else {
            variable(255 * block + i)
        }
    });
    let start = wide_start;
    let given = matched(&table, &pairs);
    assert_eq!((given.answer, given.joins), (ACCEPTED, 14 * 256));
    for block in 0..15 {
        assert_eq!(given.classes[usize::from(start(block))], 1);
        for argument in 2..257 {
            let entry = given.classes[usize::from(start(block) + argument)];
            assert_eq!(entry, start(7) + argument);
        }
    }
    // two more that differ in the last argument only
    let mut pairs = pairs;
    pairs.push((start(0) + 256, start(7) + 255));
    assert_eq!(matched(&table, &pairs), refused(CLASH, 15));
}

/// Source 000, example 3: f(g(X1,X1), .., g(Xm-1,Xm-1), Y2, .., Ym, Ym) and
/// f(X2, .., Xm, g(Y1,Y1), .., g(Ym-1,Ym-1), Xm). The answer for Xm, written out, has 2^m leaves.
fn example_3(m: usize) -> (Vec<u32>, u16) {
    let count = 2 * m - 1;
    let second = count + 3;
    let blocks = 2 * second - 1; // g(X1,X1), .., g(Y1,Y1), ..
    let block = |i: usize| (blocks + 4 * (i - 1)) as u16;
    let x = |i: usize| match i {
        1 => block(1) + 2,
        _ => (second + i) as u16,
    };
    let y = |i: usize| match i {
        1 => block(m) + 2,
        _ => (m + i) as u16,
    };
    let mut table = vec![0, function(1), argument_count(count as u16)];
    table.extend((1..m).map(|i| pointer(block(i))));
    table.extend((2..=m).map(|i| variable((m + i) as u16)));
    table.push(pointer(y(m)));
    table.extend([function(1), argument_count(count as u16)]);
    table.extend((2..=m).map(|i| variable(i as u16)));
    table.extend((1..m).map(|i| pointer(block(m - 1 + i))));
    table.push(pointer(x(m)));
    for i in 1..m {
        let first = if i == 1 { variable(1) } else { pointer(x(i)) };
        table.extend([function(2), argument_count(2), first, pointer(x(i))]);
    }
    for i in 1..m {
        let first = if i == 1 {
            variable(m as u16 + 1)
        } else {
            pointer(y(i))
        };
        table.extend([function(2), argument_count(2), first, pointer(y(i))]);
    }
    (table, second as u16)
}

#[test]
fn example_3_of_source_000() {
    for m in [2, 3, 5, 10, 20, 25, 128] {
        let (table, second) = example_3(m);
        let given = matched(&table, &[(1, second)]);
        // 4m nodes: the two terms are one class, X1 and Y1 one, and Xi, Yi and two blocks one
        let joins = 4 * m - (m + 1);
        assert_eq!((given.answer, usize::from(given.joins)), (ACCEPTED, joins));
        // the last variables are the last block of X
        let last = 2 * usize::from(second) - 1 + 4 * (m - 2);
        let (x_last, y_last) = (usize::from(second) + m, 2 * m);
        assert_eq!(usize::from(given.classes[x_last]), last);
        assert_eq!(given.classes[y_last], given.classes[x_last]);
        // X1 and Xm: each holds the other
        let first = last as u16 - 4 * (m as u16 - 2) + 2;
        let pairs = [(1, second), (first, x_last as u16)];
        assert_eq!(matched(&table, &pairs), refused(CYCLE, 2));
    }
}

/// Two towers of 500 blocks, with pointers forward or back, are matched, and a tower with its own inside.
#[test]
fn shared_towers() {
    let levels = 500;
    for forward in [true, false] {
        let table = towers(levels, forward);
        let (bottom, top) = (1, 1 + 4 * (levels as u16 - 1));
        let root = if forward { bottom } else { top };
        let inside = if forward { top } else { bottom };
        let second = 4 * levels as u16;
        let given = matched(&table, &[(root, root + second)]);
        assert_eq!((given.answer, given.joins), (ACCEPTED, levels as u16 + 1));
        assert_eq!(matched(&table, &[(root, inside)]), refused(CYCLE, 1));
        // the variable of the one is the whole of the other, and then the other way round
        let leaves = [inside + 2, inside + 2 + second];
        let pairs = [(leaves[0], root + second), (leaves[1], root)];
        assert_eq!(matched(&table, &pairs[..1]).joins, 1);
        assert_eq!(matched(&table, &pairs), refused(CYCLE, 2));
    }
}

/// A cycle with pair k of 256, in a table of the largest size: what takes the most searches.
#[test]
fn one_of_many_pairs_closes_a_deep_cycle() {
    let (mut table, second) = two_chains(BLOCKS, variable(1), variable(2));
    let end = second - 1;
    while table.len() < MOST_WORDS {
        table.push(constant(3));
    }
    for k in [1, 2, 64, 127, 128, 129, 255, 256] {
        // the chains are one by the first other pair, and pair k puts a chain's end above that end
        let mut pairs = vec![(1, second); MOST_PAIRS];
        pairs[k - 1] = (end, second + 3);
        assert_eq!(matched(&table, &pairs), refused(CYCLE, k.max(2)));
    }
}
