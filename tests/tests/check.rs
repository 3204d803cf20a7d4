//! The table check: each refusal at its edge and one past it, the traps, and the lent buffers.

use station_tests::checking::checked_on;
use station_tests::table::{
    argument_count, constant, function, pointer, variable, words, ACCEPTED, LAYOUT, LOOP,
    MOST_WORDS, NAME, POINTER, ROOM, SIZE, WORD,
};

/// What stood in a buffer before: no entry of it may count.
const OLD: u16 = 0xabcd;

/// The answer and place for a table with buffers just long enough, full of old contents; and that
/// the buffers are left as document 01 says.
fn check(table: &[u32]) -> (u16, u16) {
    check_with(table, table.len(), 4 * table.len())
}

fn check_with(table: &[u32], class_room: usize, work_room: usize) -> (u16, u16) {
    let mut class = vec![OLD; class_room];
    let mut work = vec![OLD; work_room];
    checked_on(table, &mut class, &mut work)
}

#[test]
fn sizes() {
    assert_eq!(check(&[]), (SIZE, 0));
    assert_eq!(check(&[0]), (ACCEPTED, 0));
    let mut table: Vec<u32> = words(&vec![constant(7); MOST_WORDS - 1]);
    assert_eq!(check(&table), (ACCEPTED, 0));
    table.push(constant(7));
    assert_eq!(check(&table), (SIZE, 0));
}

#[test]
fn room() {
    let table = words(&[constant(1), variable(1)]);
    let n = table.len();
    assert_eq!(check_with(&table, n, 4 * n), (ACCEPTED, 0));
    assert_eq!(check_with(&table, n + 1, 4 * n + 1), (ACCEPTED, 0));
    assert_eq!(check_with(&table, n - 1, 4 * n), (ROOM, 0));
    assert_eq!(check_with(&table, n, 4 * n - 1), (ROOM, 0));
    assert_eq!(check_with(&table, 0, 0), (ROOM, 0));
    // size is looked at first, and room before the words
    assert_eq!(check_with(&[], 0, 0), (SIZE, 0));
    assert_eq!(check_with(&[1], 0, 4), (ROOM, 0));
}

#[test]
fn bad_words() {
    assert_eq!(check(&[1]), (WORD, 0));
    assert_eq!(check(&[variable(0)]), (WORD, 0));
    assert_eq!(check(&words(&[0])), (WORD, 1));
    assert_eq!(check(&words(&[constant(1), 0, 0])), (WORD, 2));
    for high in 21..32 {
        assert_eq!(check(&words(&[variable(1) | 1 << high])), (WORD, 1));
    }
    for tag in 0..32 {
        let word = tag << 16 | 1;
        let known = [16, 18, 19, 20, 24].contains(&tag);
        assert_eq!(check(&words(&[word])).0 == WORD, !known, "tag {tag}");
    }
}

/// Counts 0, 255 and 256, in a block and where no count can stand.
#[test]
fn counts() {
    let block = |k: u16| {
        let mut items = vec![function(1), argument_count(k)];
        items.extend(vec![constant(1); usize::from(k)]);
        words(&items)
    };
    assert_eq!(check(&block(1)), (ACCEPTED, 0));
    assert_eq!(check(&block(255)), (ACCEPTED, 0));
    assert_eq!(check(&block(0)), (WORD, 2));
    assert_eq!(check(&block(256)), (WORD, 2));
    assert_eq!(check(&words(&[argument_count(0)])), (WORD, 1));
    assert_eq!(check(&words(&[argument_count(256)])), (WORD, 1));
    assert_eq!(check(&words(&[argument_count(255)])), (LAYOUT, 1));
    // the word fault wins over the layout fault before it
    assert_eq!(check(&words(&[argument_count(1), 0])), (WORD, 2));
}

#[test]
fn layout() {
    // a function as the last word, and a block one word short: n
    assert_eq!(check(&words(&[function(1)])), (LAYOUT, 2));
    assert_eq!(
        check(&words(&[function(1), argument_count(1)])),
        (LAYOUT, 3)
    );
    assert_eq!(
        check(&words(&[function(1), argument_count(2), constant(1)])),
        (LAYOUT, 4)
    );
    assert_eq!(
        check(&words(&[function(1), argument_count(1), constant(1)])),
        (ACCEPTED, 0)
    );
    // a function followed by no count
    assert_eq!(check(&words(&[function(1), variable(1)])), (LAYOUT, 2));
    assert_eq!(check(&words(&[function(1), function(1)])), (LAYOUT, 2));
    // an argument that is a function or a count; a bad one wins over a block that runs past the end
    assert_eq!(
        check(&words(&[function(1), argument_count(3), function(1)])),
        (LAYOUT, 3)
    );
    assert_eq!(
        check(&words(&[function(1), argument_count(1), argument_count(1)])),
        (LAYOUT, 3)
    );
    // a pointer that is no argument
    assert_eq!(check(&words(&[constant(1), pointer(1)])), (LAYOUT, 2));
    // an item after the block
    assert_eq!(
        check(&words(&[
            function(1),
            argument_count(1),
            constant(1),
            constant(2)
        ])),
        (ACCEPTED, 0)
    );
    assert_eq!(
        check(&words(&[
            function(1),
            argument_count(1),
            constant(1),
            pointer(3)
        ])),
        (LAYOUT, 4)
    );
}

#[test]
fn pointers() {
    let to = |address: u16| {
        words(&[
            function(1),
            argument_count(1),
            pointer(address),
            constant(1),
        ])
    };
    assert_eq!(check(&to(4)), (ACCEPTED, 0)); // forward
    assert_eq!(check(&to(0)), (POINTER, 3));
    assert_eq!(check(&to(2)), (POINTER, 3)); // a count
    assert_eq!(check(&to(3)), (POINTER, 3)); // itself
    assert_eq!(check(&to(5)), (POINTER, 3)); // n
    assert_eq!(check(&to(6)), (POINTER, 3));
    assert_eq!(check(&to(65_535)), (POINTER, 3));
    // to a pointer; the lowest bad pointer is named
    let table = words(&[
        function(1),
        argument_count(3),
        pointer(4),
        pointer(3),
        pointer(0),
    ]);
    assert_eq!(check(&table), (POINTER, 3));
    // to a variable and a constant inside a block
    let table = words(&[
        function(1),
        argument_count(2),
        variable(1),
        constant(2),
        function(2),
        argument_count(2),
        pointer(3),
        pointer(4),
    ]);
    assert_eq!(check(&table), (ACCEPTED, 0));
}

#[test]
fn names() {
    assert_eq!(check(&words(&[variable(1), variable(2)])), (ACCEPTED, 0));
    assert_eq!(check(&words(&[variable(1), variable(1)])), (NAME, 2));
    // document 02, E1: each variable of label 0 is a different one
    assert_eq!(check(&words(&[variable(0), variable(0)])), (ACCEPTED, 0));
    assert_eq!(
        check(&words(&[variable(65_535), variable(65_535)])),
        (NAME, 2)
    );
    // the lowest later address, and not the earlier one
    assert_eq!(
        check(&words(&[
            variable(1),
            variable(2),
            variable(3),
            variable(2),
            variable(1)
        ])),
        (NAME, 4)
    );
    // variable labels are a name space of their own
    assert_eq!(
        check(&words(&[
            variable(1),
            constant(1),
            function(1),
            argument_count(1),
            variable(2)
        ])),
        (ACCEPTED, 0)
    );
    // inside blocks too
    assert_eq!(
        check(&words(&[
            variable(1),
            function(1),
            argument_count(1),
            variable(1)
        ])),
        (NAME, 4)
    );
    // an address is no label: variable 1 at address 2 and variable 2 at address 1
    assert_eq!(check(&words(&[variable(2), variable(1)])), (ACCEPTED, 0));
}

/// The entry where the chain of a label begins (`start_of`).
fn start_of(label: usize, chains: usize) -> usize {
    label * 40_503 % 65_536 * chains / 65_536
}

/// Labels that agree in the entry where their chain begins, without and with one that repeats. Label 0 is in
/// no chain (document 02, E1), so unnamed variables between them do not hide it.
#[test]
fn names_of_one_chain() {
    for n in [2_usize, 3, 5, 148, 1_000, MOST_WORDS] {
        let chains = 3 * n;
        let (in_chain, others): (Vec<usize>, Vec<usize>) =
            (1..65_536).partition(|&label| start_of(label, chains) == 0);
        assert!(in_chain.len() <= 65_536 / chains + 1, "n {n}");
        // different labels in other chains up to n words
        let labels = in_chain.iter().chain(&others).take(n - 1);
        let mut table = vec![0_u32];
        table.extend(labels.map(|&label| variable(label as u16)));
        assert_eq!(check(&table), (ACCEPTED, 0), "n {n}");
        let last = n - 1;
        if last > 1 {
            table[last] = table[1];
            assert_eq!(check(&table), (NAME, last as u16), "n {n}");
            table[2..last].fill(variable(0));
            assert_eq!(check(&table), (NAME, last as u16), "n {n}");
            table[1] = variable(0);
            assert_eq!(check(&table), (ACCEPTED, 0), "n {n}");
        }
    }
}

#[test]
fn loops() {
    assert_eq!(
        check(&words(&[function(1), argument_count(1), pointer(1)])),
        (LOOP, 0)
    );
    let two = words(&[
        function(1),
        argument_count(1),
        pointer(4),
        function(1),
        argument_count(1),
        pointer(1),
    ]);
    assert_eq!(check(&two), (LOOP, 0));
    // the second child closes the loop, the first is shared and does not
    let table = words(&[
        function(1),
        argument_count(2),
        pointer(5),
        pointer(5),
        function(2),
        argument_count(2),
        constant(1),
        pointer(1),
    ]);
    assert_eq!(check(&table), (LOOP, 0));
    // shared and not looping: two pointers of one function to one node
    let table = words(&[
        function(1),
        argument_count(2),
        pointer(5),
        pointer(5),
        function(2),
        argument_count(1),
        variable(1),
    ]);
    assert_eq!(check(&table), (ACCEPTED, 0));
    // a name that repeats is found before the loop
    let table = words(&[
        function(1),
        argument_count(3),
        pointer(1),
        variable(1),
        variable(1),
    ]);
    assert_eq!(check(&table), (NAME, 5));
}

/// A chain of blocks as deep as a table can be, open and then closed into one loop.
#[test]
fn deep_chain() {
    let blocks = (MOST_WORDS - 1) / 3;
    let mut table = vec![0];
    for block in 0..blocks {
        let next = 3 * (block + 1) + 1;
        table.extend([function(1), argument_count(1), pointer(next as u16)]);
    }
    let last = table.len() - 1;
    table[last] = constant(1);
    assert_eq!(check(&table), (ACCEPTED, 0));
    table[last] = pointer(1);
    assert_eq!(check(&table), (LOOP, 0));
}

/// The most comparisons of labels that a table of n words can take. A chain holds labels that begin at
/// one of 3n entries, and all differ until one repeats; so it is worst to fill chain after chain, and
/// to repeat a label of a full chain at the end.
#[test]
fn no_table_takes_11_000_comparisons() {
    let worst = (2..=MOST_WORDS)
        .map(|n| {
            let longest = (65_536 + 3 * n - 1) / (3 * n);
            // each variable is compared with all that stand in its chain before it
            let of_different = |variables: usize| {
                let (full, left) = (variables / longest, variables % longest);
                full * longest * (longest - 1) / 2 + left * left.saturating_sub(1) / 2
            };
            let repeated = of_different(n - 2) + longest.min(n - 2);
            repeated.max(of_different(n - 1))
        })
        .max();
    println!("at most {worst:?} comparisons of labels");
    assert!(worst < Some(11_000));
}
