//! Words and meetings, against document 01's tables as it prints them: what a word is shows by what the
//! station answers where the word stands in a table, what a meeting comes to by the answer to one pair.

use station_tests::matching::{matched, refused};
use station_tests::random::Numbers;
use station_tests::station;
use station_tests::table::{
    argument_count, constant, function, pointer, variable, words, ACCEPTED, ADDRESS, CLASH, CYCLE,
    LAYOUT, LOOP, MOST_WORDS, NAME, POINTER, WORD,
};

#[derive(Clone, Copy, Debug, PartialEq)]
enum Kind {
    Variable,
    Constant,
    Function,
    Pointer,
    Count,
    NoWord,
}

/// The table of tags as document 01 prints it.
const TAGS: [(&str, Kind); 5] = [
    ("10000", Kind::Variable),
    ("10010", Kind::Constant),
    ("10011", Kind::Function),
    ("10100", Kind::Pointer),
    ("11000", Kind::Count),
];

/// The kind of a number and its content, read off its 32 binary digits: 11 zeros, a tag, and 16 digits of
/// content. A count is 1 to 255.
fn read(word: u32) -> (Kind, u16) {
    let digits = format!("{word:032b}");
    let content = u16::from_str_radix(&digits[16..], 2).expect("16 binary digits");
    let tag = TAGS.iter().find(|(tag, _)| *tag == &digits[11..16]);
    match tag {
        _ if digits[..11].contains('1') => (Kind::NoWord, content),
        Some((_, Kind::Count)) if !(1..=255).contains(&content) => (Kind::NoWord, content),
        Some((_, kind)) => (*kind, content),
        None => (Kind::NoWord, content),
    }
}

type Answer = (u16, u16);

/// The answer and place of the table check.
fn checked(table: &[u32]) -> Answer {
    let (mut class, mut work) = ([0; 8], [0; 32]);
    let (answer, place, _) = station::check(table, &mut class, &mut work);
    (answer, place)
}

const GOOD: Answer = (ACCEPTED, 0);

/// That the station takes a number for the word that its digits say, wherever it may stand.
fn assert_word(word: u32) {
    let (kind, content) = read(word);
    let zero = if word == 0 { GOOD } else { (WORD, 0) };
    assert_eq!(checked(&[word]), zero, "word 0: {word:#010x}");

    let as_item = match kind {
        Kind::Variable | Kind::Constant => GOOD,
        Kind::Function => (LAYOUT, 2),
        Kind::Pointer | Kind::Count => (LAYOUT, 1),
        Kind::NoWord => (WORD, 1),
    };
    assert_eq!(checked(&[0, word]), as_item, "item {word:#010x}");

    let as_count = match kind {
        Kind::Count if content == 1 => GOOD,
        Kind::Count => (LAYOUT, 4),
        Kind::NoWord => (WORD, 2),
        _ => (LAYOUT, 2),
    };
    let block = [0, function(1), word, constant(1)];
    assert_eq!(checked(&block), as_count, "count {word:#010x}");

    let as_argument = match kind {
        Kind::Variable | Kind::Constant => GOOD,
        Kind::Pointer if content == 1 => (LOOP, 0),
        Kind::Pointer => (POINTER, 3),
        Kind::Function | Kind::Count => (LAYOUT, 3),
        Kind::NoWord => (WORD, 3),
    };
    let block = [0, function(1), argument_count(1), word];
    assert_eq!(checked(&block), as_argument, "argument {word:#010x}");

    // a variable's label stands once, but for 0 (document 02, E1), and a constant's as often as it likes
    let as_label = match kind {
        Kind::Variable if content == 0 => GOOD,
        Kind::Variable => (NAME, 2),
        Kind::Constant => GOOD,
        _ => return,
    };
    let both = [0, word, variable(content)];
    assert_eq!(checked(&both), as_label, "label {word:#010x}");
}

#[test]
fn every_number_of_21_bits() {
    (0..1 << 21).for_each(assert_word);
}

#[test]
fn a_million_numbers_of_32_bits() {
    let mut numbers = Numbers::new(0x5eed_0000_0000_0001);
    for _ in 0..1_000_000 {
        assert_word(numbers.number());
    }
}

/// Each word of the table of tags, with each of the 11 high bits set in turn.
#[test]
fn one_high_bit_spoils_a_word() {
    for (tag, kind) in TAGS {
        let word = u32::from_str_radix(tag, 2).unwrap() << 16 | 7;
        assert_eq!(read(word), (kind, 7));
        assert_ne!(checked(&[0, word]).0, WORD);
        for bit in 21..32 {
            assert_eq!(checked(&[0, word | 1 << bit]), (WORD, 1));
        }
    }
}

// ---- contents

/// The answer to one pair, in a small table.
fn met(table: &[u32], left: u16, right: u16) -> u16 {
    let (mut class, mut work) = ([0; 8], [0; 32]);
    station::match_lent(table, &[left, right], &mut class, &mut work).0
}

/// Each label by itself, and with each of its bits the other way. Document 02, E1: of variables, 0 is the one
/// label that two may have.
#[test]
fn all_bits_of_a_label_count() {
    for label in 0..=65_535u16 {
        let others = (0..16).map(|bit| label ^ 1 << bit);
        for (other, same) in others.map(|other| (other, false)).chain([(label, true)]) {
            let by_name = if same && label != 0 { (NAME, 2) } else { GOOD };
            assert_eq!(checked(&[0, variable(label), variable(other)]), by_name);
            let by_symbol = if same { ACCEPTED } else { CLASH };
            let constants = [0, constant(label), constant(other)];
            assert_eq!(met(&constants, 1, 2), by_symbol);
            let block = |label| [function(label), argument_count(1), constant(1)];
            let [a, b, c] = block(label);
            let [d, e, f] = block(other);
            assert_eq!(met(&[0, a, b, c, d, e, f], 1, 4), by_symbol);
        }
    }
}

/// An argument that is a pointer stands for the node at its address: a variable that meets it is bound to
/// that. Every address that a pointer can hold, in a table as long as can be.
#[test]
fn all_bits_of_an_address_count() {
    let mut table = words(&[function(1), argument_count(1), 0]);
    table.extend([function(1), argument_count(1), variable(1)]);
    let first = table.len();
    table.extend((first..MOST_WORDS).map(|address| constant(address as u16)));
    let (mut class, mut work) = (vec![0; MOST_WORDS], vec![0; 4 * MOST_WORDS]);
    for address in 0..=65_535u16 {
        table[3] = pointer(address);
        let (answer, place, _) = station::match_lent(&table, &[1, 4], &mut class, &mut work);
        let wanted = match usize::from(address) {
            1 => (LOOP, 0, 0),
            4 => (CYCLE, 1, 0),
            6 => (ACCEPTED, 0, address),
            named if (first..MOST_WORDS).contains(&named) => (ACCEPTED, 0, address),
            _ => (POINTER, 3, 0),
        };
        assert_eq!((answer, place, class[6]), wanted, "pointer to {address}");
    }
}

/// A block has as many arguments as its count says: what stands behind them is an item again, and no pointer
/// may be one.
#[test]
fn all_counts() {
    for count in 1..=255u16 {
        let mut items = vec![function(1), argument_count(count)];
        items.extend(vec![constant(1); usize::from(count)]);
        assert_eq!(matched(&words(&items), &[]).answer, ACCEPTED);
        items.push(pointer(3));
        let behind = refused(LAYOUT, 3 + usize::from(count));
        assert_eq!(matched(&words(&items), &[]), behind);
        items.truncate(1 + usize::from(count));
        let past_the_end = refused(LAYOUT, 2 + usize::from(count));
        assert_eq!(matched(&words(&items), &[]), past_the_end);
    }
}

// ---- meetings

#[derive(Clone, Copy, Debug, PartialEq)]
enum Head {
    Variable,
    Constant(u16),
    Function(u16, u16),
}

impl Head {
    /// The items of a node with this head. Variables have labels of their own, from a first one on.
    fn items(self, own: u16) -> Vec<u32> {
        match self {
            Head::Variable => vec![variable(own)],
            Head::Constant(label) => vec![constant(label)],
            Head::Function(label, count) => {
                let mut items = vec![function(label), argument_count(count)];
                items.extend((own..own + count).map(variable));
                items
            }
        }
    }
}

/// What two heads come to: joined, joined and their children too, or a clash. The joins, or nothing.
fn meeting(left: Head, right: Head) -> Option<u16> {
    match (left, right) {
        (Head::Variable, _) | (_, Head::Variable) => Some(1),
        (one, other) if one != other => None,
        (Head::Function(_, count), _) => Some(1 + count),
        _ => Some(1),
    }
}

/// That a pair of nodes with these heads is answered by the table of meetings: which nodes are in one class
/// then, by their entries.
fn assert_meeting(left: Head, right: Head) {
    let (one, other) = (left.items(1), right.items(1_000));
    let second = 1 + one.len() as u16;
    let table = words(&[&one[..], &other[..]].concat());
    let given = matched(&table, &[(1, second)]);
    let told = format!("{left:?} and {right:?}");
    let joins = match meeting(left, right) {
        None => return assert_eq!(given, refused(CLASH, 1), "{told}"),
        Some(joins) => joins,
    };
    assert_eq!((given.answer, given.joins), (ACCEPTED, joins), "{told}");
    let name = if left == Head::Variable { second } else { 1 };
    let name = if right == Head::Variable { 1 } else { name };
    for node in [1, second] {
        assert_eq!(given.classes[usize::from(node)], name, "{told}");
    }
    // the left arguments are in front, so they name what they are joined with
    for argument in 3..=one.len() {
        assert_eq!(given.classes[argument], argument as u16, "{told}");
        if joins > 1 {
            let other = usize::from(second) + argument - 1;
            assert_eq!(given.classes[other], argument as u16, "{told}");
        }
    }
}

/// All nine, with labels and counts that agree and that differ.
#[test]
fn meetings_of_all_kinds() {
    let labels = [0, 1, 2, 5, 255, 256, 65_535];
    let counts = [1, 2, 5, 254, 255];
    let mut heads = vec![Head::Variable];
    heads.extend(labels.map(Head::Constant));
    heads.extend(
        labels
            .iter()
            .flat_map(|&label| counts.map(|count| Head::Function(label, count))),
    );
    for &left in &heads {
        for &right in &heads {
            assert_meeting(left, right);
        }
    }
}

/// A word of another kind has no meeting: it is no side of a pair.
#[test]
fn a_side_is_a_node() {
    let table = words(&[
        function(1),
        argument_count(2),
        pointer(5),
        constant(1),
        variable(1),
    ]);
    for node in [1, 4, 5] {
        assert_ne!(matched(&table, &[(node, 4)]).answer, ADDRESS);
        for none in [0, 2, 3, 6, 4_095, 65_535] {
            assert_eq!(matched(&table, &[(node, none)]), refused(ADDRESS, 1));
            assert_eq!(matched(&table, &[(none, node)]), refused(ADDRESS, 1));
        }
    }
}

/// "taking constant 5 for function 5", and "comparing labels and not counts".
#[test]
fn errors_this_trade_makes() {
    let met = |left: Head, right: Head| {
        assert_meeting(left, right);
        meeting(left, right).is_some()
    };
    assert!(!met(Head::Constant(5), Head::Function(5, 1)));
    assert!(!met(Head::Function(5, 1), Head::Function(5, 2)));
    assert!(met(Head::Constant(5), Head::Constant(5)));
    assert!(met(Head::Function(5, 1), Head::Function(5, 1)));
}
