//! Words and numbers as document 01 writes them, and document 02, E1, for tests to build tables from.

pub const ACCEPTED: u16 = 0;
pub const SIZE: u16 = 1;
pub const ROOM: u16 = 2;
pub const WORD: u16 = 3;
pub const LAYOUT: u16 = 4;
pub const POINTER: u16 = 5;
pub const NAME: u16 = 6;
pub const LOOP: u16 = 7;
pub const LIST: u16 = 8;
pub const ADDRESS: u16 = 9;
pub const CLASH: u16 = 10;
pub const CYCLE: u16 = 11;

pub const MOST_WORDS: usize = 4_096;
pub const MOST_PAIRS: usize = 256;

/// A table whose words behind word 0 are these.
pub fn words(items: &[u32]) -> Vec<u32> {
    let mut table = vec![0];
    table.extend_from_slice(items);
    table
}

/// A word is tag x 65,536 + content.
fn word(tag: u32, content: u16) -> u32 {
    tag << 16 | u32::from(content)
}

pub fn variable(label: u16) -> u32 {
    word(0b10000, label)
}

/// Document 02, E1: the variable that ISO Prolog spells as a bare underscore. Every one is a different variable.
pub const UNNAMED: u32 = 0b10000 << 16;

pub fn constant(label: u16) -> u32 {
    word(0b10010, label)
}

pub fn function(label: u16) -> u32 {
    word(0b10011, label)
}

pub fn pointer(address: u16) -> u32 {
    word(0b10100, address)
}

pub fn argument_count(count: u16) -> u32 {
    word(0b11000, count)
}

/// The block of a function of label 1 with these arguments.
pub fn block_of(arguments: &[u32]) -> Vec<u32> {
    let mut items = vec![function(1), argument_count(arguments.len() as u16)];
    items.extend(arguments);
    items
}

/// A table of variables with these labels.
pub fn variables(labels: &[u16]) -> Vec<u32> {
    let items: Vec<u32> = labels.iter().map(|&label| variable(label)).collect();
    words(&items)
}
