//! Calls of the station for tests/c/every_call.c, each with what must come back: the result and every byte
//! of the memory that the lent rows stand in.

pub mod corpus;

use crate::independent::seen::Entry;
use crate::independent::wanted;
use crate::random::Numbers;

/// So many bytes at least stand before, between and behind the rows of a call, unless it says otherwise.
const GUARDS: usize = 32;

/// One call, as the program reads it and as it must answer.
pub struct Call {
    pub entry: Entry,
    pub asked: Vec<u8>,
    pub answered: Vec<u8>,
}

impl Call {
    /// The answer that the call must give.
    pub fn answer(&self) -> u16 {
        u16::from_le_bytes([self.answered[0], self.answered[1]])
    }
}

/// A memory in which rows are laid out, and what it must be afterwards.
struct Memory<'a> {
    numbers: &'a mut Numbers,
    before: Vec<u8>,
    after: Vec<u8>,
    /// Where each row begins, and how many entries it has.
    rows: Vec<(usize, usize)>,
}

fn bytes_of<T: Copy + Into<u64>>(row: &[T], size: usize) -> Vec<u8> {
    let bytes = |&entry: &T| entry.into().to_le_bytes().into_iter().take(size);
    row.iter().flat_map(bytes).collect()
}

impl<'a> Memory<'a> {
    fn new(numbers: &'a mut Numbers) -> Memory<'a> {
        Memory {
            numbers,
            before: Vec::new(),
            after: Vec::new(),
            rows: Vec::new(),
        }
    }

    fn extend(&mut self, bytes: &[u8]) {
        self.before.extend(bytes);
        self.after.extend(bytes);
    }

    /// Bytes between rows, such that the next may begin at any address that its entries may have.
    fn guards(&mut self, size: usize) {
        let mut count = GUARDS + self.numbers.below(16);
        count += (size - (self.before.len() + count) % size) % size;
        let bytes = self.numbers.bytes(count);
        self.extend(&bytes);
    }

    /// A row that is read, with entries of `size` bytes.
    fn read<T: Copy + Into<u64>>(&mut self, row: &[T], size: usize) {
        self.guards(size);
        self.rows.push((self.before.len(), row.len()));
        self.extend(&bytes_of(row, size));
    }

    /// A row that is lent right behind what stands there now. It must begin so afterwards, and be as it was
    /// behind that.
    fn lent_behind<T: Copy + Into<u64>>(&mut self, length: usize, left: &[T], size: usize) {
        let at = self.before.len();
        self.rows.push((at, length));
        let old = self.numbers.bytes(length * size);
        self.extend(&old);
        let left = bytes_of(left, size);
        self.after[at..at + left.len()].copy_from_slice(&left);
    }

    fn lent<T: Copy + Into<u64>>(&mut self, length: usize, left: &[T], size: usize) {
        self.guards(size);
        self.lent_behind(length, left, size);
    }

    fn call(mut self, entry: Entry, job: u32, result: u64) -> Call {
        self.guards(1);
        self.rows.resize(4, (0, 0));
        let letter = match entry {
            Entry::Lent => b'l',
            Entry::Check => b'c',
            Entry::Match => b'm',
            Entry::Write => b'w',
            Entry::Read => b'r',
        };
        let mut header = vec![u32::from(letter), job, self.before.len() as u32];
        header.extend(self.rows.iter().map(|row| row.0 as u32));
        header.extend(self.rows.iter().map(|row| row.1 as u32));
        let mut asked = bytes_of(&header, 4);
        asked.extend(self.before);
        let mut answered = result.to_le_bytes().to_vec();
        answered.extend(self.after);
        Call {
            entry,
            asked,
            answered,
        }
    }
}

pub fn lent(numbers: &mut Numbers, table: &[u32], list: &[u16], rooms: [usize; 2]) -> Call {
    let (result, left) = wanted::of_lent(table, list, rooms[0], rooms[1]);
    let mut memory = Memory::new(numbers);
    memory.read(table, 4);
    memory.read(list, 2);
    memory.lent(rooms[0], &left[0], 2);
    memory.lent(rooms[1], &left[1], 2);
    memory.call(Entry::Lent, 0, result)
}

pub fn check(numbers: &mut Numbers, table: &[u32], rooms: [usize; 2]) -> Call {
    let (result, left) = wanted::of_check(table, rooms[0], rooms[1]);
    let mut memory = Memory::new(numbers);
    memory.read(table, 4);
    memory.lent(rooms[0], &left[0], 2);
    memory.lent(rooms[1], &left[1], 2);
    memory.call(Entry::Check, 0, result)
}

pub fn match_job(numbers: &mut Numbers, file: &[u8], job: u32, room: usize) -> Call {
    let (result, left) = wanted::of_match(file, job, room);
    let mut memory = Memory::new(numbers);
    memory.read(file, 1);
    memory.lent(room, &left, 1);
    memory.call(Entry::Match, job, result)
}

pub fn write(numbers: &mut Numbers, sizes: &[u16], bodies: &[u8], room: usize) -> Call {
    let (result, left) = wanted::of_write(sizes, bodies, room);
    let mut memory = Memory::new(numbers);
    memory.read(sizes, 2);
    memory.read(bodies, 1);
    memory.lent(room, &left, 1);
    memory.call(Entry::Write, 0, result)
}

/// The same with the room right behind the bodies: near, and not overlapping.
pub fn write_behind(numbers: &mut Numbers, sizes: &[u16], bodies: &[u8], room: usize) -> Call {
    let (result, left) = wanted::of_write(sizes, bodies, room);
    let mut memory = Memory::new(numbers);
    memory.read(sizes, 2);
    memory.read(bodies, 1);
    memory.lent_behind(room, &left, 1);
    memory.call(Entry::Write, 0, result)
}

pub fn read(numbers: &mut Numbers, file: &[u8], room: usize) -> Call {
    let (result, left) = wanted::of_read(file, room);
    let mut memory = Memory::new(numbers);
    memory.read(file, 1);
    memory.lent(room, &left, 2);
    memory.call(Entry::Read, 0, result)
}
