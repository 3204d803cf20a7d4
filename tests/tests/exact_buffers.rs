//! The station's entries called from C on blocks of memory that are exactly as long as lent and that
//! nobody set, under valgrind and with the compiler's address sanitizer. What they give is compared with
//! the independent judge's.
//!
//! The library is machine code without the sanitizer's tests, so the sanitizer sees the host's side and
//! the copies that it makes; valgrind sees every read and write.

use station_tests::independent::jobs::job;
use station_tests::independent::wanted::{self, OnBuffers};
use station_tests::jobs::{bodies_of, examples, file_from, in_pairs, sizes_of, Job};
use station_tests::matching::constants;
use station_tests::programs::{built_with_station, printed_for, valgrind};
use station_tests::random::Numbers;
use station_tests::requests::{put, put_row};
use station_tests::table::{variables, MOST_WORDS};
use std::fmt::Display;
use std::process::Command;

const SEED: u64 = 0x0eac_7b0f;
const JOBS: u64 = 150;
const SOURCE: &str = "tests/c/exact_buffers.c";

/// Requests, and the lines that they must be answered by.
#[derive(Default)]
struct Talk {
    asked: String,
    wanted: String,
}

impl Talk {
    /// The lengths of the rooms, and how each of them must begin.
    fn rooms<T: Display>(&mut self, result: u64, lent: &[(usize, &[T])]) {
        self.wanted.push_str(&result.to_string());
        for (length, _) in lent {
            put(&mut self.asked, &[length]);
        }
        for (_, left) in lent {
            put(&mut self.asked, &[left.len()]);
            put(&mut self.wanted, left);
        }
        self.asked.push('\n');
        self.wanted.push('\n');
    }

    fn on_lent(&mut self, rooms: [usize; 2], (result, left): OnBuffers) {
        let [class, work] = left;
        self.rooms(result, &[(rooms[0], &class[..]), (rooms[1], &work[..])]);
    }

    fn lent(&mut self, (table, list): &Job, class_room: usize, work_room: usize) {
        self.asked.push('l');
        put_row(&mut self.asked, table);
        put_row(&mut self.asked, list);
        let wanted = wanted::of_lent(table, list, class_room, work_room);
        self.on_lent([class_room, work_room], wanted);
    }

    fn check(&mut self, table: &[u32], class_room: usize, work_room: usize) {
        self.asked.push('c');
        put_row(&mut self.asked, table);
        let wanted = wanted::of_check(table, class_room, work_room);
        self.on_lent([class_room, work_room], wanted);
    }

    fn job_of_file(&mut self, file: &[u8], job: u32, room: usize) {
        self.asked.push('m');
        put_row(&mut self.asked, file);
        put(&mut self.asked, &[job]);
        let (answer, report) = wanted::of_match(file, job, room);
        self.rooms(answer, &[(room, &report)]);
    }

    fn write(&mut self, sizes: &[u16], bodies: &[u8], room: usize) {
        self.asked.push('w');
        put_row(&mut self.asked, sizes);
        put_row(&mut self.asked, bodies);
        let (answer, file) = wanted::of_write(sizes, bodies, room);
        self.rooms(answer, &[(room, &file)]);
    }

    fn read(&mut self, file: &[u8], room: usize) {
        self.asked.push('r');
        put_row(&mut self.asked, file);
        let (result, sizes) = wanted::of_read(file, room);
        self.rooms(result, &[(room, &sizes)]);
    }

    /// A job through all entries: on just enough room, on room that is short by one, and on none.
    fn job(&mut self, job: &Job) {
        let n = job.0.len();
        for short in [0, 1, n] {
            let class_room = n.saturating_sub(short);
            self.lent(job, class_room, 4 * n);
            self.check(&job.0, class_room, 4 * n);
        }
        self.lent(job, n, (4 * n).saturating_sub(1));
        self.check(&job.0, n, (4 * n).saturating_sub(1));

        let jobs = [examples()[0].clone(), in_pairs(job.clone())];
        let (sizes, bodies) = (sizes_of(&jobs), bodies_of(&jobs));
        let file = file_from(&sizes, &bodies);
        for room in [6 + 2 * n, 5 + 2 * n, 5, 0] {
            self.job_of_file(&file, 2, room);
        }
        self.job_of_file(&file, 1, 6 + 2 * 17);
        self.job_of_file(&file, 3, 0);
        for end in [0, 1, 2, 13, 14, 15, file.len() - 1] {
            self.job_of_file(&file[..end], 2, 6 + 2 * n);
            self.read(&file[..end], 4);
        }
        for room in [4, 3, 0] {
            self.read(&file, room);
        }
        for room in [file.len(), file.len() - 1, 0] {
            self.write(&sizes, &bodies, room);
        }
        self.write(&sizes[..3], &bodies, file.len());
        self.write(&sizes, &bodies[1..], file.len());
        self.write(&[], &[], 0);
    }
}

fn talk() -> Talk {
    let mut talk = Talk::default();
    for part in 0..JOBS {
        let made = job(&mut Numbers::of_part(SEED, part));
        // A larger one takes long under valgrind.
        if made.table.len() < 300 {
            talk.job(&(made.table, made.list));
        }
    }
    talk.job(&(vec![], vec![]));
    // document 02, E1: unnamed variables, and another label that repeats between them
    talk.job(&(variables(&[0, 5, 0, 7, 0]), vec![3, 1, 5, 4]));
    talk.job(&(variables(&[0, 5, 0, 5, 0]), vec![3, 1]));
    // a pair too many
    talk.job(&(constants(3), [1, 2].repeat(257)));
    for n in [MOST_WORDS, MOST_WORDS + 1] {
        talk.lent(&(constants(n), [1, 2].repeat(256)), n, 4 * n);
        talk.check(&constants(n), n, 4 * n);
    }
    let answer = |line: &str| {
        let number = line.split(' ').next().unwrap_or("").parse::<u64>();
        (number.expect("a result") & 65_535) as usize
    };
    let mut answers = [0; 16];
    talk.wanted
        .lines()
        .for_each(|line| answers[answer(line)] += 1);
    println!("answers 0 to 15: {answers:?}");
    assert!(answers.iter().all(|&times| times > 0));
    talk
}

#[test]
fn under_valgrind() {
    let program = built_with_station("gcc", &["-O2", "-std=c11", "-g"], SOURCE, "exact-valgrind");
    let talk = talk();
    assert_eq!(
        printed_for(valgrind().arg(program), &talk.asked),
        talk.wanted
    );
}

#[test]
fn with_the_address_sanitizer() {
    let options = ["-O2", "-std=c11", "-g", "-fsanitize=address,undefined"];
    let program = built_with_station("gcc", &options, SOURCE, "exact-sanitizer");
    let talk = talk();
    assert_eq!(
        printed_for(&mut Command::new(program), &talk.asked),
        talk.wanted
    );
}
