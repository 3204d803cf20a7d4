//! The job file: each refusal of the reader and of the writer at its edge and one past it, the places,
//! files read and written again, and a comparison with a second reader on many damaged files.

use station_tests::independent::host::report;
use station_tests::independent::jobfile::{fault, job_of, number, sizes};
use station_tests::jobs::{
    bodies_of, examples, file_of, sizes_of, Job, BODY, CONTENTS, FILE, MOST_BYTES, MOST_JOBS,
};
use station_tests::matching::{constants, matched_entries};
use station_tests::programs::written_by;
use station_tests::station::{match_job, read, write, JOB};
use station_tests::table::{ACCEPTED as GOOD, MOST_PAIRS, MOST_WORDS, ROOM, SIZE};

/// What stood in a row and in room before.
const OLD: u16 = 0xabcd;
const OLD_BYTE: u8 = 0xee;

/// So many jobs of one word and one pair each.
fn small(count: usize) -> Vec<Job> {
    (0..count)
        .map(|k| (vec![k as u32], vec![k as u16, 7]))
        .collect()
}

/// One job whose body fills a file of this size; 4 divides size - 8.
fn file_of_size(size: usize) -> Vec<u8> {
    file_of(&[(vec![0; (size - 8) / 4], vec![])])
}

fn set16(file: &mut [u8], at: usize, number: u16) {
    file[at..at + 2].copy_from_slice(&number.to_le_bytes());
}

/// The reader's numbers, and that it leaves the sizes in front of a row of old entries, or nothing.
fn read_into(file: &[u8], room: usize) -> (u16, u16, u16) {
    let mut row = vec![OLD; room];
    let found = read(file, &mut row);
    let yielded = if found.0 == GOOD {
        sizes(file)
    } else {
        Vec::new()
    };
    assert_eq!(row[..yielded.len()], yielded[..]);
    assert!(row[yielded.len()..].iter().all(|&entry| entry == OLD));
    found
}

/// The answer and place of a file; and that what it yields is as document 01 says, and that a good
/// one is written again with the same bytes.
fn answer(file: &[u8]) -> (u16, u16) {
    let (answer, place, jobs) = read_into(file, 2 * MOST_JOBS);
    let wanted = fault(file).unwrap_or((GOOD, 0));
    assert_eq!((answer, usize::from(place)), wanted);
    let mut room = vec![OLD_BYTE; file.len() + 3];
    if answer == GOOD {
        let jobs = usize::from(jobs);
        assert_eq!(jobs, number(file, 0));
        let bodies = &file[2 + 6 * jobs..];
        assert_eq!(write(&sizes(file), bodies, &mut room), GOOD);
        assert_eq!(room[..file.len()], file[..]);
        assert_eq!(room[file.len()..], [OLD_BYTE; 3]);
    } else {
        assert_eq!(jobs, 0);
        assert_eq!(match_job(file, 1, &mut room), answer);
        assert!(room.iter().all(|&byte| byte == OLD_BYTE));
    }
    (answer, place)
}

#[test]
fn the_file_of_document_01() {
    let jobs = examples();
    let file = file_of(&jobs);
    assert_eq!(file.len(), 106);
    assert_eq!((number(&file, 2), number(&file, 8)), (14, 86));
    assert_eq!(answer(&file), (GOOD, 0));
    let mut room = vec![0; 106];
    assert_eq!(write(&sizes_of(&jobs), &bodies_of(&jobs), &mut room), GOOD);
    assert_eq!(room, file);
}

#[test]
fn few_bytes() {
    assert_eq!(answer(&[]), (FILE, 0));
    assert_eq!(answer(&[1]), (FILE, 0));
    assert_eq!(answer(&[0, 0]), (CONTENTS, 0));
    assert_eq!(answer(&[1, 0]), (CONTENTS, 0));
}

#[test]
fn counts_of_jobs() {
    let mut none = file_of(&small(1));
    set16(&mut none, 0, 0);
    assert_eq!(answer(&none), (CONTENTS, 0));
    assert_eq!(answer(&file_of(&small(1))), (GOOD, 0));
    assert_eq!(answer(&file_of(&small(64))), (GOOD, 0));
    assert_eq!(answer(&file_of(&small(65))), (CONTENTS, 0));
    let mut many = file_of(&small(64));
    set16(&mut many, 0, 65_535);
    assert_eq!(answer(&many), (CONTENTS, 0));
}

#[test]
fn contents_pass_the_end() {
    let file = file_of(&small(3));
    for size in 2..20 {
        assert_eq!(answer(&file[..size]), (CONTENTS, 0), "{size} bytes");
    }
    assert_eq!(answer(&file[..20]), (BODY, 1));
    // the high byte of the count is no second count
    assert_eq!(answer(&[0, 1, 0, 0, 0, 0, 0, 0]), (CONTENTS, 0));
}

#[test]
fn offsets_one_off() {
    for k in [0, 2, 4] {
        for off in [-1, 1] {
            let mut file = file_of(&small(5));
            let right = number(&file, 2 + 6 * k) as i32;
            set16(&mut file, 2 + 6 * k, (right + off) as u16);
            assert_eq!(answer(&file), (BODY, k as u16 + 1));
        }
    }
}

#[test]
fn ends_of_bodies() {
    let mut file = file_of(&small(3));
    assert_eq!(answer(&file), (GOOD, 0));
    assert_eq!(answer(&file[..file.len() - 1]), (BODY, 3));
    file.push(0);
    assert_eq!(answer(&file), (BODY, 4));
    // one more pair in the middle: that body still ends within the file, and the next offset is wrong
    let mut longer = file_of(&small(3));
    set16(&mut longer, 8 + 4, 2);
    assert_eq!(answer(&longer), (BODY, 3));
}

#[test]
fn lowest_place() {
    let mut file = file_of(&small(5));
    set16(&mut file, 2 + 6 * 3, 0);
    set16(&mut file, 2 + 6, 0);
    file.push(0);
    assert_eq!(answer(&file), (BODY, 2));
}

#[test]
fn sizes_of_files() {
    assert_eq!(answer(&file_of_size(MOST_BYTES)), (GOOD, 0));
    let mut over = file_of_size(MOST_BYTES);
    over.push(0);
    assert_eq!(over.len(), 32_769);
    assert_eq!(answer(&over), (FILE, 0));
    assert_eq!(answer(&file_of_size(MOST_BYTES + 4)), (FILE, 0));
}

#[test]
fn sizes_at_their_limits() {
    // n of 0 is for the job to refuse
    assert_eq!(answer(&file_of(&[(vec![], vec![])])), (GOOD, 0));
    assert_eq!(
        answer(&file_of(&[(vec![], vec![]), (vec![5], vec![])])),
        (GOOD, 0)
    );
    for at in [4, 6] {
        let mut file = file_of(&[(vec![], vec![])]);
        set16(&mut file, at, 65_535);
        assert_eq!(answer(&file), (BODY, 1));
    }
    let mut most = file_of(&small(64));
    for k in 0..64 {
        set16(&mut most, 2 + 6 * k + 2, 65_535);
        set16(&mut most, 2 + 6 * k + 4, 65_535);
    }
    assert_eq!(answer(&most), (BODY, 1));
}

/// One entry less than the sizes need, none, just enough, and more; a file that is refused is refused with
/// no room too.
#[test]
fn room_for_the_sizes() {
    for jobs in [1, 2, 63, 64] {
        let file = file_of(&small(jobs));
        let refused = (ROOM, 0, 0);
        assert_eq!(read_into(&file, 0), refused);
        assert_eq!(read_into(&file, 2 * jobs - 1), refused);
        for room in [2 * jobs, 2 * jobs + 1, 200] {
            assert_eq!(read_into(&file, room), (GOOD, 0, jobs as u16));
        }
        let cut = &file[..file.len() - 1];
        assert_eq!(read_into(cut, 0), (BODY, jobs as u16, 0));
        assert_eq!(read_into(&file[..2], 0), (CONTENTS, 0, 0));
        assert_eq!(read_into(&file[..1], 0), (FILE, 0, 0));
    }
}

/// That each job of a good file is matched as its words and pairs are on lent buffers.
fn assert_jobs_taken(file: &[u8]) {
    let jobs = number(file, 0);
    for job in 1..=jobs {
        let (table, list) = job_of(file, job);
        let given = matched_entries(&table, &list);
        let report = match given.answer {
            SIZE => Vec::new(),
            _ => report(&given, table.len()),
        };
        let mut room = vec![OLD_BYTE; report.len() + 3];
        assert_eq!(match_job(file, job as u32, &mut room), given.answer);
        assert_eq!(room[..report.len()], report[..]);
        assert_eq!(room[report.len()..], [OLD_BYTE; 3]);
    }
    for none in [0, jobs as u32 + 1, u32::MAX] {
        assert_eq!(match_job(file, none, &mut [0; 64]), JOB);
    }
}

/// Every byte of a body counts where it stands: each is changed in turn.
#[test]
fn jobs_are_taken_out() {
    let mut jobs = examples();
    jobs.extend([(vec![], vec![]), (vec![0], vec![]), examples()[0].clone()]);
    let file = file_of(&jobs);
    assert_jobs_taken(&file);
    for at in 2 + 6 * jobs.len()..file.len() {
        for change in [1, 2, 128] {
            let mut changed = file.clone();
            changed[at] ^= change;
            assert_jobs_taken(&changed);
        }
    }
}

/// Tables and lists that just fill the rows that they are copied into, and one past them.
#[test]
fn jobs_of_every_size() {
    for n in [1, 2, 63, 64, 65, 511, 512, 513, MOST_WORDS - 1, MOST_WORDS] {
        for pairs in [0, 1, MOST_PAIRS - 1, MOST_PAIRS, MOST_PAIRS + 1, 300] {
            let list: Vec<u16> = (0..2 * pairs).map(|i| (i % n) as u16).collect();
            assert_jobs_taken(&file_of(&[(constants(n), list), (vec![0], vec![])]));
        }
    }
    assert_jobs_taken(&file_of(&[(constants(MOST_WORDS + 1), vec![])]));
}

/// The writer's refusal of what it is sent; and that it writes nothing then.
fn refusal(sizes: &[u16], bodies: &[u8], room: usize) -> u16 {
    let mut bytes = vec![OLD_BYTE; room];
    let answer = write(sizes, bodies, &mut bytes);
    assert_ne!(answer, GOOD);
    assert!(bytes.iter().all(|&b| b == OLD_BYTE));
    answer
}

#[test]
fn the_writer_refuses() {
    let jobs = small(3);
    let (sizes, bytes) = (sizes_of(&jobs), bodies_of(&jobs));
    assert_eq!(refusal(&[], &[], 100), CONTENTS);
    assert_eq!(refusal(&sizes[..5], &bytes, 100), CONTENTS);
    assert_eq!(refusal(&[1; 129], &[0; 129 * 4], 4_000), CONTENTS);
    assert_eq!(refusal(&[1; 130], &[0; 130 * 4], 4_000), CONTENTS);
    assert_eq!(refusal(&sizes, &bytes[1..], 100), BODY);
    assert_eq!(refusal(&sizes, &[&bytes[..], &[0]].concat(), 100), BODY);
    assert_eq!(refusal(&[65_535, 65_535], &[], 100), BODY);
    assert_eq!(refusal(&[65_535; 128], &[], 100), BODY);
    assert_eq!(refusal(&[65_535, 0], &vec![0; 262_140], 300_000), FILE);
    assert_eq!(refusal(&[8_191, 0], &vec![0; 32_764], 40_000), FILE);
    assert_eq!(refusal(&sizes, &bytes, 43), ROOM);
    assert_eq!(refusal(&sizes, &bytes, 0), ROOM);
    // in this order
    assert_eq!(refusal(&sizes[..5], &[0; 40_000], 0), CONTENTS);
    assert_eq!(refusal(&sizes, &[0; 40_000], 0), BODY);
    assert_eq!(refusal(&[10_000, 0], &[0; 40_000], 0), FILE);
}

#[test]
fn the_writer_writes() {
    for count in [1, 2, 63, 64] {
        let jobs = small(count);
        let file = file_of(&jobs);
        for more in [0, 5] {
            let mut room = vec![OLD_BYTE; file.len() + more];
            assert_eq!(write(&sizes_of(&jobs), &bodies_of(&jobs), &mut room), GOOD);
            assert_eq!(room[..file.len()], file[..]);
            assert!(room[file.len()..].iter().all(|&b| b == OLD_BYTE));
        }
    }
    let mut room = vec![0; MOST_BYTES];
    assert_eq!(write(&[8_190, 0], &vec![1; 32_760], &mut room), GOOD);
    assert_eq!(answer(&room), (GOOD, 0));
}

/// Numbers that look random, the same at each run.
struct Numbers(u64);

impl Numbers {
    fn below(&mut self, most: usize) -> usize {
        self.0 = self
            .0
            .wrapping_mul(6_364_136_223_846_793_005)
            .wrapping_add(1);
        ((self.0 >> 33) % most as u64) as usize
    }
}

#[test]
fn damaged_files() {
    let mut numbers = Numbers(1);
    let mut good = 0;
    for part in 0..20_000 {
        let jobs: Vec<Job> = (0..1 + numbers.below(6))
            .map(|_| {
                let words = (0..numbers.below(4)).map(|_| numbers.below(1 << 21) as u32);
                let words: Vec<u32> = words.collect();
                let pairs = (0..2 * numbers.below(3)).map(|_| numbers.below(65_536) as u16);
                (words, pairs.collect())
            })
            .collect();
        let mut file = file_of(&jobs);
        for _ in 0..numbers.below(3) {
            let contents = 2 + 6 * jobs.len();
            match numbers.below(4) {
                0 => {
                    let at = numbers.below(contents);
                    file[at] = numbers.below(256) as u8;
                }
                1 => {
                    let at = 2 * numbers.below(contents / 2);
                    let near = number(&file, at) + numbers.below(3);
                    set16(&mut file, at, near.saturating_sub(1) as u16);
                }
                2 => file.push(0),
                _ => {
                    file.pop();
                    file.resize(file.len().max(contents), 0);
                }
            }
        }
        let (answer, place) = answer(&file);
        if answer == GOOD {
            good += 1;
        }
        // the bodies, as a program reads and writes them: a process each
        if part % 50 == 0 {
            let written = again(&file);
            match answer {
                GOOD => assert_eq!(written, file),
                _ => assert_eq!(written, format!("file {answer} {place}\n").as_bytes()),
            }
        }
    }
    assert!((5_000..15_000).contains(&good), "{good} good files");
}

/// What the program `again` writes for a file.
fn again(file: &[u8]) -> Vec<u8> {
    written_by("again", file)
}

#[test]
fn the_program_again() {
    for file in [
        file_of(&examples()),
        file_of(&small(64)),
        file_of_size(MOST_BYTES),
    ] {
        assert_eq!(again(&file), file);
    }
    assert_eq!(again(b""), b"file 12 0\n");
    assert_eq!(again(b"\0\0"), b"file 13 0\n");
    let mut over = file_of_size(MOST_BYTES);
    over.push(0);
    assert_eq!(again(&over), b"file 12 0\n");
    let mut follows = file_of(&small(64));
    follows.push(0);
    assert_eq!(again(&follows), b"file 14 65\n");
}
