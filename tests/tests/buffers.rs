//! What the station's entries leave in the rows that they are lent, for buffers that are just long
//! enough, longer, and too short; whatever the rows held, and what stands around them. The numbers and
//! entries that are wanted are the independent judge's.

use station_tests::guarded::Guarded;
use station_tests::independent::jobs::job;
use station_tests::independent::judge::{check, judge};
use station_tests::independent::{host, jobfile, wanted};
use station_tests::jobs::{bodies_of, file_from, in_pairs, sizes_of, Job};
use station_tests::matching::{accepted, refused, Given};
use station_tests::random::Numbers;
use station_tests::station;
use station_tests::table::{ACCEPTED, MOST_WORDS, ROOM, SIZE};

const SEED: u64 = 0x0b0f_fe25;
const JOBS: u64 = 1_500;

/// Random jobs of every answer, each with numbers of its own.
fn each_job(run: impl Fn(&mut Numbers, Job)) {
    for part in 0..JOBS {
        let mut numbers = Numbers::of_part(SEED, part);
        let job = job(&mut numbers);
        run(&mut numbers, (job.table, job.list));
    }
}

/// As long as needed, longer, shorter by one, and nothing.
fn rooms(numbers: &mut Numbers, least: usize) -> [usize; 4] {
    let longer = least + 1 + numbers.below(50);
    [least, longer, least.saturating_sub(1), 0]
}

/// The class and the work buffer of a match or a check.
struct Buffers {
    class: Guarded<u16>,
    work: Guarded<u16>,
}

impl Buffers {
    fn new(numbers: &mut Numbers, class_room: usize, work_room: usize) -> Buffers {
        let [class, work] = [class_room, work_room].map(|room| {
            let old = numbers.entries(room);
            Guarded::new(numbers, &old)
        });
        Buffers { class, work }
    }

    /// That these numbers were given and that the buffers are left as document 01 says.
    fn assert_given(&mut self, found: (u16, u16, u16), wanted: &Given, n: usize) {
        assert_eq!(found, (wanted.answer, wanted.place, wanted.joins));
        let (class, work) = wanted.left(n);
        self.class.assert_left(&class);
        self.work.assert_left(&work);
    }

    fn match_job(&mut self, numbers: &mut Numbers, (table, list): &Job, wanted: &Given) {
        let (mut lent_table, mut lent_list) =
            (Guarded::new(numbers, table), Guarded::new(numbers, list));
        let found = station::match_lent(
            lent_table.row(),
            lent_list.row(),
            self.class.row(),
            self.work.row(),
        );
        self.assert_given(found, wanted, table.len());
        lent_table.assert_left(&[]);
        lent_list.assert_left(&[]);
    }

    fn check_table(&mut self, numbers: &mut Numbers, table: &[u32], wanted: &Given) {
        let mut lent_table = Guarded::new(numbers, table);
        let found = station::check(lent_table.row(), self.class.row(), self.work.row());
        self.assert_given(found, wanted, table.len());
        lent_table.assert_left(&[]);
    }
}

/// The rooms of both buffers in turn.
fn both_rooms(numbers: &mut Numbers, n: usize) -> Vec<(usize, usize)> {
    let (class_rooms, work_rooms) = (rooms(numbers, n), rooms(numbers, 4 * n));
    let all = class_rooms
        .iter()
        .flat_map(|&class| work_rooms.map(|work| (class, work)));
    all.collect()
}

#[test]
fn station_lent_on_dirty_buffers() {
    each_job(|numbers, job| {
        let (table, list) = &job;
        let n = table.len();
        let enough = judge(table, list, n, 4 * n).0;
        for (class_room, work_room) in both_rooms(numbers, n) {
            let short = class_room < n || work_room < 4 * n;
            let wanted = match enough.answer {
                SIZE => refused(SIZE, 0),
                _ if short => refused(ROOM, 0),
                _ => enough.clone(),
            };
            // The second time on what the first time left, and what is left must be the same.
            let mut buffers = Buffers::new(numbers, class_room, work_room);
            buffers.match_job(numbers, &job, &wanted);
            buffers.match_job(numbers, &job, &wanted);
        }
    });
}

#[test]
fn station_check_on_dirty_buffers() {
    each_job(|numbers, (table, _)| {
        for (class_room, work_room) in both_rooms(numbers, table.len()) {
            let wanted = check(&table, class_room, work_room);
            let mut buffers = Buffers::new(numbers, class_room, work_room);
            buffers.check_table(numbers, &table, &wanted);
            buffers.check_table(numbers, &table, &wanted);
        }
    });
}

/// All jobs on one set of buffers, which nobody clears: each list is sent twice, with a check and the
/// list before it between.
#[test]
fn one_set_of_buffers_for_all_lists() {
    let mut numbers = Numbers::new(SEED);
    let (class_room, work_room) = (MOST_WORDS + 5, 4 * MOST_WORDS + 5);
    let mut buffers = Buffers::new(&mut numbers, class_room, work_room);
    let mut last = (vec![0], vec![]);
    let mut wanted_last = accepted(&[0], 0);
    for part in 0..JOBS {
        let made = job(&mut Numbers::of_part(SEED, part));
        let job = (made.table, made.list);
        let wanted = judge(&job.0, &job.1, class_room, work_room).0;
        buffers.match_job(&mut numbers, &job, &wanted);
        let wanted_check = check(&job.0, class_room, work_room);
        buffers.check_table(&mut numbers, &job.0, &wanted_check);
        buffers.match_job(&mut numbers, &last, &wanted_last);
        buffers.match_job(&mut numbers, &job, &wanted);
        last = job;
        wanted_last = wanted;
    }
}

#[test]
fn station_match_on_dirty_room() {
    each_job(|numbers, job| {
        let n = job.0.len();
        if n > 8_192 {
            return;
        }
        let jobs = [(vec![0], vec![]), in_pairs(job)];
        let file = file_from(&sizes_of(&jobs), &bodies_of(&jobs));
        let enough = judge(&jobs[1].0, &jobs[1].1, n, 4 * n).0;
        for number in [2, 0, 3] {
            for room in rooms(numbers, 6 + 2 * n) {
                let (answer, report) = match host::asked_for(&file, number, room) {
                    Ok(_) => (enough.answer, host::report(&enough, n)),
                    Err(refusal) => (refusal, Vec::new()),
                };
                let old = numbers.bytes(room);
                let mut lent_room = Guarded::new(numbers, &old);
                let mut lent_file = Guarded::new(numbers, &file);
                for _ in 0..2 {
                    let found = station::match_job(lent_file.row(), number, lent_room.row());
                    assert_eq!(found, answer);
                    lent_room.assert_left(&report);
                    lent_file.assert_left(&[]);
                }
            }
        }
    });
}

#[test]
fn station_write_on_dirty_room() {
    each_job(|numbers, job| {
        if job.0.len() > 8_192 {
            return;
        }
        let jobs = [in_pairs(job), (vec![0], vec![])];
        let (sizes, bodies) = (sizes_of(&jobs), bodies_of(&jobs));
        let file = file_from(&sizes, &bodies);
        // Good ones, one size too few, and one byte too few.
        for (sizes, bodies) in [
            (&sizes[..], &bodies[..]),
            (&sizes[..3], &bodies[..]),
            (&sizes[..], &bodies[1..]),
        ] {
            for room in rooms(numbers, file.len()) {
                let refusal = jobfile::refusal(sizes, bodies.len(), room);
                let left = refusal.map_or(&file[..], |_| &[]);
                let old = numbers.bytes(room);
                let mut lent_room = Guarded::new(numbers, &old);
                let mut lent_sizes = Guarded::new(numbers, sizes);
                let mut lent_bodies = Guarded::new(numbers, bodies);
                for _ in 0..2 {
                    let found =
                        station::write(lent_sizes.row(), lent_bodies.row(), lent_room.row());
                    assert_eq!(found, refusal.unwrap_or(ACCEPTED));
                    lent_room.assert_left(left);
                    lent_sizes.assert_left(&[]);
                    lent_bodies.assert_left(&[]);
                }
            }
        }
    });
}

#[test]
fn station_read_on_dirty_sizes() {
    each_job(|numbers, job| {
        if job.0.len() > 8_192 {
            return;
        }
        let jobs = vec![in_pairs(job); 1 + numbers.below(3)];
        let file = file_from(&sizes_of(&jobs), &bodies_of(&jobs));
        // A good one or one that is too long, one byte too few, and one too many.
        let longer = [&file[..], &[0]].concat();
        for file in [&file[..], &file[..file.len() - 1], &longer[..]] {
            for room in rooms(numbers, 2 * jobs.len()) {
                let (result, left) = wanted::of_read(file, room);
                let old = numbers.entries(room);
                let mut lent_sizes = Guarded::new(numbers, &old);
                let mut lent_file = Guarded::new(numbers, file);
                for _ in 0..2 {
                    let found = station::read(lent_file.row(), lent_sizes.row());
                    assert_eq!(wanted::as_one(found.0, found.1, found.2), result);
                    lent_sizes.assert_left(&left);
                    lent_file.assert_left(&[]);
                }
            }
        }
    });
}
