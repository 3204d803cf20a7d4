//! The functions of the crate `station`, as the host program calls them. They ask nothing, so the
//! wrappers test nothing.

mod exported {
    extern "C" {
        pub fn station_match(
            file: *const u8,
            file_len: usize,
            job: u32,
            room: *mut u8,
            room_len: usize,
        ) -> u16;
        pub fn station_lent(
            table: *const u32,
            n: usize,
            list: *const u16,
            entries: usize,
            classes: *mut u16,
            class_len: usize,
            work: *mut u16,
            work_len: usize,
        ) -> u64;
        pub fn station_check(
            table: *const u32,
            n: usize,
            classes: *mut u16,
            class_len: usize,
            work: *mut u16,
            work_len: usize,
        ) -> u64;
        pub fn station_write(
            sizes: *const u16,
            sizes_len: usize,
            bodies: *const u8,
            bodies_len: usize,
            room: *mut u8,
            room_len: usize,
        ) -> u16;
        pub fn station_read(
            file: *const u8,
            file_len: usize,
            sizes: *mut u16,
            sizes_len: usize,
        ) -> u64;
    }
}

pub const JOB: u16 = 15;

/// Answer, place and joins, or jobs, out of one number, whose top 16 bits are 0.
fn parts(all: u64) -> (u16, u16, u16) {
    assert_eq!(all >> 48, 0, "the top 16 bits");
    (all as u16, (all >> 16) as u16, (all >> 32) as u16)
}

/// The answer for a job of a file; the room holds the rest.
pub fn match_job(file: &[u8], job: u32, room: &mut [u8]) -> u16 {
    unsafe {
        exported::station_match(
            file.as_ptr(),
            file.len(),
            job,
            room.as_mut_ptr(),
            room.len(),
        )
    }
}

/// Answer, place and joins of a match on lent buffers.
pub fn match_lent(
    table: &[u32],
    list: &[u16],
    class: &mut [u16],
    work: &mut [u16],
) -> (u16, u16, u16) {
    parts(unsafe {
        exported::station_lent(
            table.as_ptr(),
            table.len(),
            list.as_ptr(),
            list.len(),
            class.as_mut_ptr(),
            class.len(),
            work.as_mut_ptr(),
            work.len(),
        )
    })
}

/// The same of the table check.
pub fn check(table: &[u32], class: &mut [u16], work: &mut [u16]) -> (u16, u16, u16) {
    parts(unsafe {
        exported::station_check(
            table.as_ptr(),
            table.len(),
            class.as_mut_ptr(),
            class.len(),
            work.as_mut_ptr(),
            work.len(),
        )
    })
}

/// The writer's answer.
pub fn write(sizes: &[u16], bodies: &[u8], room: &mut [u8]) -> u16 {
    unsafe {
        exported::station_write(
            sizes.as_ptr(),
            sizes.len(),
            bodies.as_ptr(),
            bodies.len(),
            room.as_mut_ptr(),
            room.len(),
        )
    }
}

/// Answer, place and J of the reader.
pub fn read(file: &[u8], sizes: &mut [u16]) -> (u16, u16, u16) {
    parts(unsafe {
        exported::station_read(file.as_ptr(), file.len(), sizes.as_mut_ptr(), sizes.len())
    })
}
