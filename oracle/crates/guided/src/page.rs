//! Memory that ends: a job's bytes lie against a page that nobody may touch, so that a byte read past them stops the run.
use crate::MOST;
use std::ffi::{c_int, c_long, c_void};
use std::ptr;

extern "C" {
    fn mmap(at: *mut c_void, length: usize, may: c_int, kind: c_int, file: c_int, from: c_long) -> *mut c_void;
    fn mprotect(at: *mut c_void, length: usize, may: c_int) -> c_int;
}

const NOTHING: c_int = 0;
const READ_AND_WRITE: c_int = 3;
const PRIVATE_AND_OF_NO_FILE: c_int = 0x22;
const PAGE: usize = 4096;

const ROOM: usize = MOST.next_multiple_of(PAGE);

pub struct Page {
    /// of `ROOM` bytes, a page of nothing before them and one behind
    room: *mut u8,
}

impl Page {
    pub fn new() -> Page {
        // SAFETY: a new mapping, of which the middle is then opened.
        unsafe {
            let all = mmap(ptr::null_mut(), ROOM + 2 * PAGE, NOTHING, PRIVATE_AND_OF_NO_FILE, -1, 0).cast::<u8>();
            assert!(all as isize != -1, "no memory for a job of {ROOM} bytes");
            let room = all.add(PAGE);
            assert_eq!(mprotect(room.cast(), ROOM, READ_AND_WRITE), 0, "no memory for a job of {ROOM} bytes");
            Page { room }
        }
    }

    /// The job where its last byte, or its first, is the room's.
    pub fn lay(&mut self, job: &[u8], at_end: bool) -> &[u8] {
        assert!(job.len() <= ROOM, "a job of {} bytes, over {ROOM}", job.len());
        let from = if at_end { ROOM - job.len() } else { 0 };
        // SAFETY: the room is open and nobody else's, and the job fits.
        unsafe {
            let place = self.room.add(from);
            ptr::copy_nonoverlapping(job.as_ptr(), place, job.len());
            std::slice::from_raw_parts(place, job.len())
        }
    }
}

impl Default for Page {
    fn default() -> Page {
        Page::new()
    }
}
