//! The names of ibisbookcase.h that this program needs.
use std::ptr::null_mut;

pub const OK: u64 = 0;
pub const HISTORY_FULL: u64 = 2;
pub const FAIR: u64 = 1;
pub const GIVE: u64 = 2;
pub const TAKE: u64 = 4;
pub const FOLLOW_UP: u64 = 6;
pub const EXPIRE: u64 = 8;
pub const INTERRUPT: u64 = 9;
pub const WAITS: u64 = 1;
pub const MEETS: u64 = 2;
pub const DONE: u64 = 6;
pub const GOT: u64 = 7;
pub const NOT_YET: u64 = 9;
pub const LATE: u64 = 11;

/// A queue or a checker. It is freed when it is dropped.
#[repr(C)]
pub struct Handle {
    live: bool,
    at: *mut u8,
}

/// A handle may go from thread to thread; `&mut` gives it to one call at a time.
unsafe impl Send for Handle {}

impl Handle {
    pub fn empty() -> Handle {
        Handle { live: false, at: null_mut() }
    }
}

impl Drop for Handle {
    fn drop(&mut self) {
        unsafe { ibis_free(self) }
    }
}

#[repr(C)]
#[derive(Clone, Copy, Default, Debug)]
pub struct Answer {
    pub status: u64,
    pub outcome: u64,
    pub ticket: u64,
    pub partner: u64,
    pub has_item: u64,
    pub item: u64,
    pub wake: u64,
}

#[repr(C)]
#[derive(Clone, Copy, Default, Debug)]
pub struct Found {
    pub status: u64,
    pub records: u64,
    pub place: u64,
    pub why: u64,
    pub waiting: u64,
    pub uncollected: u64,
    pub kept: u64,
}

extern "C" {
    pub fn ibis_queue_new(handle: &mut Handle, order: u64, bound: u64, seats: u64, first: u64, cap: u64) -> u64;
    pub fn ibis_queue_step(handle: &mut Handle, verb: u64, seat: u64, value: u64, answer: &mut Answer) -> u64;
    pub fn ibis_queue_check(queue: &mut Handle, checker: &mut Handle, found: &mut Found) -> u64;
    pub fn ibis_checker_new(handle: &mut Handle, order: u64, bound: u64) -> u64;
    pub fn ibis_free(handle: &mut Handle);
}
