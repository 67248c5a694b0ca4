//! The C calls: c/include/lojarnek.h and c/src/map_calls.c.
use std::os::raw::{c_char, c_int};

#[repr(C)]
#[derive(Clone, Copy, Debug)]
pub struct Said {
    pub code: u32,
    pub at: u32,
    pub first: u64,
    pub second: u64,
}

#[repr(C)]
pub struct Session {
    _private: [u8; 0],
}

#[repr(C)]
pub struct MapPool {
    _private: [u8; 0],
}

extern "C" {
    pub fn lj_total(format: u32, clients: u32, segments: u32) -> u32;
    pub fn lj_first_word(format: u32, clients: u32, segments: u32, first_era: u64, at: u32) -> u64;
    pub fn lj_status_at(format: u32, clients: u32, segments: u32, who: u32) -> u32;
    pub fn lj_open(format: u32, clients: u32, segments: u32, who: u32, status: u64, out: *mut *mut Session) -> u32;
    pub fn lj_close(session: *mut Session);
    pub fn lj_call(session: *mut Session, op: u32, a: u64, b: u64, c: u64) -> Said;
    pub fn lj_tell(session: *mut Session, found: u64) -> Said;

    pub fn ljm_text(error: c_int) -> *const c_char;
    pub fn ljm_open(path: *const c_char, make: c_int, format: u32, clients: u32, segments: u32, mode: u32, out: *mut *mut MapPool) -> c_int;
    pub fn ljm_close(pool: *mut MapPool);
    pub fn ljm_sizes(pool: *const MapPool, out: *mut u32);
    pub fn ljm_rescue(pool: *mut MapPool, but: u32) -> u32;
    pub fn ljm_words(pool: *mut MapPool) -> *mut u64;
    pub fn ljm_take(pool: *const MapPool, who: u32, lock: *mut c_int) -> c_int;
    pub fn ljm_give(lock: c_int);
}
