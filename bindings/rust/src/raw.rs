//! The library's own calls, as `bindings/c/hazoxe.h` declares them.

use std::ffi::c_void;
use std::ptr;

/// What the library keeps of a subject.
#[repr(C)]
pub struct Subject {
    hidden: *mut c_void,
    mark: u64,
}

impl Subject {
    /// One that holds none.
    pub const EMPTY: Subject = Subject { hidden: ptr::null_mut(), mark: 0 };
}

#[repr(C)]
pub struct Rules {
    pub age: u64,
    pub budget: u64,
    pub kind: u32,
    pub count: u32,
    pub observers: u32,
    pub joins: u32,
    pub items: u32,
}

#[repr(C)]
#[derive(Clone, Copy)]
pub struct Note {
    pub observer: u32,
    pub kind: u32,
    pub port: u32,
    pub place: u32,
    pub length: usize,
}

/// Notes, and the bytes of their texts.
#[repr(C)]
#[derive(Default)]
pub struct Taken {
    pub notes: usize,
    pub bytes: usize,
}

#[repr(C)]
#[derive(Default)]
pub struct Counts {
    pub observers: u32,
    pub joins: u32,
    pub given: usize,
    pub misses: u64,
}

pub const OK: u32 = 0;

extern "C" {
    pub fn hazoxe_proved_open(subject: *mut Subject, rules: *const Rules, seed: *const u8, length: usize) -> u32;
    pub fn hazoxe_proved_close(subject: *mut Subject) -> u32;
    pub fn hazoxe_proved_next(subject: *mut Subject, port: u32, at: u64, text: *const u8, length: usize) -> u32;
    pub fn hazoxe_proved_complete(subject: *mut Subject, port: u32, at: u64) -> u32;
    pub fn hazoxe_proved_error(subject: *mut Subject, port: u32, at: u64, text: *const u8, length: usize) -> u32;
    pub fn hazoxe_proved_join(
        subject: *mut Subject,
        strategy: u32,
        room: u32,
        errors: u32,
        first: u32,
        at: u64,
        who: *mut u32,
    ) -> u32;
    pub fn hazoxe_proved_request(subject: *mut Subject, who: u32, n: u32) -> u32;
    pub fn hazoxe_proved_dispose(subject: *mut Subject, who: u32) -> u32;
    pub fn hazoxe_proved_take_many(
        subject: *mut Subject,
        notes: *mut Note,
        most: usize,
        buffer: *mut u8,
        room: usize,
        taken: *mut Taken,
    ) -> u32;
    pub fn hazoxe_proved_waiting(subject: *mut Subject, who: u32, count: *mut usize) -> u32;
    pub fn hazoxe_proved_count(subject: *mut Subject, counts: *mut Counts) -> u32;
}
