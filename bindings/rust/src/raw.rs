//! The functions of include/sto.h, and what the library tells of itself.
use std::os::raw::c_char;
use std::ptr;

#[repr(C)]
pub struct Handle {
    at: *mut u8,
    full: u64,
}

impl Handle {
    pub const NONE: Handle = Handle { at: ptr::null_mut(), full: 0 };

    pub fn is_empty(&self) -> bool {
        self.full == 0
    }
}

#[repr(C)]
#[derive(Clone, Copy, Debug)]
pub struct Shape {
    pub kind: u32,
    pub size: u32,
    pub places: u32,
    pub unused: u32,
    pub value: i64,
}

#[repr(C)]
pub struct Call {
    pub object: u32,
    pub operation: u32,
    pub numbers: u32,
    pub unused: u32,
    pub a: i64,
    pub b: i64,
}

impl Call {
    /// The call of an operation with these numbers, two at most.
    #[inline]
    pub fn new(object: u32, operation: u32, numbers: &[i64]) -> Call {
        let number = |at: usize| numbers.get(at).copied().unwrap_or(0);
        Call { object, operation, numbers: numbers.len() as u32, unused: 0, a: number(0), b: number(1) }
    }
}

#[repr(C)]
pub struct Reply {
    pub answer: u32,
    pub unused: u32,
    pub value: i64,
}

#[repr(C)]
#[derive(Clone, Copy)]
pub struct Pair {
    pub key: i64,
    pub value: i64,
}

#[repr(C)]
#[derive(Clone, Copy, Debug)]
pub struct Row {
    pub object: u32,
    pub unused: u32,
    pub key: i64,
    pub value: i64,
}

extern "C" {
    pub fn sto_open(store: *mut Handle, shapes: *const Shape, count: usize, workers: u32) -> u32;
    pub fn sto_worker(store: *mut Handle, worker: *mut Handle) -> u32;
    pub fn sto_give_back(worker: *mut Handle) -> u32;
    pub fn sto_close(store: *mut Handle) -> u32;
    pub fn sto_rows(closed: *mut Handle, rows: *mut Row, room: usize, count: *mut usize) -> u32;
    pub fn sto_free(handle: *mut Handle) -> u32;
    pub fn sto_begin(worker: *mut Handle) -> u32;
    pub fn sto_ask(worker: *mut Handle, call: *const Call, reply: *mut Reply) -> u32;
    pub fn sto_pairs(worker: *mut Handle, pairs: *mut Pair, room: usize, count: *mut usize) -> u32;
    pub fn sto_walk(worker: *mut Handle, object: u32, from: i64, pairs: *mut Pair, room: usize, count: *mut usize) -> u32;
    pub fn sto_commit(worker: *mut Handle, place: *mut u64) -> u32;
    pub fn sto_cancel(worker: *mut Handle) -> u32;
    pub fn sto_build() -> *const c_char;
    pub fn sto_sources() -> *const c_char;
    pub fn sto_version() -> u32;
}

pub const OK: u32 = 0;
pub const NO_MEMORY: u32 = 1;
pub const ABORTED: u32 = 9;
pub const BUSY: u32 = 10;
pub const NO_ROOM: u32 = 18;

pub const GET: u32 = 0;
pub const SET: u32 = 1;
pub const ADD: u32 = 2;
pub const TEST: u32 = 3;
pub const TAKE: u32 = 4;
pub const PUT: u32 = 5;
pub const REMOVE: u32 = 6;
pub const HAS: u32 = 7;
pub const LEN: u32 = 8;
pub const NEXT: u32 = 9;
pub const COUNT: u32 = 10;
pub const SCAN: u32 = 11;
pub const PUSH: u32 = 12;
pub const POP: u32 = 13;

pub const ABSENT: u32 = 3;
pub const FULL: u32 = 4;
pub const RANGE: u32 = 5;
