//! The exports of the library, as `include/jobstore.h` declares them for C: for whoever wants the bare numbers.
//!
//! # Safety
//!
//! The same for all: each pointer is not null, not even where its length is 0, and valid for its length; what is passed
//! as `*mut` may be written and overlaps no other argument. No call keeps a pointer.
//! [`Replica`](crate::Replica) sees to all of it.
#![allow(clippy::missing_safety_doc, missing_docs)]

use crate::answers::PREVIEW_PLACES;

#[repr(C)]
#[derive(Clone, Copy, PartialEq, Eq, Debug)]
pub struct Executed {
    pub number: u32,
    pub operations: u32,
    pub finished: u32,
}

#[repr(C)]
#[derive(Clone, Copy, PartialEq, Eq, Debug)]
pub struct Committed {
    pub number: u32,
    pub outcome: u32,
    pub kept: u32,
    pub stamp: u32,
    pub stored: u32,
    pub operations: u32,
}

#[repr(C)]
#[derive(Clone, Copy, PartialEq, Eq, Debug)]
pub struct Value {
    pub number: u32,
    pub value: i64,
    pub stamp: u32,
}

#[repr(C)]
#[derive(Clone, Copy, PartialEq, Eq, Debug)]
pub struct Found {
    pub number: u32,
    pub place: u32,
    pub length: u32,
}

#[repr(C)]
#[derive(Clone, Copy, PartialEq, Eq, Debug)]
pub struct Part {
    pub start: u32,
    pub length: u32,
}

#[repr(C)]
#[derive(Clone, Copy, PartialEq, Eq, Debug)]
pub struct Preview {
    pub number: u32,
    pub outcome: u32,
    pub kept: u32,
    pub stamp: u32,
    pub values: [i64; PREVIEW_PLACES],
}

extern "C" {
    pub fn jobstore_record_length() -> u32;
    pub fn jobstore_bodies_length() -> u32;
    pub fn jobstore_open(
        record: *mut u8,
        record_length: usize,
        bodies: *mut u8,
        bodies_length: usize,
        n: u32,
        values: *const i64,
        values_length: usize,
        lower: *const i64,
        lower_length: usize,
        upper: *const i64,
        upper_length: usize,
        stamp: u32,
    ) -> u32;
    pub fn jobstore_early(
        record: *mut u8,
        record_length: usize,
        bodies: *mut u8,
        bodies_length: usize,
        client: u32,
        sequence: u32,
        body: *const u8,
        body_length: usize,
    ) -> u32;
    pub fn jobstore_work(
        record: *mut u8,
        record_length: usize,
        bodies: *const u8,
        bodies_length: usize,
        count: u32,
    ) -> Executed;
    pub fn jobstore_final(
        record: *mut u8,
        record_length: usize,
        bodies: *mut u8,
        bodies_length: usize,
        client: u32,
        sequence: u32,
    ) -> Committed;
    pub fn jobstore_open_reader(
        record: *mut u8,
        record_length: usize,
        bodies: *const u8,
        bodies_length: usize,
        reader: u32,
    ) -> u32;
    pub fn jobstore_read(
        record: *const u8,
        record_length: usize,
        bodies: *const u8,
        bodies_length: usize,
        reader: u32,
        object: u32,
    ) -> Value;
    pub fn jobstore_close_reader(
        record: *mut u8,
        record_length: usize,
        bodies: *const u8,
        bodies_length: usize,
        reader: u32,
    ) -> u32;
    pub fn jobstore_find(
        record: *const u8,
        record_length: usize,
        bodies: *const u8,
        bodies_length: usize,
        client: u32,
        sequence: u32,
    ) -> Found;
    pub fn jobstore_show_body(
        record: *const u8,
        record_length: usize,
        bodies: *const u8,
        bodies_length: usize,
        client: u32,
        sequence: u32,
    ) -> Part;
    pub fn jobstore_dry_run(
        record: *const u8,
        record_length: usize,
        bodies: *const u8,
        bodies_length: usize,
        client: u32,
        sequence: u32,
    ) -> Preview;
}
