//! The C functions of `include/ratlinery.h`, as they are declared there; [`slices`] makes them safe to call.
//!
//! # Safety
//!
//! Of each function: a pointer with its length is a list of so many elements, aligned to them; what is written overlaps
//! nothing else that is handed in.
#![no_std]

pub mod slices;

/// How many numbers a prepared state has: the rows, members and entries in use, 256 sizes, 256 alignments.
pub const STATE: usize = 515;

unsafe extern "C" {
    pub fn ratlinery_layout(
        rows: *const u32,
        rows_len: usize,
        members: *const u32,
        members_len: usize,
        entries: *const u64,
        entries_len: usize,
        row: u32,
        answer: *mut u64,
        answer_len: usize,
    ) -> u32;

    pub fn ratlinery_check(
        rows: *const u32,
        rows_len: usize,
        members: *const u32,
        members_len: usize,
        entries: *const u64,
        entries_len: usize,
        root: u32,
        message: *const u8,
        message_len: usize,
        handles: u64,
        answer: *mut u64,
        answer_len: usize,
    ) -> u32;

    pub fn ratlinery_read(
        rows: *const u32,
        rows_len: usize,
        members: *const u32,
        members_len: usize,
        entries: *const u64,
        entries_len: usize,
        root: u32,
        message: *const u8,
        message_len: usize,
        handles: u64,
        values: *mut u64,
        values_len: usize,
        objects: *mut u32,
        objects_len: usize,
        answer: *mut u64,
        answer_len: usize,
    ) -> u32;

    pub fn ratlinery_read_values(
        rows: *const u32,
        rows_len: usize,
        members: *const u32,
        members_len: usize,
        entries: *const u64,
        entries_len: usize,
        root: u32,
        message: *const u8,
        message_len: usize,
        handles: u64,
        values: *mut u64,
        values_len: usize,
        answer: *mut u64,
        answer_len: usize,
    ) -> u32;

    pub fn ratlinery_read_objects(
        rows: *const u32,
        rows_len: usize,
        members: *const u32,
        members_len: usize,
        entries: *const u64,
        entries_len: usize,
        root: u32,
        message: *const u8,
        message_len: usize,
        handles: u64,
        objects: *mut u32,
        objects_len: usize,
        answer: *mut u64,
        answer_len: usize,
    ) -> u32;

    pub fn ratlinery_write(
        rows: *const u32,
        rows_len: usize,
        members: *const u32,
        members_len: usize,
        entries: *const u64,
        entries_len: usize,
        root: u32,
        values: *const u64,
        values_len: usize,
        out: *mut u8,
        out_len: usize,
        answer: *mut u64,
        answer_len: usize,
    ) -> u32;

    pub fn ratlinery_header_read(
        message: *const u8,
        message_len: usize,
        answer: *mut u64,
        answer_len: usize,
    ) -> u32;

    pub fn ratlinery_header_write(
        transaction: u32,
        flag0: u8,
        flag1: u8,
        flag2: u8,
        ordinal: u64,
        out: *mut u8,
        out_len: usize,
        answer: *mut u64,
        answer_len: usize,
    ) -> u32;

    pub fn ratlinery_epitaph_write(
        flag0: u8,
        flag1: u8,
        flag2: u8,
        status: i32,
        out: *mut u8,
        out_len: usize,
        answer: *mut u64,
        answer_len: usize,
    ) -> u32;

    pub fn ratlinery_utf8(text: *const u8, text_len: usize, answer: *mut u64, answer_len: usize) -> u32;

    pub fn ratlinery_prepare(
        rows: *const u32,
        rows_len: usize,
        members: *const u32,
        members_len: usize,
        entries: *const u64,
        entries_len: usize,
        state: *mut u32,
        state_len: usize,
        answer: *mut u64,
        answer_len: usize,
    ) -> u32;

    pub fn ratlinery_append(
        rows: *const u32,
        rows_len: usize,
        members: *const u32,
        members_len: usize,
        entries: *const u64,
        entries_len: usize,
        state: *mut u32,
        state_len: usize,
        answer: *mut u64,
        answer_len: usize,
    ) -> u32;

    pub fn ratlinery_go_back(
        rows: *const u32,
        rows_len: usize,
        members: *const u32,
        members_len: usize,
        entries: *const u64,
        entries_len: usize,
        to_rows: u64,
        to_members: u64,
        to_entries: u64,
        state: *mut u32,
        state_len: usize,
        answer: *mut u64,
        answer_len: usize,
    ) -> u32;

    pub fn ratlinery_check_prepared(
        rows: *const u32,
        rows_len: usize,
        members: *const u32,
        members_len: usize,
        entries: *const u64,
        entries_len: usize,
        state: *const u32,
        state_len: usize,
        root: u32,
        message: *const u8,
        message_len: usize,
        handles: u64,
        answer: *mut u64,
        answer_len: usize,
    ) -> u32;
}
