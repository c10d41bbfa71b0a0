//! The C functions over slices: safe to call, and else the same. Each gives the number and fills `answer`, of any length.
//!
//! What the C functions ask of their caller holds of every slice: its pointer is aligned and never null, also where it is
//! empty, and what is lent by `&mut` overlaps nothing else. The functions are total, so nothing is asked of the numbers.

use crate as c;

/// The three lists of a type table.
#[derive(Clone, Copy, Debug, PartialEq, Eq)]
pub struct Types<'t> {
    pub rows: &'t [u32],
    pub members: &'t [u32],
    pub entries: &'t [u64],
}

/// A type table, a root and a message as they are handed to a reader.
#[derive(Clone, Copy, Debug)]
pub struct Asked<'m> {
    pub types: Types<'m>,
    pub root: u32,
    pub message: &'m [u8],
    pub handles: u64,
}

/// Counts of rows, members and entries.
#[derive(Clone, Copy, Debug, PartialEq, Eq, Hash)]
pub struct Counts {
    pub rows: u64,
    pub members: u64,
    pub entries: u64,
}

#[inline]
pub fn layout(types: Types, row: u32, answer: &mut [u64]) -> u32 {
    // SAFETY: see above.
    unsafe {
        c::ratlinery_layout(
            types.rows.as_ptr(),
            types.rows.len(),
            types.members.as_ptr(),
            types.members.len(),
            types.entries.as_ptr(),
            types.entries.len(),
            row,
            answer.as_mut_ptr(),
            answer.len(),
        )
    }
}

#[inline]
pub fn check(asked: Asked, answer: &mut [u64]) -> u32 {
    // SAFETY: see above.
    unsafe {
        c::ratlinery_check(
            asked.types.rows.as_ptr(),
            asked.types.rows.len(),
            asked.types.members.as_ptr(),
            asked.types.members.len(),
            asked.types.entries.as_ptr(),
            asked.types.entries.len(),
            asked.root,
            asked.message.as_ptr(),
            asked.message.len(),
            asked.handles,
            answer.as_mut_ptr(),
            answer.len(),
        )
    }
}

#[inline]
pub fn read(asked: Asked, values: &mut [u64], objects: &mut [u32], answer: &mut [u64]) -> u32 {
    // SAFETY: see above.
    unsafe {
        c::ratlinery_read(
            asked.types.rows.as_ptr(),
            asked.types.rows.len(),
            asked.types.members.as_ptr(),
            asked.types.members.len(),
            asked.types.entries.as_ptr(),
            asked.types.entries.len(),
            asked.root,
            asked.message.as_ptr(),
            asked.message.len(),
            asked.handles,
            values.as_mut_ptr(),
            values.len(),
            objects.as_mut_ptr(),
            objects.len(),
            answer.as_mut_ptr(),
            answer.len(),
        )
    }
}

#[inline]
pub fn read_values(asked: Asked, values: &mut [u64], answer: &mut [u64]) -> u32 {
    // SAFETY: see above.
    unsafe {
        c::ratlinery_read_values(
            asked.types.rows.as_ptr(),
            asked.types.rows.len(),
            asked.types.members.as_ptr(),
            asked.types.members.len(),
            asked.types.entries.as_ptr(),
            asked.types.entries.len(),
            asked.root,
            asked.message.as_ptr(),
            asked.message.len(),
            asked.handles,
            values.as_mut_ptr(),
            values.len(),
            answer.as_mut_ptr(),
            answer.len(),
        )
    }
}

#[inline]
pub fn read_objects(asked: Asked, objects: &mut [u32], answer: &mut [u64]) -> u32 {
    // SAFETY: see above.
    unsafe {
        c::ratlinery_read_objects(
            asked.types.rows.as_ptr(),
            asked.types.rows.len(),
            asked.types.members.as_ptr(),
            asked.types.members.len(),
            asked.types.entries.as_ptr(),
            asked.types.entries.len(),
            asked.root,
            asked.message.as_ptr(),
            asked.message.len(),
            asked.handles,
            objects.as_mut_ptr(),
            objects.len(),
            answer.as_mut_ptr(),
            answer.len(),
        )
    }
}

#[inline]
pub fn write(types: Types, root: u32, values: &[u64], out: &mut [u8], answer: &mut [u64]) -> u32 {
    // SAFETY: see above.
    unsafe {
        c::ratlinery_write(
            types.rows.as_ptr(),
            types.rows.len(),
            types.members.as_ptr(),
            types.members.len(),
            types.entries.as_ptr(),
            types.entries.len(),
            root,
            values.as_ptr(),
            values.len(),
            out.as_mut_ptr(),
            out.len(),
            answer.as_mut_ptr(),
            answer.len(),
        )
    }
}

#[inline]
pub fn header_read(message: &[u8], answer: &mut [u64]) -> u32 {
    // SAFETY: see above.
    unsafe { c::ratlinery_header_read(message.as_ptr(), message.len(), answer.as_mut_ptr(), answer.len()) }
}

#[inline]
pub fn header_write(
    transaction: u32,
    flags: [u8; 3],
    ordinal: u64,
    out: &mut [u8],
    answer: &mut [u64],
) -> u32 {
    // SAFETY: see above.
    unsafe {
        c::ratlinery_header_write(
            transaction,
            flags[0],
            flags[1],
            flags[2],
            ordinal,
            out.as_mut_ptr(),
            out.len(),
            answer.as_mut_ptr(),
            answer.len(),
        )
    }
}

#[inline]
pub fn epitaph_write(flags: [u8; 3], status: i32, out: &mut [u8], answer: &mut [u64]) -> u32 {
    // SAFETY: see above.
    unsafe {
        c::ratlinery_epitaph_write(
            flags[0],
            flags[1],
            flags[2],
            status,
            out.as_mut_ptr(),
            out.len(),
            answer.as_mut_ptr(),
            answer.len(),
        )
    }
}

#[inline]
pub fn utf8(text: &[u8], answer: &mut [u64]) -> u32 {
    // SAFETY: see above.
    unsafe { c::ratlinery_utf8(text.as_ptr(), text.len(), answer.as_mut_ptr(), answer.len()) }
}

#[inline]
pub fn prepare(types: Types, state: &mut [u32], answer: &mut [u64]) -> u32 {
    // SAFETY: see above.
    unsafe {
        c::ratlinery_prepare(
            types.rows.as_ptr(),
            types.rows.len(),
            types.members.as_ptr(),
            types.members.len(),
            types.entries.as_ptr(),
            types.entries.len(),
            state.as_mut_ptr(),
            state.len(),
            answer.as_mut_ptr(),
            answer.len(),
        )
    }
}

#[inline]
pub fn append(types: Types, state: &mut [u32], answer: &mut [u64]) -> u32 {
    // SAFETY: see above.
    unsafe {
        c::ratlinery_append(
            types.rows.as_ptr(),
            types.rows.len(),
            types.members.as_ptr(),
            types.members.len(),
            types.entries.as_ptr(),
            types.entries.len(),
            state.as_mut_ptr(),
            state.len(),
            answer.as_mut_ptr(),
            answer.len(),
        )
    }
}

#[inline]
pub fn go_back(types: Types, to: Counts, state: &mut [u32], answer: &mut [u64]) -> u32 {
    // SAFETY: see above.
    unsafe {
        c::ratlinery_go_back(
            types.rows.as_ptr(),
            types.rows.len(),
            types.members.as_ptr(),
            types.members.len(),
            types.entries.as_ptr(),
            types.entries.len(),
            to.rows,
            to.members,
            to.entries,
            state.as_mut_ptr(),
            state.len(),
            answer.as_mut_ptr(),
            answer.len(),
        )
    }
}

#[inline]
pub fn check_prepared(asked: Asked, state: &[u32], answer: &mut [u64]) -> u32 {
    // SAFETY: see above.
    unsafe {
        c::ratlinery_check_prepared(
            asked.types.rows.as_ptr(),
            asked.types.rows.len(),
            asked.types.members.as_ptr(),
            asked.types.members.len(),
            asked.types.entries.as_ptr(),
            asked.types.entries.len(),
            state.as_ptr(),
            state.len(),
            asked.root,
            asked.message.as_ptr(),
            asked.message.len(),
            asked.handles,
            answer.as_mut_ptr(),
            answer.len(),
        )
    }
}
