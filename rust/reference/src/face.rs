//! The functions of include/ratlinery.h with slices for pointers and lengths. A test can put the same input through two
//! implementations and compare the numbers returned and every buffer.

#[cfg(feature = "prepared")]
use crate::prepared::{Counts, STATE};
use crate::{Answer, Epitaph, Header, Message, Schema, check_utf8, refusal};

/// The three lists of a type table: document 01's two, and W-206's entries.
#[derive(Clone, Copy, Debug)]
pub struct Table<'t> {
    pub rows: &'t [u32],
    pub members: &'t [u32],
    pub entries: &'t [u64],
}

/// The functions of the C face. Each returns the number and stores place and results into `answer`, as far as there is
/// room.
pub trait Face {
    fn layout(&self, table: Table, row: u32, answer: &mut [u64]) -> u32;

    fn check(&self, table: Table, root: u32, message: Message, answer: &mut [u64]) -> u32;

    fn read(
        &self,
        table: Table,
        root: u32,
        message: Message,
        values: &mut [u64],
        objects: &mut [u32],
        answer: &mut [u64],
    ) -> u32;

    fn read_values(
        &self,
        table: Table,
        root: u32,
        message: Message,
        values: &mut [u64],
        answer: &mut [u64],
    ) -> u32;

    fn read_objects(
        &self,
        table: Table,
        root: u32,
        message: Message,
        objects: &mut [u32],
        answer: &mut [u64],
    ) -> u32;

    fn write(&self, table: Table, root: u32, values: &[u64], out: &mut [u8], answer: &mut [u64]) -> u32;

    fn header_read(&self, message: &[u8], answer: &mut [u64]) -> u32;

    fn header_write(&self, header: Header, out: &mut [u8], answer: &mut [u64]) -> u32;

    fn epitaph_write(&self, epitaph: Epitaph, out: &mut [u8], answer: &mut [u64]) -> u32;

    fn utf8(&self, text: &[u8], answer: &mut [u64]) -> u32;

    #[cfg(feature = "prepared")]
    fn prepare(&self, table: Table, state: &mut [u32], answer: &mut [u64]) -> u32;

    #[cfg(feature = "prepared")]
    fn append(&self, table: Table, state: &mut [u32], answer: &mut [u64]) -> u32;

    #[cfg(feature = "prepared")]
    fn go_back(&self, table: Table, to: Counts, state: &mut [u32], answer: &mut [u64]) -> u32;

    #[cfg(feature = "prepared")]
    fn check_prepared(
        &self,
        table: Table,
        state: &[u32],
        root: u32,
        message: Message,
        answer: &mut [u64],
    ) -> u32;
}

/// The reference, by that face. The type table is judged in each call.
#[derive(Clone, Copy, Debug)]
pub struct Reference;

impl Face for Reference {
    fn layout(&self, table: Table, row: u32, answer: &mut [u64]) -> u32 {
        let layout = table.schema().and_then(|schema| schema.layout(row));
        store(layout.map(|layout| [layout.size as u64, layout.alignment as u64]), answer)
    }

    fn check(&self, table: Table, root: u32, message: Message, answer: &mut [u64]) -> u32 {
        let checked = table.schema().and_then(|schema| schema.check(root, message));
        store(checked.map(|()| []), answer)
    }

    fn read(
        &self,
        table: Table,
        root: u32,
        message: Message,
        values: &mut [u64],
        objects: &mut [u32],
        answer: &mut [u64],
    ) -> u32 {
        let schema = table.schema();
        let read = schema.and_then(|schema| schema.read(root, message, Some(values), Some(objects)));
        store(read.map(|lengths| [lengths.values as u64, lengths.objects as u64]), answer)
    }

    fn read_values(
        &self,
        table: Table,
        root: u32,
        message: Message,
        values: &mut [u64],
        answer: &mut [u64],
    ) -> u32 {
        let read = table.schema().and_then(|schema| schema.read(root, message, Some(values), None));
        store(read.map(|lengths| [lengths.values as u64]), answer)
    }

    fn read_objects(
        &self,
        table: Table,
        root: u32,
        message: Message,
        objects: &mut [u32],
        answer: &mut [u64],
    ) -> u32 {
        let read = table.schema().and_then(|schema| schema.read(root, message, None, Some(objects)));
        store(read.map(|lengths| [lengths.objects as u64]), answer)
    }

    fn write(&self, table: Table, root: u32, values: &[u64], out: &mut [u8], answer: &mut [u64]) -> u32 {
        let written = table.schema().and_then(|schema| schema.write_into(root, values, out));
        store(written.map(|written| [written.bytes as u64, written.handles]), answer)
    }

    fn header_read(&self, message: &[u8], answer: &mut [u64]) -> u32 {
        let read = Header::read(message).map(|(header, status, body)| {
            let [flag0, flag1, flag2] = header.flags;
            let flags = u32::from_le_bytes([flag0, flag1, flag2, 0]).into();
            let (start, length) = (message.len() - body.len(), body.len());
            let status = i64::from(status) as u64;
            [header.transaction.into(), flags, header.ordinal, start as u64, length as u64, status]
        });
        store(read, answer)
    }

    fn header_write(&self, header: Header, out: &mut [u8], answer: &mut [u64]) -> u32 {
        store(header.bytes().and_then(|bytes| put(&bytes, out)), answer)
    }

    fn epitaph_write(&self, epitaph: Epitaph, out: &mut [u8], answer: &mut [u64]) -> u32 {
        store(put(&epitaph.bytes(), out), answer)
    }

    fn utf8(&self, text: &[u8], answer: &mut [u64]) -> u32 {
        store(check_utf8(text).map(|()| []), answer)
    }

    #[cfg(feature = "prepared")]
    fn prepare(&self, table: Table, state: &mut [u32], answer: &mut [u64]) -> u32 {
        store(table.prepare().and_then(|after| put_state(after, state)), answer)
    }

    #[cfg(feature = "prepared")]
    fn append(&self, table: Table, state: &mut [u32], answer: &mut [u64]) -> u32 {
        store(table.append(state).and_then(|after| put_state(after, state)), answer)
    }

    #[cfg(feature = "prepared")]
    fn go_back(&self, table: Table, to: Counts, state: &mut [u32], answer: &mut [u64]) -> u32 {
        store(table.go_back(to, state).and_then(|after| put_state(after, state)), answer)
    }

    #[cfg(feature = "prepared")]
    fn check_prepared(
        &self,
        table: Table,
        state: &[u32],
        root: u32,
        message: Message,
        answer: &mut [u64],
    ) -> u32 {
        store(table.check_prepared(state, root, message).map(|()| []), answer)
    }
}

impl<'t> Table<'t> {
    pub fn schema(self) -> Answer<Schema<'t>> {
        Schema::new(self)
    }
}

/// Puts bytes to the start of an output, if there is room (22), and answers how many.
fn put(bytes: &[u8], out: &mut [u8]) -> Answer<[u64; 1]> {
    let length = bytes.len();
    refusal::require(out.len() >= length, 22, length)?;
    out[..length].copy_from_slice(bytes);
    Ok([length as u64])
}

/// Puts a state to the start of a list, if there is room (22).
#[cfg(feature = "prepared")]
fn put_state(after: [u32; STATE], state: &mut [u32]) -> Answer<[u64; 0]> {
    refusal::require(state.len() >= STATE, 22, STATE)?;
    state[..STATE].copy_from_slice(&after);
    Ok([])
}

/// Stores place and results, as far as there is room, and returns the number.
fn store<const COUNT: usize>(given: Answer<[u64; COUNT]>, answer: &mut [u64]) -> u32 {
    let (number, place, results) = match given {
        Ok(results) => (0, 0, results),
        Err(refusal) => (refusal.number, refusal.place, [0; COUNT]),
    };
    for (slot, word) in answer.iter_mut().zip(std::iter::once(place).chain(results)) {
        *slot = word;
    }
    number
}
