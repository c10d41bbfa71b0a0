//! The static library by the face that the reference has too, so that a test can lend what it likes: an `answer` of any
//! length, lists that are not whole, an output at any byte.

use ratlinery_reference::face::{Face, Table};
#[cfg(feature = "prepared")]
use ratlinery_reference::prepared::Counts;
use ratlinery_reference::{Epitaph, Header, Message};
use ratlinery_sys::slices::{self, Asked, Types};

/// The functions of libratlinery.a.
#[derive(Clone, Copy, Debug)]
pub struct Library;

fn types(Table { rows, members, entries }: Table) -> Types {
    Types { rows, members, entries }
}

fn asked<'m>(table: Table<'m>, root: u32, message: Message<'m>) -> Asked<'m> {
    Asked { types: types(table), root, message: message.bytes, handles: message.handles }
}

impl Face for Library {
    fn layout(&self, table: Table, row: u32, answer: &mut [u64]) -> u32 {
        slices::layout(types(table), row, answer)
    }

    fn check(&self, table: Table, root: u32, message: Message, answer: &mut [u64]) -> u32 {
        slices::check(asked(table, root, message), answer)
    }

    fn read(
        &self,
        table: Table,
        root: u32,
        message: Message,
        values: &mut [u64],
        objects: &mut [u32],
        answer: &mut [u64],
    ) -> u32 {
        slices::read(asked(table, root, message), values, objects, answer)
    }

    fn read_values(
        &self,
        table: Table,
        root: u32,
        message: Message,
        values: &mut [u64],
        answer: &mut [u64],
    ) -> u32 {
        slices::read_values(asked(table, root, message), values, answer)
    }

    fn read_objects(
        &self,
        table: Table,
        root: u32,
        message: Message,
        objects: &mut [u32],
        answer: &mut [u64],
    ) -> u32 {
        slices::read_objects(asked(table, root, message), objects, answer)
    }

    fn write(&self, table: Table, root: u32, values: &[u64], out: &mut [u8], answer: &mut [u64]) -> u32 {
        slices::write(types(table), root, values, out, answer)
    }

    fn header_read(&self, message: &[u8], answer: &mut [u64]) -> u32 {
        slices::header_read(message, answer)
    }

    fn header_write(&self, header: Header, out: &mut [u8], answer: &mut [u64]) -> u32 {
        slices::header_write(header.transaction, header.flags, header.ordinal, out, answer)
    }

    fn epitaph_write(&self, epitaph: Epitaph, out: &mut [u8], answer: &mut [u64]) -> u32 {
        slices::epitaph_write(epitaph.flags, epitaph.status, out, answer)
    }

    fn utf8(&self, text: &[u8], answer: &mut [u64]) -> u32 {
        slices::utf8(text, answer)
    }

    #[cfg(feature = "prepared")]
    fn prepare(&self, table: Table, state: &mut [u32], answer: &mut [u64]) -> u32 {
        slices::prepare(types(table), state, answer)
    }

    #[cfg(feature = "prepared")]
    fn append(&self, table: Table, state: &mut [u32], answer: &mut [u64]) -> u32 {
        slices::append(types(table), state, answer)
    }

    #[cfg(feature = "prepared")]
    fn go_back(&self, table: Table, to: Counts, state: &mut [u32], answer: &mut [u64]) -> u32 {
        let Counts { rows, members, entries } = to;
        slices::go_back(types(table), slices::Counts { rows, members, entries }, state, answer)
    }

    #[cfg(feature = "prepared")]
    fn check_prepared(
        &self,
        table: Table,
        state: &[u32],
        root: u32,
        message: Message,
        answer: &mut [u64],
    ) -> u32 {
        slices::check_prepared(asked(table, root, message), state, answer)
    }
}
