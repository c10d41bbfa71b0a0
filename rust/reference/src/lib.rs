//! An independent reading of document 01, and of document 02's requests that have landed, in plain Rust, to test and to
//! measure Ratlinery against.
//!
//! It is written from the documents alone and in another shape than the proved code: the type table becomes a list of
//! types with their fields, a message becomes a tree whose leaves are parts of the message, the lists are flattened
//! from the tree, and the writer grows a list of bytes in one go.

mod decode;
mod encode;
pub mod face;
mod flatten;
mod header;
pub mod prepared;
mod refusal;
mod schema;
mod text;
mod tree;
pub mod vectors;

pub use decode::Message;
pub use header::{Epitaph, Header};
pub use refusal::{Answer, Refusal};
pub use schema::{Layout, Schema};

/// How many numbers the value list and the object list of a message have.
#[derive(Clone, Copy, Debug, PartialEq, Eq)]
pub struct Lengths {
    pub values: usize,
    pub objects: usize,
}

/// How many bytes and handles a message has that was written.
#[derive(Clone, Copy, Debug, PartialEq, Eq)]
pub struct Written {
    pub bytes: usize,
    pub handles: u64,
}

/// Judges a text by itself.
pub fn check_utf8(bytes: &[u8]) -> Answer<()> {
    text::text(bytes, 0).map(|_| ())
}

impl Schema<'_> {
    /// Judges a message.
    pub fn check(&self, root: u32, message: Message) -> Answer<()> {
        decode::decode(self, root, message, false).map(|_| ())
    }

    /// Reads the lists that are lent; a list that is not lent is not judged by 22 and counts 0.
    pub fn read(
        &self,
        root: u32,
        message: Message,
        values: Option<&mut [u64]>,
        objects: Option<&mut [u32]>,
    ) -> Answer<Lengths> {
        let decoded = decode::decode(self, root, message, true)?;
        let object_numbers = room(&objects, decoded.objects * 4)?;
        let value_numbers = room(&values, decoded.values)?;
        flatten::flatten(
            self,
            &decoded,
            values.map(|list| &mut list[..value_numbers]),
            objects.map(|list| &mut list[..object_numbers]),
        );
        Ok(Lengths { values: value_numbers, objects: object_numbers })
    }

    /// Writes a value list as a message: its bytes and its handle count.
    pub fn write(&self, root: u32, values: &[u64]) -> Answer<(Vec<u8>, u64)> {
        encode::encode(self, root, values, 32)
    }

    /// Writes a value list with another limit of depth than 32: messages that are too deep are wanted for tests.
    pub fn write_to_depth(&self, root: u32, values: &[u64], deepest: u32) -> Answer<(Vec<u8>, u64)> {
        encode::encode(self, root, values, deepest)
    }

    /// Writes a value list as a message into an output: 22 in bytes.
    pub fn write_into(&self, root: u32, values: &[u64], out: &mut [u8]) -> Answer<Written> {
        let (message, handles) = self.write(root, values)?;
        let bytes = message.len();
        refusal::require(out.len() >= bytes, 22, bytes)?;
        out[..bytes].copy_from_slice(&message);
        Ok(Written { bytes, handles })
    }
}

/// 22: how many numbers a list that is lent has to take.
fn room<T>(list: &Option<&mut [T]>, needed: usize) -> Answer<usize> {
    match list {
        None => Ok(0),
        Some(list) => {
            refusal::require(list.len() >= needed, 22, needed)?;
            Ok(needed)
        }
    }
}
