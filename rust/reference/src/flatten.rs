//! The lists of a tree. Document 01, "Object list and value list".

use crate::decode::Decoded;
use crate::schema::{Kind, Schema};
use crate::tree::{Content, Elements, Node};

/// Puts the value list and the object list of a message into lists that have room for them; None for one not wanted.
pub(crate) fn flatten(
    schema: &Schema,
    decoded: &Decoded,
    values: Option<&mut [u64]>,
    objects: Option<&mut [u32]>,
) {
    let mut lists = Lists {
        schema,
        values: values.map(|list| list.iter_mut()),
        objects: objects.map(|list| list.chunks_exact_mut(4)),
    };
    lists.object(1, decoded.root, 0, schema.types[decoded.root].size);
    lists.node(&decoded.tree);
}

struct Lists<'s, 'l> {
    schema: &'s Schema<'s>,
    values: Option<std::slice::IterMut<'l, u64>>,
    objects: Option<std::slice::ChunksExactMut<'l, u32>>,
}

impl Lists<'_, '_> {
    fn number(&mut self, value: u64) {
        if let Some(values) = &mut self.values {
            *values.next().expect("room for the value list") = value;
        }
    }

    fn object(&mut self, kind: u32, row: usize, at: usize, length: usize) {
        if let Some(objects) = &mut self.objects {
            let object = objects.next().expect("room for the object list");
            object.copy_from_slice(&[kind, row as u32, at as u32, length as u32]);
        }
    }

    fn node(&mut self, node: &Node) {
        match node {
            &Node::Plain { row, bytes } => self.plain(row, bytes),
            Node::Parts(parts) => parts.iter().for_each(|part| self.node(part)),
            Node::Absent => self.number(0),
            Node::Vector { row, at, length, elements } => {
                self.object(2, *row, *at, *length);
                self.elements(elements);
            }
            &Node::Text { row, at, text } => {
                self.object(2, row, at, text.len());
                self.number(text.len() as u64 + 1);
                self.numbers(1, text.as_bytes());
            }
            Node::Boxed { row, at, inner } => {
                self.object(3, *row, *at, self.schema.types[*row].size);
                self.number(1);
                inner.iter().for_each(|inner| self.node(inner));
            }
            Node::Table { row, at, envelopes } => {
                self.object(4, *row, *at, envelopes.len() * 8);
                self.number(envelopes.len() as u64);
                envelopes.iter().for_each(|envelope| self.envelope(envelope));
            }
            Node::Union { ordinal, content } => {
                self.number(*ordinal);
                content.iter().for_each(|content| self.content(content));
            }
        }
    }

    fn elements(&mut self, elements: &Elements) {
        match elements {
            &Elements::Plain { row, bytes } => {
                self.number((bytes.len() / self.schema.types[row].size) as u64 + 1);
                self.plain(row, bytes);
            }
            Elements::Each(each) => {
                self.number(each.len() as u64 + 1);
                each.iter().for_each(|element| self.node(element));
            }
        }
    }

    fn envelope(&mut self, envelope: &Option<Content>) {
        match envelope {
            None => self.number(0),
            Some(content) => {
                self.number(1);
                self.content(content);
            }
        }
    }

    fn content(&mut self, content: &Content) {
        match content {
            Content::Known { row, at, value } => {
                if let Some(at) = *at {
                    self.object(5, *row, at, self.schema.types[*row].size);
                }
                self.node(value);
            }
            &Content::Unknown { row, at, handles, bytes } => {
                if let Some(at) = at {
                    self.object(6, row, at, bytes.len());
                }
                self.number(if at.is_some() { bytes.len() as u64 } else { 0 });
                self.number(handles);
                self.numbers(if at.is_some() { 8 } else { 4 }, bytes);
            }
        }
    }

    /// Plain values, one after another.
    fn plain(&mut self, row: usize, bytes: &[u8]) {
        if self.values.is_none() {
            return;
        }
        let schema = self.schema;
        let of = &schema.types[row];
        match of.kind {
            Kind::Array { element, .. } => self.plain(element, bytes),
            Kind::Struct { first, end } => {
                for value in bytes.chunks_exact(of.size) {
                    for field in &schema.fields[first..end] {
                        self.plain(field.row, &value[field.offset..field.fill]);
                    }
                }
            }
            // all ones or zero
            Kind::Handle { .. } => {
                for word in bytes.chunks_exact(4) {
                    self.number(u64::from(word[0] & 1));
                }
            }
            _ => self.numbers(of.size, bytes),
        }
    }

    /// Little-endian numbers of one width.
    fn numbers(&mut self, width: usize, bytes: &[u8]) {
        let Some(values) = &mut self.values else { return };
        match width {
            1 => bytes.iter().zip(values).for_each(|(&byte, value)| *value = u64::from(byte)),
            2 => copy(bytes, values, |number: [u8; 2]| u64::from(u16::from_le_bytes(number))),
            4 => copy(bytes, values, |number: [u8; 4]| u64::from(u32::from_le_bytes(number))),
            _ => copy(bytes, values, u64::from_le_bytes),
        }
    }
}

fn copy<const WIDTH: usize>(
    bytes: &[u8],
    values: &mut std::slice::IterMut<u64>,
    number: impl Fn([u8; WIDTH]) -> u64,
) {
    let (numbers, _) = bytes.as_chunks::<WIDTH>();
    numbers.iter().zip(values).for_each(|(&bytes, value)| *value = number(bytes));
}
