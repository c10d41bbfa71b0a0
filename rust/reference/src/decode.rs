//! A message judged and taken apart into a tree. Document 01, "The walk".

use crate::refusal::{Answer, refuse, require};
use crate::schema::{Field, Kind, Schema};
use crate::text;
use crate::tree::{Content, Elements, Node};

const LONGEST_MESSAGE: usize = 65_536;
const MOST_HANDLES: u64 = 64;
const DEEPEST: u32 = 32;
const PRESENT: u64 = u64::MAX;

/// A message as it is handed in.
#[derive(Clone, Copy, Debug)]
pub struct Message<'m> {
    pub bytes: &'m [u8],
    pub handles: u64,
}

/// An accepted message: its tree, and how long its lists are.
#[derive(Debug)]
pub(crate) struct Decoded<'m> {
    pub root: usize,
    pub tree: Node<'m>,
    pub values: usize,
    pub objects: usize,
}

/// Takes a message apart. The checker needs no tree; then only its outermost node is made.
pub(crate) fn decode<'m>(
    schema: &Schema,
    root: u32,
    message: Message<'m>,
    keep: bool,
) -> Answer<Decoded<'m>> {
    let root = schema.root(root)?;
    require(message.bytes.len() <= LONGEST_MESSAGE, 3, 0)?;
    require(message.handles <= MOST_HANDLES, 4, 0)?;
    let mut decoder = Decoder { schema, message, keep, next: 0, used: 0, values: 0, objects: 0 };
    let at = decoder.claim(schema.types[root].size as u64)?;
    let tree = decoder.value(root, at, 0)?;
    require(decoder.next == message.bytes.len(), 20, decoder.next)?;
    require(decoder.used == message.handles, 21, decoder.used as usize)?;
    Ok(Decoded { root, tree, values: decoder.values, objects: decoder.objects })
}

struct Decoder<'s, 'm> {
    schema: &'s Schema<'s>,
    message: Message<'m>,
    /// Whether nodes below the outermost are kept.
    keep: bool,
    /// Where the next object starts.
    next: usize,
    /// Handles taken.
    used: u64,
    /// Value numbers and objects met.
    values: usize,
    objects: usize,
}

/// An envelope's eight bytes.
#[derive(Clone, Copy)]
struct Envelope {
    at: usize,
    word: u64,
}

impl Envelope {
    fn low(self) -> u64 {
        self.word & 0xffff_ffff
    }

    fn handles(self) -> u64 {
        self.word >> 32 & 0xffff
    }

    /// Whether the payload is in line; 15 for any other flag.
    fn in_line(self) -> Answer<bool> {
        match self.word >> 48 {
            0 => Ok(false),
            1 => Ok(true),
            _ => refuse(15, self.at),
        }
    }
}

impl<'m> Decoder<'_, 'm> {
    fn word(&self, at: usize) -> u64 {
        u64::from_le_bytes(self.message.bytes[at..at + 8].try_into().expect("eight bytes"))
    }

    fn part(&self, at: usize, length: usize) -> &'m [u8] {
        &self.message.bytes[at..at + length]
    }

    /// 7 at the first byte that is not zero.
    fn zero(&self, from: usize, to: usize) -> Answer<()> {
        match self.message.bytes[from..to].iter().position(|&byte| byte != 0) {
            None => Ok(()),
            Some(past) => refuse(7, from + past),
        }
    }

    /// Claims the next object: 6, then 7 for the fill after it. Answers where it starts.
    fn claim(&mut self, length: u64) -> Answer<usize> {
        let start = self.next;
        let left = (self.message.bytes.len() - start) as u64;
        require(length <= left && length.next_multiple_of(8) <= left, 6, start)?;
        let end = start + length as usize;
        self.next = end.next_multiple_of(8);
        self.zero(end, self.next)?;
        self.objects += 1;
        Ok(start)
    }

    /// One level deeper: 5, at the record or envelope that leads there.
    fn deeper(&self, depth: u32, at: usize) -> Answer<u32> {
        require(depth < DEEPEST, 5, at)?;
        Ok(depth + 1)
    }

    /// Whether a presence says so: 9 at the record or word.
    fn presence(&self, presence: u64, at: usize) -> Answer<bool> {
        require(presence == 0 || presence == PRESENT, 9, at)?;
        Ok(presence == PRESENT)
    }

    /// A plain value: nothing in it refers out of line, so that its bytes are its node.
    fn judge(&mut self, row: usize, at: usize) -> Answer<()> {
        match self.schema.types[row].kind {
            Kind::Number => Ok(()),
            Kind::Bool => require(self.message.bytes[at] <= 1, 8, at),
            Kind::Enum { .. } | Kind::Bits { .. } => self.judge_each(row, 1, at),
            Kind::Handle { optional } => self.handle(optional, at),
            Kind::Array { element, count } => self.judge_each(element, count, at),
            Kind::Struct { first, end } => {
                let schema = self.schema;
                let fields = &schema.fields[first..end];
                for field in fields {
                    self.judge(field.row, at + field.offset)?;
                    self.zero(at + field.fill, at + field.end)?;
                }
                if fields.is_empty() { self.zero(at, at + 1) } else { Ok(()) }
            }
            _ => unreachable!("row {row} is not plain"),
        }
    }

    fn judge_each(&mut self, row: usize, count: usize, at: usize) -> Answer<()> {
        let of = &self.schema.types[row];
        match of.kind {
            Kind::Number => Ok(()),
            Kind::Enum { entries } => {
                self.strict(of.size, count, at, |value| entries.binary_search(&value).is_ok())
            }
            Kind::Bits { mask } => self.strict(of.size, count, at, |value| value & !mask == 0),
            _ => (0..count).try_for_each(|i| self.judge(row, at + i * of.size)),
        }
    }

    /// So many strict numbers of one width: 29 at the first that is not known.
    fn strict(&self, width: usize, count: usize, at: usize, known: impl Fn(u64) -> bool) -> Answer<()> {
        let bytes = self.part(at, count * width);
        let unknown = match width {
            1 => bytes.iter().position(|&byte| !known(byte.into())),
            2 => position(bytes, |number| !known(u16::from_le_bytes(number).into())),
            4 => position(bytes, |number| !known(u32::from_le_bytes(number).into())),
            _ => position(bytes, |number| !known(u64::from_le_bytes(number))),
        };
        match unknown {
            None => Ok(()),
            Some(past) => refuse(29, at + past * width),
        }
    }

    fn handle(&mut self, optional: bool, at: usize) -> Answer<()> {
        match self.message.bytes[at..at + 4] {
            [0xff, 0xff, 0xff, 0xff] => self.take_handles(1, at),
            [0, 0, 0, 0] => require(optional, 10, at),
            _ => refuse(9, at),
        }
    }

    fn take_handles(&mut self, count: u64, at: usize) -> Answer<()> {
        require(count <= self.message.handles - self.used, 14, at)?;
        self.used += count;
        Ok(())
    }

    /// The value of a row at a place, in an object of that depth.
    fn value(&mut self, row: usize, at: usize, depth: u32) -> Answer<Node<'m>> {
        let schema = self.schema;
        let of = &schema.types[row];
        if let Some(numbers) = of.plain {
            self.judge(row, at)?;
            self.values += numbers;
            return Ok(Node::Plain { row, bytes: self.part(at, of.size) });
        }
        match of.kind {
            Kind::Array { element, count } => Ok(Node::Parts(self.each(element, count, at, depth)?)),
            Kind::Struct { first, end } => self.structure(&schema.fields[first..end], at, depth),
            Kind::Vector { element, largest, optional } => {
                let size = schema.types[element].size as u64;
                match self.counted(size, largest, optional, at, depth)? {
                    None => Ok(Node::Absent),
                    Some((start, count)) => self.vector(row, element, start, count, depth + 1),
                }
            }
            Kind::String { largest, optional } => match self.counted(1, largest, optional, at, depth)? {
                None => Ok(Node::Absent),
                Some((start, length)) => self.text(row, start, length),
            },
            Kind::Box { inner } => self.boxed(inner, at, depth),
            Kind::Table { first, end } => self.table(row, first, end, at, depth),
            Kind::Union { first, end, optional, flexible } => {
                let ordinal = self.word(at);
                self.values += 1;
                if ordinal == 0 {
                    return self.no_member(optional, at);
                }
                let known = schema.known(first, end, ordinal);
                require(flexible || known.is_some(), 17, at)?;
                self.member(row, ordinal, known, at + 8, depth)
            }
            _ => unreachable!("row {row} is plain"),
        }
    }

    fn each(&mut self, row: usize, count: usize, at: usize, depth: u32) -> Answer<Vec<Node<'m>>> {
        let size = self.schema.types[row].size;
        let mut nodes = self.room_for(count);
        for i in 0..count {
            let node = self.value(row, at + i * size, depth)?;
            self.keep_in(&mut nodes, node);
        }
        Ok(nodes)
    }

    fn room_for<T>(&self, count: usize) -> Vec<T> {
        Vec::with_capacity(if self.keep { count } else { 0 })
    }

    fn keep_in<T>(&self, nodes: &mut Vec<T>, node: T) {
        if self.keep {
            nodes.push(node);
        }
    }

    fn structure(&mut self, fields: &[Field], at: usize, depth: u32) -> Answer<Node<'m>> {
        let mut parts = self.room_for(fields.len());
        for field in fields {
            let node = self.value(field.row, at + field.offset, depth)?;
            self.keep_in(&mut parts, node);
            self.zero(at + field.fill, at + field.end)?;
        }
        Ok(Node::Parts(parts))
    }

    /// The record of a vector or string, and the claim of what it counts: its place and count, unless it is absent.
    fn counted(
        &mut self,
        size: u64,
        largest: u64,
        optional: bool,
        at: usize,
        depth: u32,
    ) -> Answer<Option<(usize, usize)>> {
        let count = self.word(at);
        self.values += 1;
        if !self.presence(self.word(at + 8), at)? {
            require(optional, 10, at)?;
            require(count == 0, 11, at)?;
            return Ok(None);
        }
        require(count <= largest, 12, at)?;
        self.deeper(depth, at)?;
        let start = self.claim(count * size)?;
        Ok(Some((start, count as usize)))
    }

    fn vector(
        &mut self,
        row: usize,
        element: usize,
        at: usize,
        count: usize,
        depth: u32,
    ) -> Answer<Node<'m>> {
        let of = &self.schema.types[element];
        let length = count * of.size;
        let elements = if let Some(numbers) = of.plain {
            self.judge_each(element, count, at)?;
            self.values += count * numbers;
            Elements::Plain { row: element, bytes: self.part(at, length) }
        } else {
            Elements::Each(self.each(element, count, at, depth)?)
        };
        Ok(Node::Vector { row, at, length, elements })
    }

    fn text(&mut self, row: usize, at: usize, length: usize) -> Answer<Node<'m>> {
        self.values += length;
        let text = text::text(self.part(at, length), at)?;
        Ok(Node::Text { row, at, text })
    }

    fn boxed(&mut self, inner: usize, at: usize, depth: u32) -> Answer<Node<'m>> {
        self.values += 1;
        if !self.presence(self.word(at), at)? {
            return Ok(Node::Absent);
        }
        let depth = self.deeper(depth, at)?;
        let start = self.claim(self.schema.types[inner].size as u64)?;
        let node = self.value(inner, start, depth)?;
        Ok(Node::Boxed { row: inner, at: start, inner: self.keep.then(|| Box::new(node)) })
    }

    fn table(&mut self, row: usize, first: usize, end: usize, at: usize, depth: u32) -> Answer<Node<'m>> {
        let count = self.word(at);
        self.values += 1;
        require(self.presence(self.word(at + 8), at)?, 10, at)?;
        let depth = self.deeper(depth, at)?;
        let start = self.claim(count.saturating_mul(8))?;
        let count = count as usize;
        if count > 0 {
            let last = start + 8 * (count - 1);
            require(self.word(last) != 0, 19, last)?;
        }
        let mut envelopes = self.room_for(count);
        for i in 0..count {
            let place = start + 8 * i;
            self.values += 1;
            let content = match self.word(place) {
                0 => None,
                word => {
                    let known = self.schema.known(first, end, i as u64 + 1);
                    Some(self.content(row, known, Envelope { at: place, word }, depth)?)
                }
            };
            self.keep_in(&mut envelopes, content);
        }
        Ok(Node::Table { row, at: start, envelopes })
    }

    fn no_member(&mut self, optional: bool, at: usize) -> Answer<Node<'m>> {
        require(optional, 10, at)?;
        require(self.word(at + 8) == 0, 11, at)?;
        Ok(Node::Absent)
    }

    fn member(
        &mut self,
        row: usize,
        ordinal: u64,
        known: Option<usize>,
        at: usize,
        depth: u32,
    ) -> Answer<Node<'m>> {
        let word = self.word(at);
        require(word != 0, 18, at)?;
        let content = self.content(row, known, Envelope { at, word }, depth)?;
        Ok(Node::Union { ordinal, content: self.keep.then(|| Box::new(content)) })
    }

    /// What an envelope of a table or union holds.
    fn content(
        &mut self,
        row: usize,
        known: Option<usize>,
        envelope: Envelope,
        depth: u32,
    ) -> Answer<Content<'m>> {
        match known {
            Some(payload) => self.payload(payload, envelope, depth),
            None => self.unknown(row, envelope, depth),
        }
    }

    fn payload(&mut self, row: usize, envelope: Envelope, depth: u32) -> Answer<Content<'m>> {
        let size = self.schema.types[row].size;
        let in_line = envelope.in_line()?;
        require(in_line == (size <= 4), 15, envelope.at)?;
        let depth = self.deeper(depth, envelope.at)?;
        let used = self.used;
        if in_line {
            let value = self.value(row, envelope.at, depth)?;
            self.zero(envelope.at + size, envelope.at + 4)?;
            require(self.used - used == envelope.handles(), 28, envelope.at)?;
            return Ok(Content::Known { row, at: None, value });
        }
        let start = self.claim(size as u64)?;
        let value = self.value(row, start, depth)?;
        require((self.next - start) as u64 == envelope.low(), 16, envelope.at)?;
        require(self.used - used == envelope.handles(), 28, envelope.at)?;
        Ok(Content::Known { row, at: Some(start), value })
    }

    fn unknown(&mut self, row: usize, envelope: Envelope, depth: u32) -> Answer<Content<'m>> {
        let in_line = envelope.in_line()?;
        let length = envelope.low();
        require(in_line || length > 0 && length.is_multiple_of(8), 15, envelope.at)?;
        let payload = if in_line { 4 } else { length };
        require(envelope.handles() * 4 <= payload, 35, envelope.at)?;
        self.deeper(depth, envelope.at)?;
        let (at, bytes) = if in_line {
            self.values += 3;
            (None, self.part(envelope.at, 4))
        } else {
            let start = self.claim(length)?;
            self.values += 2 + length as usize / 8;
            (Some(start), self.part(start, length as usize))
        };
        self.take_handles(envelope.handles(), envelope.at)?;
        Ok(Content::Unknown { row, at, handles: envelope.handles(), bytes })
    }
}

/// Which number of one width is the first of which something holds.
fn position<const WIDTH: usize>(bytes: &[u8], holds: impl Fn([u8; WIDTH]) -> bool) -> Option<usize> {
    let (numbers, _) = bytes.as_chunks::<WIDTH>();
    numbers.iter().position(|&number| holds(number))
}
