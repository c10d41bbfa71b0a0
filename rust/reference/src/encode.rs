//! A value list written as a message, in one go, into a growing list of bytes. Document 01, "Object list and value list".

use crate::refusal::{Answer, refuse, require};
use crate::schema::{Kind, Schema, largest};

const LONGEST_MESSAGE: usize = 65_536;
const MOST_HANDLES: u64 = 64;
const PRESENT: u64 = u64::MAX;

/// Writes a value list: the message's bytes and its handle count. The place of 26, 5, 3 and 4 is the index of the number
/// that is judged.
pub(crate) fn encode(schema: &Schema, root: u32, values: &[u64], deepest: u32) -> Answer<(Vec<u8>, u64)> {
    let root = schema.root(root)?;
    let guess = values.len().saturating_mul(8).clamp(64, LONGEST_MESSAGE);
    let mut encoder =
        Encoder { schema, values, deepest, index: 0, out: Vec::with_capacity(guess), handles: 0 };
    let at = encoder.claim(schema.types[root].size as u64, 0)?;
    encoder.value(root, at, 0)?;
    require(encoder.index == values.len(), 26, encoder.index)?;
    Ok((encoder.out, encoder.handles))
}

struct Encoder<'s, 'v> {
    schema: &'s Schema<'s>,
    values: &'v [u64],
    deepest: u32,
    /// How many numbers of the list are taken.
    index: usize,
    /// What is claimed so far, zero where nothing is written yet.
    out: Vec<u8>,
    handles: u64,
}

impl Encoder<'_, '_> {
    /// The next number with its index: 26 where the list ends early.
    fn take(&mut self) -> Answer<(u64, usize)> {
        let index = self.index;
        match self.values.get(index) {
            Some(&value) => {
                self.index += 1;
                Ok((value, index))
            }
            None => refuse(26, index),
        }
    }

    /// The next number, at most so large: 26.
    fn take_up_to(&mut self, largest: u64) -> Answer<(u64, usize)> {
        let (value, index) = self.take()?;
        require(value <= largest, 26, index)?;
        Ok((value, index))
    }

    /// One level deeper, by the number at an index: 5.
    fn deeper(&self, depth: u32, index: usize) -> Answer<u32> {
        require(depth < self.deepest, 5, index)?;
        Ok(depth + 1)
    }

    /// Claims an object, by the number at an index: 3. Answers where it starts.
    fn claim(&mut self, length: u64, index: usize) -> Answer<usize> {
        let start = self.out.len();
        require(length <= (LONGEST_MESSAGE - start) as u64, 3, index)?;
        self.out.resize((start + length as usize).next_multiple_of(8), 0);
        Ok(start)
    }

    /// Takes handles, by the number at an index: 4.
    fn take_handles(&mut self, count: u64, index: usize) -> Answer<()> {
        require(count <= MOST_HANDLES - self.handles, 4, index)?;
        self.handles += count;
        Ok(())
    }

    fn put(&mut self, at: usize, bytes: &[u8]) {
        self.out[at..at + bytes.len()].copy_from_slice(bytes);
    }

    fn put_word(&mut self, at: usize, word: u64) {
        self.put(at, &word.to_le_bytes());
    }

    /// The value of a row at a place, in an object of that depth.
    fn value(&mut self, row: usize, at: usize, depth: u32) -> Answer<()> {
        let schema = self.schema;
        let of = &schema.types[row];
        match of.kind {
            Kind::Bool => self.number(1, 1, at),
            Kind::Number => self.number(of.size, largest(of.size), at),
            Kind::Enum { .. } | Kind::Bits { .. } => self.each(row, 1, at, depth),
            Kind::Handle { optional } => self.handle(optional, at),
            Kind::Array { element, count } => self.each(element, count, at, depth),
            Kind::Struct { first, end } => {
                for field in &schema.fields[first..end] {
                    self.value(field.row, at + field.offset, depth)?;
                }
                Ok(())
            }
            Kind::Vector { element, largest, optional } => {
                let size = schema.types[element].size as u64;
                match self.counted(size, largest, optional, at, depth)? {
                    None => Ok(()),
                    Some((start, count, _)) => self.each(element, count, start, depth + 1),
                }
            }
            Kind::String { largest, optional } => match self.counted(1, largest, optional, at, depth)? {
                None => Ok(()),
                Some((start, length, index)) => self.text(start, length, index),
            },
            Kind::Box { inner } => self.boxed(inner, at, depth),
            Kind::Table { first, end } => self.table(first, end, at, depth),
            Kind::Union { first, end, optional, flexible } => {
                let (ordinal, index) = self.take()?;
                if ordinal == 0 {
                    return require(optional, 26, index);
                }
                let known = schema.known(first, end, ordinal);
                require(flexible || known.is_some(), 26, index)?;
                self.put_word(at, ordinal);
                self.content(known, at + 8, depth, index)
            }
        }
    }

    fn number(&mut self, width: usize, largest: u64, at: usize) -> Answer<()> {
        let (value, _) = self.take_up_to(largest)?;
        self.put(at, &value.to_le_bytes()[..width]);
        Ok(())
    }

    fn handle(&mut self, optional: bool, at: usize) -> Answer<()> {
        let (present, index) = self.take_up_to(1)?;
        if present == 0 {
            return require(optional, 26, index);
        }
        self.take_handles(1, index)?;
        self.put(at, &[0xff; 4]);
        Ok(())
    }

    fn each(&mut self, row: usize, count: usize, at: usize, depth: u32) -> Answer<()> {
        let of = &self.schema.types[row];
        match of.kind {
            Kind::Number => self.numbers(of.size, count, at),
            Kind::Enum { entries } => {
                self.strict(of.size, count, at, |value| entries.binary_search(&value).is_ok())
            }
            Kind::Bits { mask } => self.strict(of.size, count, at, |value| value & !mask == 0),
            _ => (0..count).try_for_each(|i| self.value(row, at + i * of.size, depth)),
        }
    }

    /// So many strict numbers of one width: 26 at the first that is not known.
    fn strict(&mut self, width: usize, count: usize, at: usize, known: impl Fn(u64) -> bool) -> Answer<()> {
        let mut run = self.values[self.index..].iter().take(count);
        match run.position(|&value| !known(value)) {
            None => self.numbers(width, count, at),
            Some(past) => refuse(26, self.index + past),
        }
    }

    /// So many numbers of one width. Inlined, so that each width known beforehand has a loop of its own.
    #[inline(always)]
    fn numbers(&mut self, width: usize, count: usize, at: usize) -> Answer<()> {
        let run = &self.values[self.index..];
        let run = &run[..count.min(run.len())];
        let largest = largest(width);
        if let Some(past) = run.iter().position(|&value| value > largest) {
            return refuse(26, self.index + past);
        }
        require(run.len() == count, 26, self.values.len())?;
        self.index += count;
        let out = &mut self.out[at..at + count * width];
        match width {
            1 => out.iter_mut().zip(run).for_each(|(byte, &value)| *byte = value as u8),
            2 => copy(run, out, |value| (value as u16).to_le_bytes()),
            4 => copy(run, out, |value| (value as u32).to_le_bytes()),
            _ => copy(run, out, u64::to_le_bytes),
        }
        Ok(())
    }

    /// The record of a vector or string, and the claim of what it counts: its place, its count and that number's index,
    /// unless it is absent.
    fn counted(
        &mut self,
        size: u64,
        largest: u64,
        optional: bool,
        at: usize,
        depth: u32,
    ) -> Answer<Option<(usize, usize, usize)>> {
        let (number, index) = self.take()?;
        let Some(count) = number.checked_sub(1) else {
            require(optional, 26, index)?;
            return Ok(None);
        };
        require(count <= largest, 26, index)?;
        self.deeper(depth, index)?;
        let start = self.claim(count * size, index)?;
        self.put_word(at, count);
        self.put_word(at + 8, PRESENT);
        Ok(Some((start, count as usize, index)))
    }

    fn text(&mut self, at: usize, length: usize, index: usize) -> Answer<()> {
        self.numbers(1, length, at)?;
        require(std::str::from_utf8(&self.out[at..at + length]).is_ok(), 26, index)
    }

    fn boxed(&mut self, inner: usize, at: usize, depth: u32) -> Answer<()> {
        let (present, index) = self.take_up_to(1)?;
        if present == 0 {
            return Ok(());
        }
        let depth = self.deeper(depth, index)?;
        let start = self.claim(self.schema.types[inner].size as u64, index)?;
        self.put_word(at, PRESENT);
        self.value(inner, start, depth)
    }

    fn table(&mut self, first: usize, end: usize, at: usize, depth: u32) -> Answer<()> {
        let (highest, index) = self.take()?;
        let depth = self.deeper(depth, index)?;
        let start = self.claim(highest.saturating_mul(8), index)?;
        self.put_word(at, highest);
        self.put_word(at + 8, PRESENT);
        for ordinal in 1..=highest {
            let (present, index) = self.take_up_to(1)?;
            if present == 0 {
                require(ordinal < highest, 26, index)?;
                continue;
            }
            let known = self.schema.known(first, end, ordinal);
            self.content(known, start + 8 * (ordinal as usize - 1), depth, index)?;
        }
        Ok(())
    }

    /// What an envelope holds; the index is that of its 1 or ordinal.
    fn content(&mut self, known: Option<usize>, at: usize, depth: u32, index: usize) -> Answer<()> {
        let depth = self.deeper(depth, index)?;
        let Some(row) = known else { return self.unknown(at) };
        let size = self.schema.types[row].size;
        let handles = self.handles;
        if size <= 4 {
            self.value(row, at, depth)?;
            self.close(at, None, self.handles - handles);
        } else {
            let start = self.claim(size as u64, index)?;
            self.value(row, start, depth)?;
            self.close(at, Some(self.out.len() - start), self.handles - handles);
        }
        Ok(())
    }

    /// An envelope's byte number (None for a payload in line), handle number and flags.
    fn close(&mut self, at: usize, bytes: Option<usize>, handles: u64) {
        if let Some(bytes) = bytes {
            self.put(at, &(bytes as u32).to_le_bytes());
        }
        self.put(at + 4, &(handles as u16).to_le_bytes());
        self.put(at + 6, &u16::from(bytes.is_none()).to_le_bytes());
    }

    fn unknown(&mut self, at: usize) -> Answer<()> {
        let (length, index) = self.take_up_to(u64::from(u32::MAX))?;
        require(length.is_multiple_of(8), 26, index)?;
        let start = self.claim(length, index)?;
        let (handles, index) = self.take_up_to(u64::from(u16::MAX))?;
        let payload = if length == 0 { 4 } else { length };
        require(handles * 4 <= payload, 26, index)?;
        self.take_handles(handles, index)?;
        if length == 0 {
            self.number(4, u64::from(u32::MAX), at)?;
            self.close(at, None, handles);
        } else {
            self.numbers(8, length as usize / 8, start)?;
            self.close(at, Some(length as usize), handles);
        }
        Ok(())
    }
}

fn copy<const WIDTH: usize>(run: &[u64], out: &mut [u8], bytes: impl Fn(u64) -> [u8; WIDTH]) {
    let (numbers, _) = out.as_chunks_mut::<WIDTH>();
    numbers.iter_mut().zip(run).for_each(|(number, &value)| *number = bytes(value));
}
