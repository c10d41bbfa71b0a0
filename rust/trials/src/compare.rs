//! The same input through the library and the reference: the numbers returned, the answers and every buffer must agree,
//! and what must be untouched is held against what it was filled with.

use ratlinery_reference::face::{Face, Table};
#[cfg(feature = "prepared")]
use ratlinery_reference::prepared::{Counts, STATE};
use ratlinery_reference::{Epitaph, Header, Message};
use std::collections::BTreeMap;

/// How often each function gave each number.
pub type Tally = BTreeMap<&'static str, BTreeMap<u32, u64>>;

/// What differs.
pub type Different = String;

/// Elements before and behind what is lent, to see whether it is kept to.
const GUARD: usize = 8;
const FILLED: u8 = 0xa5;
const FILLED32: u32 = u32::from_ne_bytes([FILLED; 4]);
const FILLED64: u64 = u64::from_ne_bytes([FILLED; 8]);
/// No function has more results than this, with the place.
pub const MOST_RESULTS: usize = 7;

#[derive(Clone, Copy)]
enum Side {
    Library,
    Reference,
}

/// What a call gave: its number, and its results behind the place.
#[derive(Clone, Copy, Debug)]
pub struct Given {
    pub number: u32,
    pub place: u64,
    pub results: [u64; MOST_RESULTS - 1],
}

/// Two implementations side by side, and how often each number was given.
pub struct Compare<'f> {
    pub library: &'f dyn Face,
    pub reference: &'f dyn Face,
    pub tally: Tally,
    /// How many words of `answer` the library is lent.
    pub answer_room: usize,
    /// How far outputs stand off a multiple of 8.
    pub shift: usize,
}

/// A buffer for each side, with guards around what is lent.
struct Lent<T> {
    library: Vec<T>,
    reference: Vec<T>,
    before: Vec<T>,
    from: usize,
    room: usize,
}

impl<T: Copy + PartialEq> Lent<T> {
    fn new(room: usize, shift: usize, filled: T) -> Self {
        let from = GUARD + shift;
        Self::of_buffer(vec![filled; from + room + GUARD], from, room)
    }

    /// What is lent holds something.
    #[cfg(feature = "prepared")]
    fn holding(held: &[T], filled: T) -> Self {
        let guard = [filled; GUARD];
        Self::of_buffer([&guard, held, &guard].concat(), GUARD, held.len())
    }

    fn of_buffer(before: Vec<T>, from: usize, room: usize) -> Self {
        Lent { library: before.clone(), reference: before.clone(), before, from, room }
    }

    fn of(&mut self, side: Side) -> &mut [T] {
        let buffer = match side {
            Side::Library => &mut self.library,
            Side::Reference => &mut self.reference,
        };
        &mut buffer[self.from..self.from + self.room]
    }

    /// So many elements were given: they are equal, and all around them is as it was.
    fn judge(&self, what: &str, given: usize) -> Result<(), Different> {
        let end = self.from + given;
        let untouched = |buffer: &[T]| {
            buffer[..self.from] == self.before[..self.from] && buffer[end..] == self.before[end..]
        };
        if !untouched(&self.library) {
            return Err(format!("{what}: the library touched more than the {given} that it gave"));
        }
        if !untouched(&self.reference) {
            return Err(format!("{what}: the reference touched more than the {given} that it gave"));
        }
        if self.library[self.from..end] != self.reference[self.from..end] {
            return Err(format!("{what}: not the same"));
        }
        Ok(())
    }

    fn given(&self, count: usize) -> &[T] {
        &self.library[self.from..self.from + count]
    }
}

impl<'f> Compare<'f> {
    pub fn new(library: &'f dyn Face, reference: &'f dyn Face) -> Self {
        Compare { library, reference, tally: Tally::new(), answer_room: MOST_RESULTS, shift: 0 }
    }

    /// Calls both and compares the numbers and the answers.
    fn both(
        &mut self,
        function: &'static str,
        results: usize,
        mut call: impl FnMut(&dyn Face, Side, &mut [u64]) -> u32,
    ) -> Result<Given, Different> {
        let mut answers = Lent::new(self.answer_room, 0, FILLED64);
        let number = call(self.library, Side::Library, answers.of(Side::Library));
        let mut expected = [FILLED64; MOST_RESULTS];
        let reference = call(self.reference, Side::Reference, &mut expected);
        if number != reference {
            let place = expected[0];
            return Err(format!("{function}: {number}, by the reference {reference} at {place}"));
        }
        let stored = self.answer_room.min(1 + results);
        answers.of(Side::Reference)[..stored].copy_from_slice(&expected[..stored]);
        answers.judge("answer", stored).map_err(|different| {
            format!(
                "{function}: {number}, {different}: {:?}, by the reference {expected:?}",
                answers.given(stored)
            )
        })?;
        *self.tally.entry(function).or_default().entry(number).or_default() += 1;
        let [place, ref results @ ..] = expected;
        Ok(Given { number, place, results: *results })
    }

    pub fn layout(&mut self, table: Table, row: u32) -> Result<Given, Different> {
        self.both("layout", 2, |face, _, answer| face.layout(table, row, answer))
    }

    pub fn check(&mut self, table: Table, root: u32, message: Message) -> Result<Given, Different> {
        self.both("check", 0, |face, _, answer| face.check(table, root, message, answer))
    }

    pub fn read(
        &mut self,
        table: Table,
        root: u32,
        message: Message,
        value_room: usize,
        object_room: usize,
    ) -> Result<Given, Different> {
        let mut values = Lent::new(value_room, 0, FILLED64);
        let mut objects = Lent::new(object_room, 0, FILLED32);
        let given = self.both("read", 2, |face, side, answer| {
            face.read(table, root, message, values.of(side), objects.of(side), answer)
        })?;
        values.judge("read: values", given.results[0] as usize)?;
        objects.judge("read: objects", given.results[1] as usize)?;
        Ok(given)
    }

    /// The value list, with what it is.
    pub fn read_values(
        &mut self,
        table: Table,
        root: u32,
        message: Message,
        room: usize,
    ) -> Result<(Given, Vec<u64>), Different> {
        let mut values = Lent::new(room, 0, FILLED64);
        let given = self.both("read_values", 1, |face, side, answer| {
            face.read_values(table, root, message, values.of(side), answer)
        })?;
        let count = given.results[0] as usize;
        values.judge("read_values", count)?;
        Ok((given, values.given(count).to_vec()))
    }

    pub fn read_objects(
        &mut self,
        table: Table,
        root: u32,
        message: Message,
        room: usize,
    ) -> Result<Given, Different> {
        let mut objects = Lent::new(room, 0, FILLED32);
        let given = self.both("read_objects", 1, |face, side, answer| {
            face.read_objects(table, root, message, objects.of(side), answer)
        })?;
        objects.judge("read_objects", given.results[0] as usize)?;
        Ok(given)
    }

    /// The message that is written, with what it is.
    pub fn write(
        &mut self,
        table: Table,
        root: u32,
        values: &[u64],
        room: usize,
    ) -> Result<(Given, Vec<u8>), Different> {
        let mut out = Lent::new(room, self.shift, FILLED);
        let given = self
            .both("write", 2, |face, side, answer| face.write(table, root, values, out.of(side), answer))?;
        let count = given.results[0] as usize;
        out.judge("write", count)?;
        Ok((given, out.given(count).to_vec()))
    }

    pub fn header_read(&mut self, message: &[u8]) -> Result<Given, Different> {
        self.both("header_read", 6, |face, _, answer| face.header_read(message, answer))
    }

    pub fn header_write(&mut self, header: Header, room: usize) -> Result<Given, Different> {
        let mut out = Lent::new(room, self.shift, FILLED);
        let given = self
            .both("header_write", 1, |face, side, answer| face.header_write(header, out.of(side), answer))?;
        out.judge("header_write", given.results[0] as usize)?;
        Ok(given)
    }

    /// The epitaph that is written, with what it is.
    pub fn epitaph_write(&mut self, epitaph: Epitaph, room: usize) -> Result<(Given, Vec<u8>), Different> {
        let mut out = Lent::new(room, self.shift, FILLED);
        let given = self.both("epitaph_write", 1, |face, side, answer| {
            face.epitaph_write(epitaph, out.of(side), answer)
        })?;
        let count = given.results[0] as usize;
        out.judge("epitaph_write", count)?;
        Ok((given, out.given(count).to_vec()))
    }

    pub fn utf8(&mut self, text: &[u8]) -> Result<Given, Different> {
        self.both("utf8", 0, |face, _, answer| face.utf8(text, answer))
    }

    /// An operation on a state, which becomes what the library made of it.
    #[cfg(feature = "prepared")]
    fn step(
        &mut self,
        function: &'static str,
        state: &mut [u32],
        call: impl Fn(&dyn Face, &mut [u32], &mut [u64]) -> u32,
    ) -> Result<Given, Different> {
        let mut lent = Lent::holding(state, FILLED32);
        let given = self.both(function, 0, |face, side, answer| call(face, lent.of(side), answer))?;
        lent.judge(function, if given.number == 0 { STATE } else { 0 })?;
        state.copy_from_slice(lent.given(state.len()));
        Ok(given)
    }

    #[cfg(feature = "prepared")]
    pub fn prepare(&mut self, table: Table, state: &mut [u32]) -> Result<Given, Different> {
        self.step("prepare", state, |face, state, answer| face.prepare(table, state, answer))
    }

    #[cfg(feature = "prepared")]
    pub fn append(&mut self, table: Table, state: &mut [u32]) -> Result<Given, Different> {
        self.step("append", state, |face, state, answer| face.append(table, state, answer))
    }

    #[cfg(feature = "prepared")]
    pub fn go_back(&mut self, table: Table, to: Counts, state: &mut [u32]) -> Result<Given, Different> {
        self.step("go_back", state, |face, state, answer| face.go_back(table, to, state, answer))
    }

    #[cfg(feature = "prepared")]
    pub fn check_prepared(
        &mut self,
        table: Table,
        state: &[u32],
        root: u32,
        message: Message,
    ) -> Result<Given, Different> {
        self.both("check_prepared", 0, |face, _, answer| {
            face.check_prepared(table, state, root, message, answer)
        })
    }
}
