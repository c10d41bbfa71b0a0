//! A prepared state. Document 02, W-207: it is a list of 515 numbers, and agrees with lists if preparing them gives it.

use crate::Message;
use crate::face::Table;
use crate::refusal::{Answer, refuse, require};

/// The rows that a store has room for.
const ROWS: usize = 256;

/// Three counts, sizes, alignments.
pub const STATE: usize = 3 + 2 * ROWS;

/// All zero.
pub const START: [u32; STATE] = [0; STATE];

/// Rows, members and entries in use.
#[derive(Clone, Copy, Debug, PartialEq, Eq)]
pub struct Counts {
    pub rows: u64,
    pub members: u64,
    pub entries: u64,
}

impl Counts {
    fn within(self, other: Counts) -> bool {
        self.rows <= other.rows && self.members <= other.members && self.entries <= other.entries
    }
}

impl<'t> Table<'t> {
    /// The state of the whole lists.
    pub fn prepare(self) -> Answer<[u32; STATE]> {
        let schema = self.schema()?;
        let mut state = START;
        // a sound table has few of each
        state[0] = schema.types.len() as u32;
        state[1] = schema.members.len() as u32;
        state[2] = self.entries.len() as u32;
        for (row, of) in schema.types.iter().enumerate() {
            state[3 + row] = of.size as u32;
            state[3 + ROWS + row] = of.alignment as u32;
        }
        Ok(state)
    }

    /// The lists cut to counts, if they hold as many.
    pub fn cut(self, to: Counts) -> Option<Table<'t>> {
        let length = |count: u64, each: usize| usize::try_from(count).ok()?.checked_mul(each);
        Some(Table {
            rows: self.rows.get(..length(to.rows, 4)?)?,
            members: self.members.get(..length(to.members, 2)?)?,
            entries: self.entries.get(..length(to.entries, 1)?)?,
        })
    }

    fn is_empty(self) -> bool {
        self.rows.is_empty() && self.members.is_empty() && self.entries.is_empty()
    }

    /// Whether a state agrees with the lists. A list of another length than a state's never does.
    pub fn agrees(self, state: &[u32]) -> bool {
        let prepared = if self.is_empty() { Ok(START) } else { self.prepare() };
        prepared.is_ok_and(|prepared| state == prepared)
    }

    /// Whether a state agrees with the lists cut to its counts.
    fn agrees_up_to(self, state: &[u32]) -> bool {
        counts(state).and_then(|counts| self.cut(counts)).is_some_and(|before| before.agrees(state))
    }

    /// The state after a batch: the lists are those with the batch at their end.
    pub fn append(self, state: &[u32]) -> Answer<[u32; STATE]> {
        let after = self.prepare()?;
        require(self.agrees_up_to(state), 34, 0)?;
        Ok(after)
    }

    /// The state of fewer rows, members and entries.
    pub fn go_back(self, to: Counts, state: &[u32]) -> Answer<[u32; STATE]> {
        require(counts(state).is_none_or(|counts| to.within(counts)), 1, ROWS)?;
        let Some(kept) = self.cut(to) else { return refuse(1, ROWS) };
        let after = kept.prepare()?;
        require(self.agrees_up_to(state), 34, 0)?;
        Ok(after)
    }

    /// Judges a message with a state.
    pub fn check_prepared(self, state: &[u32], root: u32, message: Message) -> Answer<()> {
        let schema = self.schema()?;
        require(self.agrees(state), 34, 0)?;
        schema.check(root, message)
    }
}

/// The counts of a state; a list of another length has none.
pub fn counts(state: &[u32]) -> Option<Counts> {
    let &[rows, members, entries, ..] = <&[u32; STATE]>::try_from(state).ok()?;
    Some(Counts { rows: rows.into(), members: members.into(), entries: entries.into() })
}
