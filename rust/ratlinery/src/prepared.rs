//! A type table together with its prepared state.

use crate::refusal::Refusal;
use crate::{TypeTable, call};
use ratlinery_sys::STATE;
use ratlinery_sys::slices::Counts;

/// A type table that is sound, with the sizes of its rows worked out. It owns both the lists and the state, which so
/// always agree: none of its functions is refused with 34.
///
/// Rows, members and entries are added at the end, and taken off there. A refusal changes nothing.
///
/// ```
/// use ratlinery::{Place, Prepared, Reason, TypeTable, row};
///
/// // a struct of a vector of bytes
/// let rows = [row::number(1), row::vector(0, 100, false), row::structure(0, 1)];
/// let mut pads = Prepared::new(TypeTable::new(&rows, &[[1, 1]]))?;
/// let message = [1, 0, 0, 0, 0, 0, 0, 0, 255, 255, 255, 255, 255, 255, 255, 255, 7, 0, 0, 0, 0, 0, 0, 0];
/// pads.check(2, &message, 0)?;
///
/// // another pad: a struct of a button, 1, 2 or 4
/// let before = pads.counts();
/// pads.append(&[row::strict_enum(1, 0, 3), row::structure(1, 1)], &[[1, 3]], &[1, 2, 4])?;
/// pads.check(4, &[2, 0, 0, 0, 0, 0, 0, 0], 0)?;
/// assert_eq!(pads.check(4, &[3, 0, 0, 0, 0, 0, 0, 0], 0).unwrap_err().reason, Reason::UnknownValue);
/// assert_eq!(pads.table().layout(4)?.size, 1);
///
/// // a row that names what is not there
/// let refusal = pads.append(&[row::structure(2, 1)], &[], &[]).unwrap_err();
/// assert_eq!((refusal.reason, refusal.place), (Reason::TableNotSound, Place::Row(5)));
/// assert_eq!(pads.counts(), (5, 2, 3));
///
/// // and without the other pad again
/// let (rows, members, entries) = before;
/// pads.go_back(rows, members, entries)?;
/// assert_eq!(pads.check(4, &[2, 0, 0, 0, 0, 0, 0, 0], 0).unwrap_err().number(), 2);
/// pads.check(2, &message, 0)?;
/// # Ok::<(), ratlinery::Refusal>(())
/// ```
#[derive(Clone, Debug, PartialEq, Eq)]
pub struct Prepared {
    lists: Lists,
    state: Box<[u32; STATE]>,
}

impl Prepared {
    /// Prepares a copy of a whole type table (1).
    pub fn new(table: TypeTable) -> Result<Self, Refusal> {
        let mut state = Box::new([0; STATE]);
        call::prepare(table, &mut *state)?;
        Ok(Prepared { lists: Lists::of(table), state })
    }

    /// The type table, to read and to write by.
    pub fn table(&self) -> TypeTable<'_> {
        self.lists.table()
    }

    /// How many rows, members and entries there are.
    pub fn counts(&self) -> (usize, usize, usize) {
        let Lists { rows, members, entries } = &self.lists;
        (rows.len() / 4, members.len() / 2, entries.len())
    }

    /// Adds rows, members and entries at the end (1).
    pub fn append(
        &mut self,
        rows: &[[u32; 4]],
        members: &[[u32; 2]],
        entries: &[u64],
    ) -> Result<(), Refusal> {
        let before = self.counts();
        self.lists.rows.extend(rows.as_flattened());
        self.lists.members.extend(members.as_flattened());
        self.lists.entries.extend(entries);
        let appended = call::append(self.lists.table(), &mut *self.state);
        if appended.is_err() {
            self.lists.cut(before);
        }
        appended
    }

    /// Keeps the first so many rows, members and entries (1: there are fewer now, or a row that is kept names what is
    /// not).
    pub fn go_back(&mut self, rows: usize, members: usize, entries: usize) -> Result<(), Refusal> {
        let to = Counts { rows: rows as u64, members: members as u64, entries: entries as u64 };
        call::go_back(self.lists.table(), to, &mut *self.state)?;
        self.lists.cut((rows, members, entries));
        Ok(())
    }

    /// Is a message, with its number of handles, one of the root's type? Answers as [`TypeTable::check`] does.
    pub fn check(&self, root: u32, message: &[u8], handles: u64) -> Result<(), Refusal> {
        call::check_prepared(self.table().asked(root, message, handles), &*self.state)
    }
}

/// The lists of a type table.
#[derive(Clone, Debug, PartialEq, Eq)]
struct Lists {
    rows: Vec<u32>,
    members: Vec<u32>,
    entries: Vec<u64>,
}

impl Lists {
    fn of(table: TypeTable) -> Self {
        let (rows, members, entries) = table.lists();
        Lists { rows: rows.to_vec(), members: members.to_vec(), entries: entries.to_vec() }
    }

    fn table(&self) -> TypeTable<'_> {
        TypeTable::from_lists(&self.rows, &self.members).with_entries(&self.entries)
    }

    fn cut(&mut self, (rows, members, entries): (usize, usize, usize)) {
        self.rows.truncate(4 * rows);
        self.members.truncate(2 * members);
        self.entries.truncate(entries);
    }
}
