//! The type table, and all that is asked under it.

use crate::call;
use crate::refusal::{Reason, Refusal};
use crate::tree::Tree;
use ratlinery_sys::slices::{Asked, Types};

/// A type table: rows, members and entries, as `include/ratlinery.h` describes them. Each call judges it anew.
#[cfg_attr(feature = "prepared", doc = "[`Prepared`](crate::Prepared) keeps what was worked out.")]
#[derive(Clone, Copy, Debug, PartialEq, Eq)]
pub struct TypeTable<'t> {
    pub(crate) types: Types<'t>,
}

/// The layout of a row in line.
#[derive(Clone, Copy, Debug, PartialEq, Eq, Hash)]
pub struct Layout {
    pub size: u32,
    pub alignment: u32,
}

/// What an object of a message is.
#[derive(Clone, Copy, Debug, PartialEq, Eq, Hash)]
#[repr(u8)]
pub enum ObjectKind {
    /// The root's own bytes.
    Primary = 1,
    /// The content of a vector or string; its row is that of the vector or string.
    Content = 2,
    /// A struct in a box.
    Boxed = 3,
    /// The envelopes of a table.
    Envelopes = 4,
    /// A payload out of line.
    Payload = 5,
    /// Unknown content out of line; its row is that of the table or union.
    Unknown = 6,
}

/// A run of a message's bytes that belong together.
#[derive(Clone, Copy, Debug, PartialEq, Eq, Hash)]
pub struct Object {
    pub kind: ObjectKind,
    pub row: u32,
    pub offset: u32,
    /// Without the fill after it.
    pub length: u32,
}

/// A message's two lists.
#[derive(Clone, Debug, PartialEq, Eq)]
pub struct Reading {
    pub values: Vec<u64>,
    pub objects: Vec<Object>,
}

/// A message that was written.
#[derive(Clone, Debug, PartialEq, Eq)]
pub struct Written {
    pub bytes: Vec<u8>,
    pub handles: u64,
}

impl<'t> TypeTable<'t> {
    /// A type table of whole rows and members, without entries.
    pub const fn new(rows: &'t [[u32; 4]], members: &'t [[u32; 2]]) -> Self {
        Self::from_lists(rows.as_flattened(), members.as_flattened())
    }

    /// A type table as lists of numbers, without entries. A list that is not whole is refused with the first call (1, row
    /// 256).
    pub const fn from_lists(rows: &'t [u32], members: &'t [u32]) -> Self {
        TypeTable { types: Types { rows, members, entries: &[] } }
    }

    /// The same rows and members with these entries, which strict enums and strict bits name.
    ///
    /// ```
    /// use ratlinery::{Reason, TypeTable, row};
    ///
    /// // a struct of a button, 1, 2 or 4, and of lamps, of which there are four
    /// let rows = [row::strict_enum(1, 0, 3), row::strict_bits(1, 3), row::structure(0, 2)];
    /// let table = TypeTable::new(&rows, &[[1, 0], [2, 1]]).with_entries(&[1, 2, 4, 0b1111]);
    /// assert_eq!(table.read_values(2, &[4, 0b1010, 0, 0, 0, 0, 0, 0], 0)?, [4, 0b1010]);
    ///
    /// // there is no button 3
    /// let refusal = table.check(2, &[3, 0b1010, 0, 0, 0, 0, 0, 0], 0).unwrap_err();
    /// assert_eq!(refusal.reason, Reason::UnknownValue);
    /// # Ok::<(), ratlinery::Refusal>(())
    /// ```
    pub const fn with_entries(self, entries: &'t [u64]) -> Self {
        TypeTable { types: Types { entries, ..self.types } }
    }

    /// The three lists: rows, members and entries.
    pub const fn lists(&self) -> (&'t [u32], &'t [u32], &'t [u64]) {
        let Types { rows, members, entries } = self.types;
        (rows, members, entries)
    }

    /// Is the table sound? (1)
    pub fn sound(&self) -> Result<(), Refusal> {
        self.layout(0).map(|_| ())
    }

    /// The layout of a row of any kind (1, 2).
    ///
    /// ```
    /// use ratlinery::{Layout, TypeTable, row};
    ///
    /// // a struct of a bool and a number of four bytes
    /// let rows = [row::BOOL, row::number(4), row::structure(0, 2)];
    /// let table = TypeTable::new(&rows, &[[1, 0], [2, 1]]);
    /// assert_eq!(table.layout(2), Ok(Layout { size: 8, alignment: 4 }));
    /// assert_eq!(table.layout(3).unwrap_err().number(), 2);
    /// ```
    pub fn layout(&self, row: u32) -> Result<Layout, Refusal> {
        let [size, alignment] = call::layout(*self, row)?;
        Ok(Layout { size: size as u32, alignment: alignment as u32 })
    }

    /// Is a message, with its number of handles, one of the root's type? (1 to 21, 28, 29, 35)
    pub fn check(&self, root: u32, message: &[u8], handles: u64) -> Result<(), Refusal> {
        call::check(self.asked(root, message, handles))
    }

    /// The value list and the object list of a message.
    pub fn read(&self, root: u32, message: &[u8], handles: u64) -> Result<Reading, Refusal> {
        let mut values = vec![0; most_values(message)];
        let mut objects = vec![0; most_object_numbers(message)];
        let (value_count, object_count) =
            self.read_into(root, message, handles, &mut values, &mut objects)?;
        values.truncate(value_count);
        Ok(Reading { values, objects: objects_of(&objects[..object_count]) })
    }

    /// The value list of a message.
    pub fn read_values(&self, root: u32, message: &[u8], handles: u64) -> Result<Vec<u64>, Refusal> {
        let mut values = vec![0; most_values(message)];
        let count = self.read_values_into(root, message, handles, &mut values)?;
        values.truncate(count);
        Ok(values)
    }

    /// The object list of a message.
    pub fn read_objects(&self, root: u32, message: &[u8], handles: u64) -> Result<Vec<Object>, Refusal> {
        let mut objects = vec![0; most_object_numbers(message)];
        let count = self.read_objects_into(root, message, handles, &mut objects)?;
        Ok(objects_of(&objects[..count]))
    }

    /// Puts a message's lists to the start of two lists that are lent, and answers how many numbers were given in each,
    /// four an object (22: the objects' room first). A refusal changes nothing.
    pub fn read_into(
        &self,
        root: u32,
        message: &[u8],
        handles: u64,
        values: &mut [u64],
        objects: &mut [u32],
    ) -> Result<(usize, usize), Refusal> {
        let [value_count, object_count] = call::read(self.asked(root, message, handles), values, objects)?;
        Ok((value_count as usize, object_count as usize))
    }

    /// Puts a message's value list to the start of a list that is lent, and answers how many numbers it has (22). A
    /// refusal changes nothing.
    pub fn read_values_into(
        &self,
        root: u32,
        message: &[u8],
        handles: u64,
        values: &mut [u64],
    ) -> Result<usize, Refusal> {
        call::read_values(self.asked(root, message, handles), values).map(|count| count as usize)
    }

    /// Puts a message's object list to the start of a list that is lent, and answers how many numbers it has, four an
    /// object (22). A refusal changes nothing.
    pub fn read_objects_into(
        &self,
        root: u32,
        message: &[u8],
        handles: u64,
        objects: &mut [u32],
    ) -> Result<usize, Refusal> {
        call::read_objects(self.asked(root, message, handles), objects).map(|count| count as usize)
    }

    /// Writes a value list as a message (1, 2, 3, 4, 5, 26).
    pub fn write(&self, root: u32, values: &[u64]) -> Result<Written, Refusal> {
        let mut bytes = vec![0; self.needed(root, values)?];
        let (length, handles) = self.write_into(root, values, &mut bytes)?;
        bytes.truncate(length);
        Ok(Written { bytes, handles })
    }

    /// Writes a value list as a message to the start of an output, and answers how many bytes and handles it has (1, 2, 3,
    /// 4, 5, 26, 22). A refusal changes nothing.
    pub fn write_into(&self, root: u32, values: &[u64], out: &mut [u8]) -> Result<(usize, u64), Refusal> {
        let [bytes, handles] = call::write(*self, root, values, out)?;
        Ok((bytes as usize, handles))
    }

    /// How many bytes a value list takes as a message (1, 2, 3, 4, 5, 26).
    pub fn needed(&self, root: u32, values: &[u64]) -> Result<usize, Refusal> {
        match self.write_into(root, values, &mut []) {
            Ok((bytes, _)) => Ok(bytes),
            Err(refusal) => refusal.needed().ok_or(refusal),
        }
    }

    /// A value list as a tree to walk (1, 2, 3, 4, 5, 26).
    pub fn tree<'v>(&self, root: u32, values: &'v [u64]) -> Result<Tree<'v>, Refusal> {
        self.needed(root, values)?;
        Ok(Tree::new(*self, root, values))
    }

    pub(crate) fn asked<'m>(&self, root: u32, message: &'m [u8], handles: u64) -> Asked<'m>
    where
        't: 'm,
    {
        Asked { types: self.types, root, message, handles }
    }
}

/// Room for any message's value list: each number stands in bytes of its own. A message that is too long has none.
fn most_values(message: &[u8]) -> usize {
    message.len().min(65_536)
}

/// Room for any message's object list: an object is the primary one, or has a record or envelope of at least 8 bytes.
fn most_object_numbers(message: &[u8]) -> usize {
    4 + message.len().min(65_536) / 2
}

fn objects_of(numbers: &[u32]) -> Vec<Object> {
    use ObjectKind::*;
    let kinds = [Primary, Content, Boxed, Envelopes, Payload, Unknown];
    let (objects, _) = numbers.as_chunks::<4>();
    let object = |&[kind, row, offset, length]: &[u32; 4]| Object {
        kind: kinds[kind as usize - 1],
        row,
        offset,
        length,
    };
    objects.iter().map(object).collect()
}

impl Refusal {
    /// Whether it is the room that was too small; then all else is well.
    pub fn is_room(&self) -> bool {
        self.reason == Reason::RoomTooSmall
    }
}
