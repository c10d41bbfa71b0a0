//! The type table: judged (1), and laid out. Document 01, "The type table" and "Sizes"; document 02's W-206 for strict
//! enums and strict bits.

use crate::face::Table;
use crate::refusal::{Answer, refuse};

/// No in-line size is larger.
const LARGEST_SIZE: usize = 65_528;

/// A row by its kind, with what it names.
#[derive(Clone, Copy, Debug)]
pub(crate) enum Kind<'t> {
    Bool,
    /// Its width is its size.
    Number,
    /// Its values, which rise.
    Enum {
        entries: &'t [u64],
    },
    Bits {
        mask: u64,
    },
    Handle {
        optional: bool,
    },
    Array {
        element: usize,
        count: usize,
    },
    Vector {
        element: usize,
        largest: u64,
        optional: bool,
    },
    String {
        largest: u64,
        optional: bool,
    },
    /// A range of `Schema::fields`.
    Struct {
        first: usize,
        end: usize,
    },
    Box {
        inner: usize,
    },
    /// A range of the members.
    Table {
        first: usize,
        end: usize,
    },
    Union {
        first: usize,
        end: usize,
        optional: bool,
        flexible: bool,
    },
}

#[derive(Clone, Copy, Debug)]
pub(crate) struct Type<'t> {
    pub kind: Kind<'t>,
    pub size: usize,
    pub alignment: usize,
    /// How many value numbers there are in it, where it is plain: where nothing in it can refer out of line.
    pub plain: Option<usize>,
}

/// A struct's member: where it stands in the struct, and where the fill after it ends.
#[derive(Clone, Copy, Debug)]
pub(crate) struct Field {
    pub row: usize,
    pub offset: usize,
    pub fill: usize,
    pub end: usize,
}

/// Size and alignment of a row in line.
#[derive(Clone, Copy, Debug, PartialEq, Eq)]
pub struct Layout {
    pub size: usize,
    pub alignment: usize,
}

/// A sound type table, ready to walk by.
#[derive(Debug)]
pub struct Schema<'t> {
    pub(crate) types: Vec<Type<'t>>,
    pub(crate) fields: Vec<Field>,
    pub(crate) members: &'t [[u32; 2]],
    entries: &'t [u64],
}

impl<'t> Schema<'t> {
    /// Judges a type table: 1 at 256 if a list's length is wrong, else at the lowest bad row.
    pub fn new(Table { rows, members, entries }: Table<'t>) -> Answer<Self> {
        let (rows, rows_left) = rows.as_chunks::<4>();
        let (members, members_left) = members.as_chunks::<2>();
        let whole = rows_left.is_empty() && members_left.is_empty();
        if !whole || !(1..=256).contains(&rows.len()) || members.len() > 1024 || entries.len() > 1024 {
            return refuse(1, 256);
        }
        let types = Vec::with_capacity(rows.len());
        let mut schema = Schema { types, fields: Vec::new(), members, entries };
        for row in 0..rows.len() {
            match schema.judge(rows, row) {
                Some(sound) => schema.types.push(sound),
                None => return refuse(1, row),
            }
        }
        Ok(schema)
    }

    /// A row held against the table of kinds, line by line.
    fn judge(&mut self, rows: &[[u32; 4]], row: usize) -> Option<Type<'t>> {
        let [kind, a, b, c] = rows[row];
        let named = a as usize;
        let largest = u64::from(b);
        let optional = c == 1;
        match (kind, a, b, c) {
            (1, 0, 0, 0) => Some(Type::scalar(Kind::Bool, 1)),
            (2, 1 | 2 | 4 | 8, 0, 0) => Some(Type::scalar(Kind::Number, named)),
            (3, 0 | 1, 0, 0) => Some(Type::scalar(Kind::Handle { optional: a == 1 }, 4)),
            (4, _, 1..=65_528, 0) => self.array(row, named, b as usize),
            (5, _, _, 0 | 1) if named < rows.len() => {
                Some(Type::record(Kind::Vector { element: named, largest, optional }, 16))
            }
            (6, 0, _, 0 | 1) => Some(Type::record(Kind::String { largest, optional }, 16)),
            (7, _, _, 0) => self.structure(row, named, b as usize),
            (8, _, 0, 0) if rows.get(named).is_some_and(|inner| inner[0] == 7) => {
                Some(Type::record(Kind::Box { inner: named }, 8))
            }
            (9, _, _, 0) => {
                let (first, end) = self.rising(rows, named, b as usize)?;
                Some(Type::record(Kind::Table { first, end }, 16))
            }
            (10, _, 1.., 0..=3) => {
                let (first, end) = self.rising(rows, named, b as usize)?;
                let kind = Kind::Union { first, end, optional: c & 1 != 0, flexible: c & 2 != 0 };
                Some(Type::record(kind, 16))
            }
            (11, 1 | 2 | 4 | 8, _, 1..) => {
                let entries = self.within(named, b as usize, c as usize)?;
                let rising = entries.is_sorted_by(|before, after| before < after);
                rising.then(|| Type::scalar(Kind::Enum { entries }, named))
            }
            (12, 1 | 2 | 4 | 8, _, 1) => {
                let &[mask] = self.within(named, b as usize, 1)? else { return None };
                Some(Type::scalar(Kind::Bits { mask }, named))
            }
            _ => None,
        }
    }

    fn array(&self, row: usize, element: usize, count: usize) -> Option<Type<'t>> {
        let of = self.types.get(element).filter(|_| element < row)?;
        Type {
            kind: Kind::Array { element, count },
            size: of.size * count,
            alignment: of.alignment,
            plain: of.plain.map(|numbers| numbers * count),
        }
        .within_limit()
    }

    fn structure(&mut self, row: usize, first: usize, count: usize) -> Option<Type<'t>> {
        let members = self.members.get(first..first.checked_add(count)?)?;
        let start = self.fields.len();
        let (mut size, mut alignment, mut plain) = (0, 1, Some(0));
        for (ordinal, &[given, inner]) in (1..).zip(members) {
            let inner = inner as usize;
            let part = self.types.get(inner).filter(|_| given == ordinal && inner < row)?;
            let offset = usize::next_multiple_of(size, part.alignment);
            size = offset + part.size;
            alignment = alignment.max(part.alignment);
            plain = plain.zip(part.plain).map(|(before, more)| before + more);
            if let Some(before) = self.fields[start..].last_mut() {
                before.end = offset;
            }
            self.fields.push(Field { row: inner, offset, fill: size, end: size });
        }
        // an empty struct has one byte, which is fill
        size = usize::next_multiple_of(size.max(1), alignment);
        if let Some(last) = self.fields[start..].last_mut() {
            last.end = size;
        }
        let kind = Kind::Struct { first: start, end: self.fields.len() };
        Type { kind, size, alignment, plain }.within_limit()
    }

    /// The members of a table or a union: they exist, their ordinals are at least 1 and rise, their rows exist.
    fn rising(&self, rows: &[[u32; 4]], first: usize, count: usize) -> Option<(usize, usize)> {
        let end = first.checked_add(count)?;
        let mut before = 0;
        for &[ordinal, row] in self.members.get(first..end)? {
            if ordinal <= before || row as usize >= rows.len() {
                return None;
            }
            before = ordinal;
        }
        Some((first, end))
    }

    /// Entries that a row names: they exist, and fit into its bytes.
    fn within(&self, width: usize, first: usize, count: usize) -> Option<&'t [u64]> {
        let entries = self.entries.get(first..first.checked_add(count)?)?;
        entries.iter().all(|&entry| entry <= largest(width)).then_some(entries)
    }

    /// The root, if it may be one: 2.
    pub(crate) fn root(&self, root: u32) -> Answer<usize> {
        match self.types.get(root as usize).map(|row| row.kind) {
            Some(Kind::Struct { .. } | Kind::Table { .. } | Kind::Union { .. }) => Ok(root as usize),
            _ => refuse(2, root as usize),
        }
    }

    /// The layout of a row of any kind: 2 if there is no such row.
    pub fn layout(&self, row: u32) -> Answer<Layout> {
        match self.types.get(row as usize) {
            Some(&Type { size, alignment, .. }) => Ok(Layout { size, alignment }),
            None => refuse(2, row as usize),
        }
    }

    /// The row that a table or a union knows an ordinal by.
    pub(crate) fn known(&self, first: usize, end: usize, ordinal: u64) -> Option<usize> {
        let members = &self.members[first..end];
        let at = members.binary_search_by_key(&ordinal, |&[ordinal, _]| u64::from(ordinal)).ok()?;
        Some(members[at][1] as usize)
    }
}

/// The largest number of so many bytes, 1 to 8.
pub(crate) fn largest(width: usize) -> u64 {
    u64::MAX >> (64 - 8 * width)
}

impl<'t> Type<'t> {
    /// Bool, number, enum, bits, handle: aligned to their size.
    fn scalar(kind: Kind<'t>, size: usize) -> Self {
        Type { kind, size, alignment: size, plain: Some(1) }
    }

    /// What may refer out of line: aligned to 8.
    fn record(kind: Kind<'t>, size: usize) -> Self {
        Type { kind, size, alignment: 8, plain: None }
    }

    fn within_limit(self) -> Option<Self> {
        (self.size <= LARGEST_SIZE).then_some(self)
    }
}
