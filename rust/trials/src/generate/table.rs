//! Random type tables. They are sound but for a size that is too large now and then.

use super::strict;
use crate::random::Random;
use ratlinery_reference::prepared::Counts;

/// The lists of a type table.
#[derive(Clone, Debug, Default)]
pub struct Lists {
    pub rows: Vec<u32>,
    pub members: Vec<u32>,
    pub entries: Vec<u64>,
}

impl Lists {
    /// Without entries.
    pub fn new(rows: &[u32], members: &[u32]) -> Self {
        Lists { rows: rows.to_vec(), members: members.to_vec(), entries: Vec::new() }
    }

    /// How many whole rows there are.
    pub fn count(&self) -> usize {
        self.rows.len() / 4
    }

    pub fn counts(&self) -> Counts {
        let Lists { rows, members, entries } = self;
        let (rows, members, entries) = (rows.len() / 4, members.len() / 2, entries.len());
        Counts { rows: rows as u64, members: members as u64, entries: entries as u64 }
    }

    /// The cells of a row, all 0 if there is none.
    pub fn row(&self, row: u32) -> [u32; 4] {
        self.rows.as_chunks().0.get(row as usize).copied().unwrap_or_default()
    }

    /// The members that a row names, as far as they exist.
    pub fn members_of(&self, row: u32) -> &[[u32; 2]] {
        let [_, first, count, _] = self.row(row);
        let members = self.members.as_chunks().0;
        let first = members.len().min(first as usize);
        &members[first..members.len().min(first + count as usize)]
    }

    /// Counts of so many rows from the first on, with the members and entries that they name.
    pub fn counts_of(&self, rows: usize) -> Counts {
        let (mut members, mut entries) = (0, 0);
        for &[kind, a, b, c] in &self.rows.as_chunks().0[..rows] {
            match kind {
                7 | 9 | 10 => members = members.max(a + b),
                11 | 12 => entries = entries.max(b + c),
                _ => {}
            }
        }
        Counts { rows: rows as u64, members: members.into(), entries: entries.into() }
    }

    /// Whether a row is a strict enum or strict bits.
    pub fn is_strict(&self, row: u32) -> bool {
        matches!(self.row(row)[0], 11 | 12)
    }

    /// The entries that such a row names, in a sound table.
    pub fn entries_of(&self, row: u32) -> &[u64] {
        let [_, _, first, count] = self.row(row);
        &self.entries[first as usize..][..count as usize]
    }

    /// The same table with any pattern for a value of a strict row.
    pub fn lax(&self) -> Lists {
        let mut lax = self.clone();
        for row in lax.rows.as_chunks_mut::<4>().0 {
            if let [11 | 12, width, _, _] = *row {
                *row = [2, width, 0, 0];
            }
        }
        lax
    }
}

/// A table with a root that is allowed, most times.
pub fn table(random: &mut Random) -> (Lists, u32) {
    match random.below(24) {
        0..4 => chain(random),
        4 => {
            let count = random.between(11, 60);
            mixed(random, count)
        }
        5 if random.one_in(12) => {
            let count = random.between(200, 256);
            mixed(random, count)
        }
        _ => {
            let count = random.between(1, 10);
            mixed(random, count)
        }
    }
}

/// Types that hold themselves, for messages of any depth.
fn chain(random: &mut Random) -> (Lists, u32) {
    let optional = random.below(4) as u32;
    let (rows, members, root): (&[u32], &[u32], u32) = match random.below(7) {
        // a struct that boxes itself
        0 => (&[8, 1, 0, 0, 7, 0, 1, 0], &[1, 0], 1),
        // the same with a string behind the box
        1 => (&[8, 2, 0, 0, 6, 0, 9, 1, 7, 0, 2, 0], &[1, 0, 2, 1], 2),
        // a table of itself
        2 => (&[9, 0, 1, 0], &[1, 0], 0),
        // a union of itself and of a number
        3 => (&[10, 0, 2, optional, 2, 4, 0, 0], &[1, 0, 2, 1], 0),
        // a struct of a vector of itself
        4 => (&[5, 1, 9, 1, 7, 0, 1, 0], &[1, 0], 1),
        // a struct of a handle, a box of itself, a table and a union, which hold it too
        5 => (
            &[3, 1, 0, 0, 8, 4, 0, 0, 9, 0, 2, 0, 10, 2, 2, optional, 7, 4, 4, 0],
            &[2, 4, 3, 0, 1, 4, 5, 1, 1, 0, 2, 1, 3, 2, 4, 3],
            4,
        ),
        // a table without members: all its content is unknown
        _ => (&[9, 0, 0, 0], &[], 0),
    };
    (Lists::new(rows, members), root)
}

/// Rows of all kinds.
fn mixed(random: &mut Random, count: usize) -> (Lists, u32) {
    let mut kinds: Vec<u32> = (0..count).map(|row| kind(random, row)).collect();
    let root = random.below(count);
    if !matches!(kinds[root], 7 | 9 | 10) {
        kinds[root] = random.pick(&[7, 9, 10]);
    }
    let structs: Vec<u32> = (0..count as u32).filter(|&row| kinds[row as usize] == 7).collect();
    let mut lists = Lists::default();
    for (row, kind) in kinds.into_iter().enumerate() {
        let cells = cells(random, &mut lists, &structs, row as u32, count as u32, kind);
        lists.rows.extend(cells);
    }
    (lists, root as u32)
}

/// Row 0 has nothing to be made of, but for an empty struct.
fn kind(random: &mut Random, row: usize) -> u32 {
    let kind = random.pick(&[1, 2, 2, 2, 3, 4, 5, 5, 6, 6, 7, 7, 8, 9, 9, 10, 10, 11, 11, 12]);
    if row == 0 && kind == 4 { 2 } else { kind }
}

fn cells(
    random: &mut Random,
    lists: &mut Lists,
    structs: &[u32],
    row: u32,
    count: u32,
    kind: u32,
) -> [u32; 4] {
    let flag = random.below(2) as u32;
    let members = &mut lists.members;
    match kind {
        1 => [1, 0, 0, 0],
        2 => [2, random.pick(&[1, 1, 2, 4, 8]), 0, 0],
        3 => [3, flag, 0, 0],
        4 => [4, random.below(row as usize) as u32, array_count(random), 0],
        5 => [5, random.below(count as usize) as u32, largest(random), flag],
        6 => [6, 0, largest(random), flag],
        7 => {
            let parts = if row == 0 { 0 } else { random.below(6) as u32 };
            [7, struct_members(random, members, row, parts), parts, 0]
        }
        8 if !structs.is_empty() => [8, random.pick(structs), 0, 0],
        9 => {
            let parts = random.below(7) as u32;
            [9, rising_members(random, members, count, parts), parts, 0]
        }
        10 => {
            let parts = random.between(1, 5) as u32;
            [10, rising_members(random, members, count, parts), parts, random.below(4) as u32]
        }
        11 | 12 => strict::row(random, lists, kind),
        _ => [2, 8, 0, 0],
    }
}

fn array_count(random: &mut Random) -> u32 {
    match random.below(300) {
        0 => random.pick(&[8191, 32764, 65528]),
        1..8 => random.between(5, 70) as u32,
        _ => random.between(1, 4) as u32,
    }
}

fn largest(random: &mut Random) -> u32 {
    random.pick(&[0, 1, 2, 3, 5, 20, 100, 100, 65535, u32::MAX, u32::MAX])
}

/// Appends a struct's members and answers where they start. Members that no row names may stand before them.
fn struct_members(random: &mut Random, members: &mut Vec<u32>, row: u32, parts: u32) -> u32 {
    let first = unused(random, members);
    for ordinal in 1..=parts {
        members.extend([ordinal, random.below(row as usize) as u32]);
    }
    first
}

/// The members of a table or union, with gaps between their ordinals.
fn rising_members(random: &mut Random, members: &mut Vec<u32>, count: u32, parts: u32) -> u32 {
    let first = unused(random, members);
    let mut ordinal: u32 = 0;
    for _ in 0..parts {
        let step =
            if random.one_in(60) { random.pick(&[300, 1 << 31]) } else { random.pick(&[1, 1, 1, 2, 3]) };
        ordinal = ordinal.saturating_add(step);
        members.extend([ordinal, random.below(count as usize) as u32]);
    }
    first
}

fn unused(random: &mut Random, members: &mut Vec<u32>) -> u32 {
    if random.one_in(10) {
        members.extend([random.word() as u32, random.word() as u32]);
    }
    members.len() as u32 / 2
}
