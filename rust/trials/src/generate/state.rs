//! Prepared states: type tables made in batches, and states that agree with lists or do not.

use super::table::{Lists, table};
use super::{damage, strict};
use crate::random::Random;
use ratlinery_reference::prepared::{Counts, START, STATE};

/// A type table that grew in batches, and the counts before the first and after each of them. A batch names nothing that
/// comes later.
pub fn batches(random: &mut Random) -> (Lists, Vec<Counts>) {
    let mut lists = Lists::default();
    let mut counts = vec![lists.counts()];
    for _ in 0..random.between(1, 4) {
        match random.below(10) {
            // nothing, or only what no row names
            0 => {}
            1 => lists.members.extend([random.word() as u32, random.word() as u32]),
            2 => lists.entries.push(random.word()),
            _ => {
                let (batch, _) = table(random);
                let first = lists.count() as u32;
                lists.extend(&batch);
                refer_back(random, &mut lists, first);
            }
        }
        counts.push(lists.counts());
    }
    (lists, counts)
}

/// Some rows of a batch name rows, members or entries from before it.
fn refer_back(random: &mut Random, lists: &mut Lists, first: u32) {
    if first == 0 {
        return;
    }
    for row in first..lists.count() as u32 {
        if !random.one_in(3) {
            continue;
        }
        let cells = match lists.row(row) {
            [kind @ (4 | 5), _, b, c] => [kind, random.below(first as usize) as u32, b, c],
            [11 | 12, ..] => strict::row(random, lists, 11),
            // a copy of an earlier row names the same
            [7, ..] => lists.row(random.below(first as usize) as u32),
            cells => cells,
        };
        lists.rows[4 * row as usize..][..4].copy_from_slice(&cells);
    }
}

/// A state of the lists cut to counts, if that is a sound table; else the start state.
pub fn of(lists: &Lists, counts: Counts) -> [u32; STATE] {
    lists.table().cut(counts).and_then(|table| table.prepare().ok()).unwrap_or(START)
}

/// A state that agrees with the lists cut to one of the counts, most times.
pub fn state(random: &mut Random, lists: &Lists, counts: &[Counts]) -> Vec<u32> {
    let counts = random.pick(counts);
    let mut state = match random.below(12) {
        0 => START,
        1 => relative(random, lists, counts),
        2 => {
            let (other, _) = table(random);
            of(&other, other.counts())
        }
        _ => of(lists, counts),
    };
    if random.one_in(4) {
        change(random, &mut state);
    }
    let length = if random.one_in(12) { other_length(random) } else { STATE };
    let mut state = state.to_vec();
    state.resize(length, 0);
    state
}

/// The state of a table that is much like this one: its numbers fit together, and are others.
fn relative(random: &mut Random, lists: &Lists, counts: Counts) -> [u32; STATE] {
    for _ in 0..4 {
        let mut other = lists.clone();
        damage::table(random, &mut other);
        let state = of(&other, counts);
        if state != START {
            return state;
        }
    }
    START
}

/// A number of a state becomes another one: a count, a size or an alignment, of a row in use or past them.
pub fn change(random: &mut Random, state: &mut [u32; STATE]) {
    let store = 3 + 256 * random.below(2);
    let used = (state[0] as usize).clamp(1, 256);
    let at = match random.below(8) {
        0..3 => random.below(3),
        3..6 => store + random.below(used),
        6 => store + used.min(255),
        _ => store + random.below(256),
    };
    state[at] = match random.below(6) {
        0 => state[at].wrapping_add(1),
        1 => state[at].wrapping_sub(1),
        2 => 0,
        3 => random.pick(&[1, 2, 4, 8, 16, 256, 257, 1024, 65_528, 65_536]),
        4 => state[at] ^ 1 << random.below(32),
        _ => random.word() as u32,
    };
}

/// A length that is not a state's.
pub fn other_length(random: &mut Random) -> usize {
    random.pick(&[0, 1, 2, 3, 4, 256, 259, 512, STATE - 1, STATE - 1, STATE + 1, STATE + 1, 2 * STATE])
}

/// Counts to go back to.
pub fn earlier(random: &mut Random, counts: &[Counts]) -> Counts {
    let mut to = random.pick(counts);
    if random.one_in(3) {
        let count = match random.below(3) {
            0 => &mut to.rows,
            1 => &mut to.members,
            _ => &mut to.entries,
        };
        *count = match random.below(5) {
            0 => count.wrapping_sub(1),
            1 => *count + 1,
            2 => 0,
            3 => random.below(*count as usize + 1) as u64,
            _ => random.pick(&[1 << 31, *count + (1 << 32), 1 << 63, u64::MAX]),
        };
    }
    to
}

/// Numbers that are not part of the table stand behind each list, so that it may not be whole.
pub fn overhang(random: &mut Random, lists: &mut Lists) {
    lists.rows.extend((0..random.below(6)).map(|_| random.word() as u32));
    lists.members.extend((0..random.below(4)).map(|_| random.word() as u32));
    lists.entries.extend((0..random.below(3)).map(|_| random.word()));
}

impl Lists {
    /// Puts a table behind this one; what its rows name moves along.
    fn extend(&mut self, other: &Lists) {
        let Counts { rows, members, entries } = self.counts();
        let (rows, members, entries) = (rows as u32, members as u32, entries as u32);
        for &[kind, a, b, c] in other.rows.as_chunks().0 {
            self.rows.extend(match kind {
                4 | 5 | 8 => [kind, a + rows, b, c],
                7 | 9 | 10 => [kind, a + members, b, c],
                11 | 12 => [kind, a, b + entries, c],
                _ => [kind, a, b, c],
            });
        }
        for &[ordinal, row] in other.members.as_chunks().0 {
            self.members.extend([ordinal, row.wrapping_add(rows)]);
        }
        self.entries.extend(&other.entries);
    }
}
