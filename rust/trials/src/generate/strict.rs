//! Strict enums and strict bits: rows with their entries, values inside and outside of them, and what makes such a row
//! unsound.

use super::table::Lists;
use crate::random::Random;
use std::collections::BTreeSet;

const MOST_ENTRIES: usize = 1024;

/// The largest number of so many bytes.
fn largest(width: u32) -> u64 {
    u64::MAX >> (64 - 8 * width)
}

/// A pattern of so many bytes, at an edge or small more often than by chance.
fn pattern(random: &mut Random, width: u32) -> u64 {
    match random.below(6) {
        0 => 0,
        1 => largest(width),
        2 | 3 => random.below(20) as u64,
        _ => random.word() & largest(width),
    }
}

/// The cells of a row of kind 11 or 12.
pub fn row(random: &mut Random, lists: &mut Lists, kind: u32) -> [u32; 4] {
    if random.one_in(4)
        && let Some(other) = some_row(random, lists)
    {
        return sharing(random, lists.row(other), kind);
    }
    let width = random.pick(&[1, 1, 2, 4, 8]);
    let entries = if kind == 11 { rising(random, width) } else { vec![pattern(random, width)] };
    let room = MOST_ENTRIES - lists.entries.len();
    if entries.len() > room {
        return [2, width, 0, 0];
    }
    if entries.len() < room && random.one_in(10) {
        // one that no row names
        lists.entries.push(random.word());
    }
    let first = lists.entries.len();
    lists.entries.extend(&entries);
    [kind, width, first as u32, entries.len() as u32]
}

/// A row that names some of the entries of another one, of the same width.
fn sharing(random: &mut Random, [_, width, first, count]: [u32; 4], kind: u32) -> [u32; 4] {
    let past = random.below(count as usize) as u32;
    let count = if kind == 11 { random.between(1, (count - past) as usize) as u32 } else { 1 };
    [kind, width, first + past, count]
}

/// The entries of an enum.
fn rising(random: &mut Random, width: u32) -> Vec<u64> {
    let count = match random.below(40) {
        0 => random.pick(&[255, 256, 1000, MOST_ENTRIES]),
        1..6 => 14,
        _ => random.between(1, 6),
    };
    let count = if width == 1 { count.min(256) } else { count };
    let mut entries = BTreeSet::new();
    while entries.len() < count {
        entries.insert(pattern(random, width));
    }
    entries.into_iter().collect()
}

/// One of the rows of kinds 11 and 12, if there is one.
pub fn some_row(random: &mut Random, lists: &Lists) -> Option<u32> {
    let strict: Vec<u32> = (0..lists.count() as u32).filter(|&row| lists.is_strict(row)).collect();
    if strict.is_empty() { None } else { Some(random.pick(&strict)) }
}

/// A value of such a row in a sound table.
pub fn value(random: &mut Random, lists: &Lists, row: u32) -> u64 {
    let entry = random.pick(lists.entries_of(row));
    if lists.row(row)[0] == 11 || random.one_in(4) { entry } else { entry & random.word() }
}

/// A number that is no value most times: beside an entry or a mask, anything of the width, or too large for it.
pub fn stranger(random: &mut Random, lists: &Lists, row: u32) -> u64 {
    let width = lists.row(row)[1];
    let entry = random.pick(lists.entries_of(row));
    let number = match random.below(4) {
        0 => entry.wrapping_add(1),
        1 => entry.wrapping_sub(1),
        2 => entry ^ 1 << random.below(8 * width as usize),
        _ => pattern(random, width),
    };
    if random.one_in(12) { number | 1 << random.below(64) } else { number & largest(width) }
}

/// Makes such a row unsound, in each of the ways that there are; more entries than there may be make the table so.
pub fn damage(random: &mut Random, lists: &mut Lists, row: u32) {
    let [kind, width, first, count] = lists.row(row);
    let all = lists.entries.len() as u32;
    let at = 4 * row as usize;
    match random.below(8) {
        0 => lists.rows[at + 1] = random.pick(&[0, 3, 5, 7, 9, 16, 1 << 8, u32::MAX]),
        // its last entry is one past the end, or all are further off
        1 => lists.rows[at + 2] = random.pick(&[(all + 1).saturating_sub(count), all, all + 1, 1 << 31]),
        // first and count wrap to a sum of 32 bits that is small
        2 => {
            let below = if kind == 11 { random.below(3) as u32 } else { 0 };
            lists.rows[at + 2] = u32::MAX - below;
            lists.rows[at + 3] = below + 1 + if kind == 11 { random.below(3) as u32 } else { 0 };
        }
        3 => lists.rows[at + 3] = random.pick(&[0, 2, count.wrapping_add(1), all + 1, u32::MAX]),
        4 => lists.entries.resize(random.pick(&[MOST_ENTRIES, MOST_ENTRIES + 1, MOST_ENTRIES + 1]), 0),
        fault => {
            let from = first as usize;
            let named = lists.entries.get_mut(from..from + count as usize);
            let Some(entries @ [_, ..]) = named else { return };
            let (some, last) = (random.below(entries.len()), entries.len() - 1);
            match fault {
                // two neighbours are equal, two entries change places, or one is too wide
                5 => entries[some] = entries[some.saturating_sub(1)],
                6 => entries.swap(some, last),
                _ => entries[some] = 1_u64.checked_shl(width.saturating_mul(8)).unwrap_or(u64::MAX),
            }
        }
    }
}
