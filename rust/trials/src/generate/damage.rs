//! Damage: small changes to a type table, a value list or a message, of the kinds that tests are about.

use super::table::Lists;
use super::{strict, text};
use crate::random::Random;

/// Numbers at which something changes.
const EDGES: [u64; 24] = [
    0,
    1,
    2,
    3,
    4,
    5,
    7,
    8,
    9,
    12,
    16,
    64,
    65,
    255,
    256,
    8192,
    65_528,
    65_535,
    65_536,
    0xffff_fff8,
    0xffff_ffff,
    1 << 32,
    1 << 61,
    u64::MAX,
];

/// A strict row becomes unsound, or a list is changed.
pub fn table(random: &mut Random, lists: &mut Lists) {
    if random.one_in(3)
        && let Some(row) = strict::some_row(random, lists)
    {
        return strict::damage(random, lists, row);
    }
    match random.below(9) {
        0 => list(random, &mut lists.entries, |number| number),
        1..4 => list(random, &mut lists.members, |number| number as u32),
        _ => list(random, &mut lists.rows, |number| number as u32),
    }
}

/// A cell of a list becomes another number, or the list loses its whole length.
fn list<T: Copy + Default + Into<u64>>(random: &mut Random, list: &mut Vec<T>, cell: impl Fn(u64) -> T) {
    match random.below(12) {
        0 => drop(list.pop()),
        1 => list.push(cell(random.below(12) as u64)),
        2 if random.one_in(30) => {
            list.resize(random.pick(&[0, 1024, 1025, 1028, 2048, 2050]), T::default());
        }
        _ if list.is_empty() => {}
        _ => {
            let at = random.below(list.len());
            list[at] = cell(number(random, list[at].into()));
        }
    }
}

/// Another number than the one that stands there.
fn number(random: &mut Random, before: u64) -> u64 {
    match random.below(5) {
        0 => before.wrapping_add(1),
        1 => before.wrapping_sub(1),
        2 => random.word() >> random.pick(&[0, 32, 48, 56, 60]),
        _ => random.pick(&EDGES),
    }
}

/// A number of a value list is changed, dropped or put in, or the list ends early or late.
pub fn values(random: &mut Random, values: &mut Vec<u64>) {
    let at = random.below(values.len() + 1);
    match random.below(8) {
        0 => values.truncate(at),
        1 => values.insert(at, random.pick(&EDGES)),
        2 => values.push(random.pick(&EDGES)),
        3 if at < values.len() => drop(values.remove(at)),
        _ if at < values.len() => values[at] = number(random, values[at]),
        _ => {}
    }
}

/// Bytes of a message are changed, or it becomes shorter or longer.
pub fn message(random: &mut Random, message: &mut Vec<u8>) {
    match random.below(16) {
        0 => {
            let left = message.len() - random.between(0, 16).min(message.len());
            message.truncate(left);
        }
        1 => message.resize(message.len() + random.pick(&[1, 7, 8, 16]), 0),
        2 if random.one_in(50) => message.resize(random.pick(&[65_535, 65_536, 65_537, 65_544, 70_000]), 0),
        3 => {
            let at = 8 * random.below(message.len() / 8 + 1);
            message.splice(at..at, [0; 8]);
        }
        4..7 if !message.is_empty() => {
            let at = random.below(message.len());
            message[at] ^= random.pick(&[1, 2, 0x80, 0xff]);
        }
        7 if !message.is_empty() => {
            let at = random.below(message.len());
            message[at] = random.word() as u8;
        }
        8 if !message.is_empty() => letter(random, message),
        _ if message.len() >= 8 => word(random, message),
        _ => message.push(0),
    }
}

/// What may be a letter becomes a byte that few texts have there.
fn letter(random: &mut Random, message: &mut [u8]) {
    let from = random.below(message.len());
    if let Some(byte) = message[from..].iter_mut().find(|byte| byte.is_ascii_graphic()) {
        *byte = random.pick(&text::EDGES);
    }
}

/// The first and last bytes of an epitaph's parts: transaction, magic, ordinal, status, fill.
const EPITAPH_PARTS: [(usize, usize); 5] = [(0, 3), (7, 7), (8, 15), (16, 19), (20, 23)];

/// A byte of an epitaph is changed, or it becomes shorter or longer.
pub fn epitaph(random: &mut Random, message: &mut Vec<u8>) {
    match random.below(12) {
        0 => message.truncate(random.below(24)),
        1 => message.truncate(random.between(16, 23)),
        2..5 => message.resize(message.len() + random.between(1, 16), random.pick(&[0, 7])),
        5 if random.one_in(10) => message.resize(random.pick(&[65_536, 65_537]), 0),
        _ => {
            let (first, last) = random.pick(&EPITAPH_PARTS);
            if let Some(byte) = message.get_mut(random.between(first, last)) {
                *byte ^= random.pick(&[1, 2, 0x80, 0xff]);
            }
        }
    }
}

/// A whole word: a count, a presence, an ordinal or an envelope.
fn word(random: &mut Random, message: &mut [u8]) {
    let at = random.below(message.len() / 8);
    word_at(random, message, at);
}

/// The word with that number, if there is one.
fn word_at(random: &mut Random, message: &mut [u8], at: usize) {
    let (words, _) = message.as_chunks_mut::<8>();
    if at >= words.len() {
        return;
    }
    let before = u64::from_le_bytes(words[at]);
    let after = match random.below(10) {
        0 => 0,
        1 => u64::MAX,
        2 => before ^ 1 << 48,
        3 => before ^ 1 << random.between(49, 63),
        4 => before.wrapping_add(1 << 32),
        5 => before.wrapping_add(8),
        6 => before.wrapping_sub(8),
        7 => random.below(20) as u64,
        _ => number(random, before),
    };
    words[at] = after.to_le_bytes();
}

/// A second fault where the first one is: which of them is told depends on the order of the tests.
pub fn message_again(random: &mut Random, message: &mut [u8], place: u64) {
    let at = place as usize / 8 + random.below(2);
    word_at(random, message, at);
}

/// The same of a value list.
pub fn values_again(random: &mut Random, values: &mut [u64], index: u64) {
    if let Some(value) = values.get_mut(index as usize) {
        *value = number(random, *value);
    }
}

/// Another number of handles.
pub fn handles(random: &mut Random, before: u64) -> u64 {
    match random.below(6) {
        0 => before + 1,
        1 => before.saturating_sub(1),
        2 => 0,
        3 => 64,
        4 => 65,
        _ => random.pick(&EDGES),
    }
}
