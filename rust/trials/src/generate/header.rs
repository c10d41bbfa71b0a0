//! Random headers and epitaphs, and messages that start with a header.

use super::damage;
use crate::random::Random;
use ratlinery_reference::{Epitaph, Header};

fn flags(random: &mut Random) -> [u8; 3] {
    [random.word() as u8, random.word() as u8, random.word() as u8]
}

/// A header, of an epitaph or with ordinal 0 now and then.
pub fn header(random: &mut Random) -> Header {
    let transaction = if random.one_in(3) { 0 } else { random.word() as u32 };
    let ordinal = if random.one_in(2) { random.pick(&[0, u64::MAX, u64::MAX, 1]) } else { random.word() };
    Header { transaction, flags: flags(random), ordinal }
}

pub fn epitaph(random: &mut Random) -> Epitaph {
    let edges = [0, 1, -1, -24, i32::MIN, i32::MAX];
    let status = if random.one_in(2) { random.pick(&edges) } else { random.word() as i32 };
    Epitaph { flags: flags(random), status }
}

/// A message with its header: a whole epitaph, damaged more often than not, or any header with bytes behind it.
pub fn message(random: &mut Random) -> Vec<u8> {
    if random.one_in(2) {
        return any_message(random);
    }
    let mut message = epitaph(random).bytes().to_vec();
    (0..random.below(4)).for_each(|_| damage::epitaph(random, &mut message));
    message
}

/// Any bytes, with a magic and an ordinal that mean something more often than by chance.
fn any_message(random: &mut Random) -> Vec<u8> {
    let mut message: Vec<u8> = (0..16).map(|_| random.word() as u8).collect();
    message[7] = if random.one_in(8) { random.word() as u8 } else { 1 };
    if random.one_in(3) {
        let ordinal: u64 = random.pick(&[0, 1, 0xffff_ffff, u64::MAX, u64::MAX]);
        message[8..].copy_from_slice(&ordinal.to_le_bytes());
    }
    if random.one_in(3) {
        message[..4].fill(0);
    }
    let length = match random.below(40) {
        0 => random.pick(&[65_535, 65_536, 65_537, 70_000]),
        1..5 => random.below(17),
        5..20 => random.between(16, 40),
        _ => 16,
    };
    message.resize(length, 7);
    message
}
