//! Random texts, good and bad.

use crate::random::Random;

/// Bytes that break a text at most of its places.
pub const EDGES: [u8; 9] = [0x80, 0xbf, 0xc0, 0xc3, 0xe0, 0xed, 0xf0, 0xf4, 0xff];

/// A text of at most so many bytes: ASCII, or any characters, or, seldom, no UTF-8 at all.
pub fn text(random: &mut Random, largest: usize) -> Vec<u8> {
    let most = if random.one_in(40) { 300 } else { 12 };
    let length = random.below(most + 1).min(largest);
    let mut text = Vec::new();
    while text.len() < length {
        let character = match random.below(6) {
            0 => random.pick(&[
                '\0',
                'é',
                '\u{7ff}',
                '\u{800}',
                '語',
                '\u{d7ff}',
                '\u{e000}',
                '\u{ffff}',
                '😀',
                '\u{10ffff}',
            ]),
            _ => char::from(random.between(32, 126) as u8),
        };
        let mut bytes = [0; 4];
        text.extend(character.encode_utf8(&mut bytes).as_bytes());
    }
    while text.len() > length && std::str::from_utf8(&text[..length]).is_err() {
        text.insert(0, b'x');
    }
    text.truncate(length);
    if !text.is_empty() && random.one_in(25) {
        let at = random.below(text.len());
        text[at] = random.pick(&EDGES);
    }
    text
}

/// The same with up to two faults: it is cut off, or a byte is put in, dropped or changed.
pub fn damaged(random: &mut Random, largest: usize) -> Vec<u8> {
    let mut text = text(random, largest);
    for _ in 0..random.below(3) {
        let at = random.below(text.len() + 1);
        match random.below(5) {
            0 => text.truncate(at),
            1 => text.insert(at, random.pick(&EDGES)),
            2 if at < text.len() => drop(text.remove(at)),
            3 if at < text.len() => text[at] ^= random.pick(&[1, 0x10, 0x20, 0x40, 0x80]),
            _ if at < text.len() => text[at] = random.word() as u8,
            _ => text.push(random.word() as u8),
        }
    }
    text
}
