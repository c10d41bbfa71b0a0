//! Where text breaks, through the C face: the standard library's `from_utf8` names the same place, as `valid_up_to`.

use ratlinery::{Place, Reason, Refusal, TypeTable, check_utf8, row};
use ratlinery_trials::generate::text;
use ratlinery_trials::random::Random;

/// The first and last bytes of the ranges of RFC 3629's grammar, and their neighbours.
const EDGES: [u8; 28] = [
    0x00, 0x41, 0x7f, 0x80, 0x8f, 0x90, 0x9f, 0xa0, 0xbf, 0xc0, 0xc1, 0xc2, 0xc3, 0xdf, 0xe0, 0xe1, 0xe2,
    0xec, 0xed, 0xee, 0xef, 0xf0, 0xf1, 0xf3, 0xf4, 0xf5, 0xf8, 0xff,
];

/// 13 at that place, as the standard library has it; the bytes start at a place.
fn expected(bytes: &[u8], at: usize) -> Result<(), Refusal> {
    let refused = |place: usize| Refusal { reason: Reason::NotUtf8, place: Place::Byte(place as u64) };
    std::str::from_utf8(bytes).map(|_| ()).map_err(|broken| refused(at + broken.valid_up_to()))
}

fn judge(bytes: &[u8]) {
    assert_eq!(check_utf8(bytes), expected(bytes, 0), "{bytes:02x?}");
}

#[test]
fn every_text_of_up_to_two_bytes() {
    judge(&[]);
    for first in 0..=0xff {
        judge(&[first]);
        for second in 0..=0xff {
            judge(&[first, second]);
        }
    }
}

/// Whole, cut off behind each byte, and behind text that ends anywhere in a run of eight.
#[test]
fn every_sequence_at_the_edges_of_the_ranges() {
    for (case, [first, second, third, fourth]) in edges().enumerate() {
        let sequence = [first, second, third, fourth];
        judge(&sequence);
        judge(&sequence[..3]);
        let before = "é".repeat(case % 3) + &"a".repeat(case % 17);
        let mut bytes = before.into_bytes();
        bytes.extend(sequence);
        judge(&bytes);
        bytes.extend([b'z'; 9]);
        judge(&bytes);
    }
}

fn edges() -> impl Iterator<Item = [u8; 4]> {
    let count = EDGES.len();
    (0..count.pow(4))
        .map(move |n| [n, n / count, n / count.pow(2), n / count.pow(3)].map(|digits| EDGES[digits % count]))
}

/// A byte that no text has, and a sequence that is cut off, at every place of texts of every length up to 100.
#[test]
fn every_place() {
    for length in 0..100 {
        for place in 0..=length {
            for text in ["a", "é", "語", "😀"] {
                let mut bytes = text.repeat(place).into_bytes();
                judge(&bytes);
                bytes.push(0xff);
                bytes.extend(text.repeat(length - place).bytes());
                judge(&bytes);
                let cut_off = bytes.len() - 1;
                judge(&bytes[..cut_off]);
            }
        }
    }
}

/// Random texts with up to two faults, by themselves and as the string of a message, which starts at byte 16.
#[test]
fn damaged_texts_and_messages() {
    let rows = [row::string(1000, false), row::structure(0, 1)];
    let table = TypeTable::new(&rows, &[[1, 0]]);
    let mut bad = 0;
    for case in 0..200_000 {
        let bytes = text::damaged(&mut Random::of_case(201, case), 1000);
        judge(&bytes);
        let mut message = (bytes.len() as u64).to_le_bytes().to_vec();
        message.extend([0xff; 8]);
        message.extend(&bytes);
        message.resize(message.len().next_multiple_of(8), 0);
        let checked = table.check(1, &message, 0);
        assert_eq!(checked, expected(&bytes, 16), "{bytes:02x?}");
        bad += usize::from(checked.is_err());
    }
    assert!(bad > 10_000, "{bad} of the texts are bad");
}
