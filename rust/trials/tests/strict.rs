//! Strict enums and strict bits, through the C face: every value around the entries, and one that is not known at every
//! place of a vector.

use ratlinery::{Place, Reason, Refusal, TypeTable, row};

/// Checks, reads and writes a vector of a strict row: it comes back, or its first number that is not known is refused.
fn judge(strict: [u32; 4], entries: &[u64], numbers: &[u64]) {
    let rows = [strict, row::vector(0, 1000, false), row::structure(0, 1)];
    let table = TypeTable::new(&rows, &[[1, 1]]).with_entries(entries);
    let [kind, width, ..] = strict;
    let known = |number: &u64| if kind == 11 { entries.contains(number) } else { number & !entries[0] == 0 };
    let unknown = numbers.iter().position(|number| !known(number));
    let (read, written) =
        (unknown.map(|past| 16 + past as u64 * u64::from(width)), unknown.map(|past| 1 + past as u64));

    let mut message = (numbers.len() as u64).to_le_bytes().to_vec();
    message.extend([0xff; 8]);
    message.extend(numbers.iter().flat_map(|number| number.to_le_bytes().into_iter().take(width as usize)));
    message.resize(message.len().next_multiple_of(8), 0);
    let values = [&[numbers.len() as u64 + 1], numbers].concat();

    let refused = read.map(|byte| Refusal { reason: Reason::UnknownValue, place: Place::Byte(byte) });
    assert_eq!(table.check(2, &message, 0), refused.map_or(Ok(()), Err), "{numbers:?}");
    assert_eq!(table.read_values(2, &message, 0), refused.map_or(Ok(values.clone()), Err), "{numbers:?}");
    let refused = written.map(|index| Refusal { reason: Reason::NotAValue, place: Place::Index(index) });
    let given = table.write(2, &values).map(|written| written.bytes);
    assert_eq!(given, refused.map_or(Ok(message), Err), "{numbers:?}");
}

/// Button codes with gaps between them.
fn buttons(count: u64) -> Vec<u64> {
    (0..count).map(|button| 3 * button + 1).collect()
}

#[test]
fn every_byte() {
    for byte in 0..=0xff {
        judge(row::strict_enum(1, 0, 14), &buttons(14), &[byte]);
        judge(row::strict_enum(1, 0, 1), &[byte ^ 1], &[byte]);
        for mask in [0, 1, 0x80, 0x6f, 0xff] {
            judge(row::strict_bits(1, 0), &[mask], &[byte]);
        }
    }
}

#[test]
fn every_place() {
    for (width, mask) in [(1, 0x7f), (2, 0x7fff), (4, 0x7fff_ffff), (8, u64::MAX >> 1)] {
        for length in 0..40 {
            let mut bits = vec![mask; length];
            let mut codes = vec![4; length];
            judge(row::strict_bits(width, 0), &[mask], &bits);
            judge(row::strict_enum(width, 0, 14), &buttons(14), &codes);
            for place in (0..length).rev() {
                (bits[place], codes[place]) = (mask + 1, 20);
                judge(row::strict_bits(width, 0), &[mask], &bits);
                judge(row::strict_enum(width, 0, 14), &buttons(14), &codes);
            }
        }
    }
}

/// The entries, and the numbers on both sides of each.
#[test]
fn as_many_entries_as_there_may_be() {
    for count in [1, 2, 3, 255, 256, 1023, 1024] {
        let entries = buttons(count);
        for number in 0..=3 * count {
            judge(row::strict_enum(8, 0, count as u32), &entries, &[number]);
        }
    }
}
