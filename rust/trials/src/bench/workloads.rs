//! What is measured: a type table with a message and its value list each, and type tables alone.

use crate::generate::table::Lists;
use crate::random::Random;
use ratlinery_reference::Message;

/// A message of a type; or a type table alone, whose own bytes then stand where a message's would.
pub struct Workload {
    pub name: String,
    pub lists: Lists,
    pub root: u32,
    pub bytes: Vec<u8>,
    pub handles: u64,
    pub values: Vec<u64>,
}

impl Workload {
    /// The message that a value list is written to.
    fn new(name: &str, rows: &[u32], members: &[u32], root: u32, values: Vec<u64>) -> Self {
        Self::of_lists(name, Lists::new(rows, members), root, values)
    }

    fn of_lists(name: &str, lists: Lists, root: u32, values: Vec<u64>) -> Self {
        let written = lists.table().schema().and_then(|schema| schema.write(root, &values));
        let (bytes, handles) = written.unwrap_or_else(|refusal| panic!("{name}: {refusal:?}"));
        Workload { name: name.into(), lists, root, bytes, handles, values }
    }

    /// A type table whose last row is laid out.
    fn table(name: &str, rows: &[[u32; 4]], members: &[[u32; 2]]) -> Self {
        let lists = Lists::new(&rows.concat(), &members.concat());
        let bytes = lists.rows.iter().chain(&lists.members).flat_map(|number| number.to_le_bytes()).collect();
        Workload {
            name: name.into(),
            lists,
            root: rows.len() as u32 - 1,
            bytes,
            handles: 0,
            values: Vec::new(),
        }
    }

    pub fn message(&self) -> Message<'_> {
        Message { bytes: &self.bytes, handles: self.handles }
    }
}

/// The most bytes that the large workloads take.
const LARGE: usize = 60_000;

/// Texts that are repeated.
pub const ASCII: &str = "The quick brown fox jumps over the lazy dog. ";
pub const MIXED: &str = "naïve café, 日本語のテキスト, emoji 😀🚀; plain words too. ";

/// The workloads that the targets are about.
pub fn all() -> Vec<Workload> {
    vec![
        document_case(),
        mixed_table(),
        plain_structs(LARGE),
        filled_structs("structs with bool and fill", LARGE),
        numbers("bytes", [2, 1, 0, 0], &[], (0..LARGE).map(|i| i as u64 % 251)),
        numbers("bools", [1, 0, 0, 0], &[], (0..LARGE).map(|i| i as u64 / 3 % 2)),
        strict_enums(),
        strict_bits(),
        text("ASCII text", ASCII),
        text("mixed text", MIXED),
        boxes(),
        unions(),
        unknown_envelopes(),
    ]
}

/// Type tables at the limits, made to cost as much as they can: each takes all 256 rows.
pub fn tables() -> Vec<Workload> {
    vec![doubled_structs(), shared_members()]
}

/// The same with messages of zeros, small ones, so that the type table's part shows.
pub fn at_limits() -> Vec<Workload> {
    let [doubled, shared] = [doubled_structs(), shared_members()].map(|workload| workload.lists);
    vec![
        Workload::of_lists("the first of 255 structs", doubled.clone(), 1, vec![0]),
        Workload::of_lists("structs doubled 8 times", doubled, 248, vec![0; 256]),
        Workload::of_lists("the last of 252 structs", shared, 255, vec![0; 1024]),
    ]
}

/// 240 structs, each in the next, under 15 structs of two of the one before: whoever works out an inner row anew for
/// each member that names it takes millions of steps.
fn doubled_structs() -> Workload {
    let mut rows = vec![[2, 1, 0, 0]];
    let mut members = Vec::new();
    for row in 0..255 {
        let count = if row < 240 { 1 } else { 2 };
        rows.push([7, members.len() as u32, count, 0]);
        members.extend((1..=count).map(|ordinal| [ordinal, row]));
    }
    Workload::table("structs doubled 15 times", &rows, &members)
}

/// 252 structs that name the same 1,024 members, whose alignments follow no pattern.
fn shared_members() -> Workload {
    let mut random = Random::of_case(1, 1);
    let numbers = [1, 2, 4, 8].map(|width| [2, width, 0, 0]);
    let rows = [&numbers[..], &[[7, 0, 1024, 0]; 252]].concat();
    let members: Vec<[u32; 2]> = (1..=1024).map(|ordinal| [ordinal, random.pick(&[0, 1, 2, 3])]).collect();
    Workload::table("252 structs of 1,024 members", &rows, &members)
}

/// Two messages of each size from 1 KB to 64 KB: structs with fill, and strings, each an object of its own.
pub fn growing() -> Vec<(&'static str, Vec<Workload>)> {
    let sizes: Vec<usize> = (0..7).map(|step| 1024 << step).collect();
    vec![
        ("structs", sizes.iter().map(|&size| filled_structs(&kilobytes(size), size - 32)).collect()),
        ("strings", sizes.iter().map(|&size| strings(&kilobytes(size), size - 32)).collect()),
    ]
}

fn kilobytes(size: usize) -> String {
    format!("{} KB", size / 1024)
}

/// Case P1 of document 01.
fn document_case() -> Workload {
    let rows = [2, 1, 0, 0, 2, 2, 0, 0, 6, 0, 8, 1, 7, 0, 2, 0, 9, 2, 3, 0];
    Workload::new("P1", &rows, &[1, 1, 2, 1, 1, 0, 2, 3, 3, 2], 4, vec![2, 1, 2, 1, 100, 65533])
}

/// A table of 40 members of ten types.
fn mixed_table() -> Workload {
    const MANY: u32 = u32::MAX;
    let rows = [
        [1, 0, 0, 0],
        [2, 1, 0, 0],
        [2, 4, 0, 0],
        [2, 8, 0, 0],
        [3, 0, 0, 0],
        [5, 1, MANY, 0],
        [6, 0, MANY, 0],
        [5, 2, MANY, 0],
        // a struct of a number, a bool and a number; a union of a number and a string
        [7, 0, 3, 0],
        [10, 3, 2, 2],
        [9, 5, 40, 0],
    ];
    let mut members: Vec<u32> = vec![1, 3, 2, 0, 3, 2, 1, 2, 2, 6];
    let mut values: Vec<u64> = vec![40];
    for ordinal in 1..=40 {
        let row = ordinal % 10;
        members.extend([ordinal, row]);
        values.push(1);
        match row {
            0 | 4 => values.push(1),
            1..=3 => values.push(200),
            5 => values.extend([&[17][..], &[9; 16]].concat()),
            6 => values.extend(string("a name of a thing")),
            7 => values.extend([7, 1, 2, 3, 4, 5, 6]),
            8 => values.extend([1 << 40, 1, 77]),
            _ => values.extend([&[2][..], &string("another name")].concat()),
        }
    }
    Workload::new("table of 40 members", &rows.concat(), &members, 10, values)
}

/// A string as a value list has it.
fn string(text: &str) -> Vec<u64> {
    std::iter::once(text.len() as u64 + 1).chain(text.bytes().map(u64::from)).collect()
}

/// A vector of structs of three numbers: nothing in them is judged.
fn plain_structs(bytes: usize) -> Workload {
    let rows = [2, 8, 0, 0, 2, 4, 0, 0, 7, 0, 3, 0, 5, 2, u32::MAX, 0, 7, 3, 1, 0];
    let count = bytes / 16;
    let values = counted(count, (0..count as u64).flat_map(|i| [i << 20, i, 7]));
    Workload::new("plain structs", &rows, &[1, 0, 2, 1, 3, 1, 1, 3], 4, values)
}

/// A vector of structs of a bool, three bytes of fill, a number of four bytes, one of two, and two bytes of fill.
fn filled_structs(name: &str, bytes: usize) -> Workload {
    let rows = [1, 0, 0, 0, 2, 4, 0, 0, 2, 2, 0, 0, 7, 0, 3, 0, 5, 3, u32::MAX, 0, 7, 3, 1, 0];
    let count = bytes / 12;
    let values = counted(count, (0..count as u64).flat_map(|i| [i % 2, i, i % 1000]));
    Workload::new(name, &rows, &[1, 0, 2, 1, 3, 2, 1, 4], 5, values)
}

/// A vector of strings of 16 bytes.
fn strings(name: &str, bytes: usize) -> Workload {
    let rows = [6, 0, u32::MAX, 0, 5, 0, u32::MAX, 0, 7, 0, 1, 0];
    let count = bytes / 32;
    let values = counted(count, (0..count).flat_map(|_| string("sixteen letters.")));
    Workload::new(name, &rows, &[1, 1], 2, values)
}

/// A vector of a row that has one number.
fn numbers(
    name: &str,
    row: [u32; 4],
    entries: &[u64],
    elements: impl ExactSizeIterator<Item = u64>,
) -> Workload {
    let rows = [row, [5, 0, u32::MAX, 0], [7, 0, 1, 0]].concat();
    let lists = Lists { entries: entries.to_vec(), ..Lists::new(&rows, &[1, 1]) };
    let values = counted(elements.len(), elements);
    Workload::of_lists(name, lists, 2, values)
}

/// Buttons, of which there are 14, in an order that nobody can foresee.
fn strict_enums() -> Workload {
    let entries: Vec<u64> = (0..14).map(|button| 3 * button + 1).collect();
    let mut random = Random::of_case(1, 3);
    let elements = (0..LARGE).map(|_| random.pick(&entries));
    numbers("strict enums", [11, 1, 0, 14], &entries, elements)
}

/// Of one byte: as many values as the vectors of bytes, bools and enums have, so that only what is judged differs.
fn strict_bits() -> Workload {
    const MASK: u64 = 0b0110_1111;
    numbers("strict bits", [12, 1, 0, 1], &[MASK], (0..LARGE).map(|i| i as u64 & MASK))
}

fn counted(count: usize, elements: impl Iterator<Item = u64>) -> Vec<u64> {
    std::iter::once(count as u64 + 1).chain(elements).collect()
}

/// A string of as many whole repetitions as fit.
fn text(name: &str, repeated: &str) -> Workload {
    let text = repeated.repeat(LARGE / repeated.len());
    Workload::new(name, &[6, 0, u32::MAX, 0, 7, 0, 1, 0], &[1, 0], 1, string(&text))
}

/// Structs that box one another.
fn boxes() -> Workload {
    let values = [&[1; 32][..], &[0]].concat();
    Workload::new("boxes 32 deep", &[8, 1, 0, 0, 7, 0, 1, 0], &[1, 0], 1, values)
}

/// Unions that hold one another.
fn unions() -> Workload {
    let values = [&[1; 32][..], &[0]].concat();
    Workload::new("unions 32 deep", &[10, 0, 1, 1], &[1, 0], 0, values)
}

/// A table that knows none of its 600 ordinals; every other content is out of line.
fn unknown_envelopes() -> Workload {
    let contents = (0..600).flat_map(|i| if i % 2 == 0 { [1, 0, 0, 42] } else { [1, 8, 0, 1 << 50] });
    let values = std::iter::once(600).chain(contents).collect();
    Workload::new("600 unknown envelopes", &[9, 0, 0, 0], &[], 0, values)
}
