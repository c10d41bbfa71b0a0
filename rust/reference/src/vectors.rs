//! The cases of vectors/, put through any implementation of the face.
//!
//! A line is a case and its answer: `case TAB answer` or `name | type | case | answer [| values] [| note]`. Fields are
//! separated by a space; `-` is an empty list, no bytes, or room for anything. A prepared state is
//! `rows:members:entries:sizes:alignments`, three counts and two stores; a store is its numbers that are not 0, as
//! `index=number` with `;` between them.

use crate::face::{Face, Table};
use crate::prepared::STATE;
#[cfg(feature = "prepared")]
use crate::prepared::{Counts, START};
use crate::{Epitaph, Header, Message};
use std::collections::BTreeMap;
use std::path::Path;

/// The files that are run.
pub const FILES: &[&str] = &[
    "text.txt",
    "base.txt",
    "conformance.txt",
    "document.txt",
    "circle.txt",
    "W-203.txt",
    "W-208.txt",
    "W-209.txt",
    "W-201.txt",
    "W-202.txt",
    "W-206.txt",
    #[cfg(feature = "prepared")]
    "W-207.txt",
];

/// What stands in a buffer before a call.
const UNTOUCHED: u8 = 0xa5;
/// A room that is enough for anything: no message has more bytes or gives more numbers.
const ENOUGH: usize = 65_536;

/// How many cases of each operation were run, and those that failed.
#[derive(Debug, Default)]
pub struct Report {
    pub passed: BTreeMap<String, usize>,
    pub failed: Vec<String>,
}

/// Runs every case of the files in a folder.
pub fn run_all(face: &dyn Face, folder: &Path) -> Report {
    let mut report = Report::default();
    for file in FILES {
        let path = folder.join(file);
        let text = std::fs::read_to_string(&path).unwrap_or_else(|e| panic!("{}: {e}", path.display()));
        for line in text.lines().filter(|line| !line.is_empty() && !line.starts_with('#')) {
            match run(face, line) {
                Ok(operation) => *report.passed.entry(operation).or_default() += 1,
                Err(why) => report.failed.push(format!("{file}: {why}\n  in: {line}")),
            }
        }
    }
    report
}

/// Runs a case and answers its operation, or what is wrong.
fn run(face: &dyn Face, line: &str) -> Result<String, String> {
    let fields: Vec<&str> = line.split(" | ").collect();
    let (case, answer, values) = match fields[..] {
        [only] => {
            let (case, answer) = only.split_once('\t').ok_or("no answer")?;
            (case, answer, None)
        }
        [_, _, case, answer, ref rest @ ..] => {
            (case, answer, rest.first().copied().filter(|field| !field.starts_with("note:")))
        }
        _ => return Err("fields".into()),
    };
    let (operation, inputs) = case.split_once(' ').ok_or("no inputs")?;
    let inputs: Vec<&str> = inputs.split(' ').collect();
    let expected: Vec<&str> = answer.split(' ').collect();
    let case = Case { face, inputs, expected };
    match operation {
        "utf8" => case.utf8(),
        "sound" => case.sound(),
        "layout" => case.layout(),
        "check" => case.check(values),
        "read" => case.read(),
        "write" => case.write(),
        "header_read" => case.header_read(),
        "header_write" => case.header_write(),
        "epitaph_write" => case.epitaph_write(),
        #[cfg(feature = "prepared")]
        "prepare" => case.prepare(),
        #[cfg(feature = "prepared")]
        "append" => case.append(),
        #[cfg(feature = "prepared")]
        "go_back" => case.go_back(),
        #[cfg(feature = "prepared")]
        "state_check" => case.state_check(),
        _ => Err("no such operation".into()),
    }
    .map(|()| operation.into())
}

struct Case<'c> {
    face: &'c dyn Face,
    inputs: Vec<&'c str>,
    expected: Vec<&'c str>,
}

/// The numbers of a field.
fn list<T: std::str::FromStr>(field: &str) -> Vec<T> {
    let number = |text: &str| text.parse().unwrap_or_else(|_| panic!("not a number: {text}"));
    if field == "-" { Vec::new() } else { field.split(',').map(number).collect() }
}

fn bytes(field: &str) -> Vec<u8> {
    let field = if field == "-" { "" } else { field };
    let (pairs, _) = field.as_bytes().as_chunks::<2>();
    let digit = |digit: u8| (digit as char).to_digit(16).expect("a hexadecimal digit") as u8;
    pairs.iter().map(|&[high, low]| digit(high) * 16 + digit(low)).collect()
}

fn room(field: &str) -> usize {
    if field == "-" { ENOUGH } else { list::<usize>(field)[0].min(2 * ENOUGH) }
}

fn hex(bytes: &[u8]) -> String {
    bytes.iter().map(|byte| format!("{byte:02x}")).collect()
}

/// A list as a field.
fn field<T: ToString>(numbers: &[T]) -> String {
    let texts: Vec<String> = numbers.iter().map(T::to_string).collect();
    or_dash(texts.join(","))
}

fn or_dash(text: String) -> String {
    if text.is_empty() { "-".into() } else { text }
}

/// The numbers of a prepared state's field.
#[cfg(feature = "prepared")]
fn state(field: &str) -> [u32; STATE] {
    let parts: Vec<&str> = field.split(':').collect();
    let mut state = START;
    let (counts, stores) = state.split_at_mut(3);
    for (count, field) in counts.iter_mut().zip(&parts) {
        *count = list(field)[0];
    }
    for (store, &field) in stores.chunks_mut(256).zip(&parts[3..]) {
        for pair in field.split(';').filter(|_| field != "-") {
            let (at, number) = pair.split_once('=').expect("index and number");
            store[list::<usize>(at)[0]] = list(number)[0];
        }
    }
    state
}

/// A prepared state as a field.
pub fn state_field(state: &[u32; STATE]) -> String {
    let (counts, stores) = state.split_at(3);
    let store = |numbers: &[u32]| {
        let pairs = numbers.iter().enumerate().filter(|&(_, &number)| number != 0);
        or_dash(pairs.map(|(at, number)| format!("{at}={number}")).collect::<Vec<_>>().join(";"))
    };
    let parts: Vec<String> = counts.iter().map(u32::to_string).chain(stores.chunks(256).map(store)).collect();
    parts.join(":")
}

/// What a call gave, held against what is expected.
fn same(what: &str, given: impl AsRef<str>, expected: &str) -> Result<(), String> {
    let given = given.as_ref();
    if given == expected { Ok(()) } else { Err(format!("{what}: {given}, expected {expected}")) }
}

/// That everything from an index on is as it was.
fn untouched<T: PartialEq>(what: &str, buffer: &[T], from: usize, before: T) -> Result<(), String> {
    match buffer[from..].iter().position(|now| *now != before) {
        None => Ok(()),
        Some(past) => Err(format!("{what}: index {} is touched", from + past)),
    }
}

const UNTOUCHED32: u32 = u32::from_ne_bytes([UNTOUCHED; 4]);
const UNTOUCHED64: u64 = u64::from_ne_bytes([UNTOUCHED; 8]);

impl Case<'_> {
    fn number(&self, input: usize) -> u64 {
        list(self.inputs[input])[0]
    }

    /// The number returned, the place and the results, as fields; nothing past them is touched.
    fn answered(
        &self,
        results: usize,
        call: impl FnOnce(&mut [u64]) -> u32,
    ) -> Result<(u32, String, Vec<u64>), String> {
        let mut answer = [UNTOUCHED64; 8];
        let number = call(&mut answer);
        untouched("answer", &answer, 1 + results, UNTOUCHED64)?;
        Ok((number, format!("{number} {}", answer[0]), answer[1..=results].to_vec()))
    }

    /// With the type table that stands from an input on.
    fn with_table_from(
        &self,
        first: usize,
        call: impl FnOnce(&Self, Table) -> Result<(), String>,
    ) -> Result<(), String> {
        let [rows, members, entries] = [0, 1, 2].map(|input| self.inputs[first + input]);
        let (rows, members, entries) = (list(rows), list(members), list(entries));
        call(self, Table { rows: &rows, members: &members, entries: &entries })
    }

    fn with_table(&self, call: impl FnOnce(&Self, Table) -> Result<(), String>) -> Result<(), String> {
        self.with_table_from(0, call)
    }

    /// The first two fields that are expected: number and place.
    fn verdict(&self) -> String {
        self.expected[..2].join(" ")
    }

    /// A text by itself, and as the one member of a struct: read (13, from its object's offset on) and written (26).
    fn utf8(&self) -> Result<(), String> {
        let message = bytes(self.inputs[0]);
        let from = self.number(1).min(message.len() as u64) as usize;
        let count = self.number(2).min((message.len() - from) as u64) as usize;
        let text = &message[from..from + count];
        let table = Table { rows: &[6, 0, u32::MAX, 0, 7, 0, 1, 0], members: &[1, 0], entries: &[] };
        let mut wire = (count as u64).to_le_bytes().to_vec();
        wire.extend([0xff; 8]);
        wire.extend(text);
        wire.resize(wire.len().next_multiple_of(8), 0);
        let values: Vec<u64> =
            std::iter::once(count as u64 + 1).chain(text.iter().map(|&byte| byte.into())).collect();
        let (_, judged, _) = self.answered(0, |answer| self.face.utf8(text, answer))?;
        same("utf8", judged, &self.verdict())?;
        let good = self.expected[0] == "0";
        let place = if good { 0 } else { 16 + list::<u64>(self.expected[1])[0] };
        let (_, checked, _) = self
            .answered(0, |answer| self.face.check(table, 1, Message { bytes: &wire, handles: 0 }, answer))?;
        same("check", checked, &format!("{} {place}", self.expected[0]))?;
        let mut out = vec![UNTOUCHED; wire.len()];
        let (_, written, _) =
            self.answered(2, |answer| self.face.write(table, 1, &values, &mut out, answer))?;
        same("write", written, if good { "0 0" } else { "26 0" })?;
        let after = if good { wire } else { vec![UNTOUCHED; wire.len()] };
        same("output", hex(&out), &hex(&after))
    }

    /// Soundness, by the layout of row 0: there is one if the lists are whole.
    fn sound(&self) -> Result<(), String> {
        self.with_table(|case, table| {
            let (_, verdict, _) = case.answered(2, |answer| case.face.layout(table, 0, answer))?;
            same("layout of row 0", verdict, &case.verdict())
        })
    }

    fn layout(&self) -> Result<(), String> {
        self.with_table(|case, table| {
            let row = case.number(3) as u32;
            let (_, verdict, results) = case.answered(2, |answer| case.face.layout(table, row, answer))?;
            same("layout", format!("{verdict} {} {}", results[0], results[1]), &case.expected.join(" "))
        })
    }

    fn check(&self, values: Option<&str>) -> Result<(), String> {
        self.with_table(|case, table| {
            let wire = bytes(case.inputs[4]);
            let message = Message { bytes: &wire, handles: case.number(5) };
            let root = case.number(3) as u32;
            let (_, verdict, _) = case.answered(0, |answer| case.face.check(table, root, message, answer))?;
            same("check", verdict, &case.verdict())?;
            match values {
                None => Ok(()),
                Some(values) => case.read_values(table, root, message, values),
            }
        })
    }

    /// The value list of a message, and the message that it is written to.
    fn read_values(&self, table: Table, root: u32, message: Message, values: &str) -> Result<(), String> {
        let mut given = vec![UNTOUCHED64; ENOUGH];
        let (number, verdict, results) =
            self.answered(1, |answer| self.face.read_values(table, root, message, &mut given, answer))?;
        same("read_values", verdict, &self.verdict())?;
        let count = results[0] as usize;
        same("values", field(&given[..count]), values)?;
        untouched("values", &given, count, UNTOUCHED64)?;
        if number != 0 {
            return Ok(());
        }
        let mut out = vec![UNTOUCHED; ENOUGH];
        let (_, verdict, results) =
            self.answered(2, |answer| self.face.write(table, root, &given[..count], &mut out, answer))?;
        same("write", verdict, "0 0")?;
        same("bytes", hex(&out[..results[0] as usize]), &hex(message.bytes))?;
        same("handles", results[1].to_string(), &message.handles.to_string())
    }

    /// Both lists together, and each by itself. With a room that is too small, which list 22 speaks of depends on what
    /// is lent: then only the lists lent together are compared.
    fn read(&self) -> Result<(), String> {
        self.with_table(|case, table| {
            let wire = bytes(case.inputs[4]);
            let message = Message { bytes: &wire, handles: case.number(5) };
            let root = case.number(3) as u32;
            let mut values = vec![UNTOUCHED64; room(case.inputs[6])];
            let mut objects = vec![UNTOUCHED32; room(case.inputs[7])];
            let (number, verdict, results) = case.answered(2, |answer| {
                case.face.read(table, root, message, &mut values, &mut objects, answer)
            })?;
            same("read", verdict, &case.verdict())?;
            let (value_count, object_count) = (results[0] as usize, results[1] as usize);
            same("values", field(&values[..value_count]), case.expected[2])?;
            same("objects", field(&objects[..object_count]), case.expected[3])?;
            untouched("values", &values, value_count, UNTOUCHED64)?;
            untouched("objects", &objects, object_count, UNTOUCHED32)?;
            if number == 22 {
                return Ok(());
            }
            case.read_values(table, root, message, case.expected[2])?;
            case.read_objects(table, root, message)
        })
    }

    fn read_objects(&self, table: Table, root: u32, message: Message) -> Result<(), String> {
        let mut objects = vec![UNTOUCHED32; ENOUGH];
        let (_, verdict, results) =
            self.answered(1, |answer| self.face.read_objects(table, root, message, &mut objects, answer))?;
        same("read_objects", verdict, &self.verdict())?;
        let count = results[0] as usize;
        same("objects alone", field(&objects[..count]), self.expected[3])?;
        untouched("objects alone", &objects, count, UNTOUCHED32)
    }

    fn write(&self) -> Result<(), String> {
        self.with_table(|case, table| {
            let values: Vec<u64> = list(case.inputs[4]);
            let root = case.number(3) as u32;
            let mut out = vec![UNTOUCHED; room(case.inputs[5])];
            let (_, verdict, results) =
                case.answered(2, |answer| case.face.write(table, root, &values, &mut out, answer))?;
            let length = results[0] as usize;
            let given = format!("{verdict} {length} {} {}", results[1], or_dash(hex(&out[..length])));
            same("write", given, &case.expected.join(" "))?;
            untouched("output", &out, length, UNTOUCHED)
        })
    }

    fn header_read(&self) -> Result<(), String> {
        let message = bytes(self.inputs[0]);
        let (number, verdict, results) =
            self.answered(6, |answer| self.face.header_read(&message, answer))?;
        let [transaction, flags, ordinal, start, length, status] = results[..] else { unreachable!() };
        let flags = hex(&flags.to_le_bytes()[..3]);
        let status = status as i64;
        // conformance.txt leaves out where a header's body starts and ends
        let body = if self.expected.len() == 6 {
            let whole = if number == 0 { message.len() } else { 0 };
            same("body", (start + length).to_string(), &whole.to_string())?;
            String::new()
        } else {
            format!(" {start} {}", start + length)
        };
        let given = format!("{verdict} {transaction} {flags} {ordinal}{body} {status}");
        same("header_read", given, &self.expected.join(" "))
    }

    fn header_write(&self) -> Result<(), String> {
        let flags = bytes(self.inputs[1])[..].try_into().expect("three flags");
        let header = Header { transaction: self.number(0) as u32, flags, ordinal: self.number(2) };
        self.written("header_write", room(self.inputs[3]), |out, answer| {
            self.face.header_write(header, out, answer)
        })
    }

    fn epitaph_write(&self) -> Result<(), String> {
        let flags = bytes(self.inputs[0])[..].try_into().expect("three flags");
        let epitaph = Epitaph { flags, status: list(self.inputs[1])[0] };
        self.written("epitaph_write", room(self.inputs[2]), |out, answer| {
            self.face.epitaph_write(epitaph, out, answer)
        })
    }

    /// What a writer of a header or an epitaph puts into so much room.
    fn written(
        &self,
        what: &str,
        room: usize,
        write: impl FnOnce(&mut [u8], &mut [u64]) -> u32,
    ) -> Result<(), String> {
        let mut out = vec![UNTOUCHED; room];
        let (_, verdict, results) = self.answered(1, |answer| write(&mut out, answer))?;
        let length = results[0] as usize;
        let given = format!("{verdict} {}", or_dash(hex(&out[..length])));
        same(what, given, &self.expected.join(" "))?;
        untouched("output", &out, length, UNTOUCHED)
    }

    /// From the start state. Into a list that holds something else and has room to spare, that is changed by an
    /// accepted table alone, and not past the state.
    #[cfg(feature = "prepared")]
    fn prepare(&self) -> Result<(), String> {
        self.with_table(|case, table| {
            case.steps("prepare", START, |state, answer| case.face.prepare(table, state, answer))?;
            let mut held = [UNTOUCHED32; STATE + 3];
            let (number, verdict, _) =
                case.answered(0, |answer| case.face.prepare(table, &mut held, answer))?;
            same("prepare", verdict, &case.verdict())?;
            let given = if number == 0 { STATE } else { 0 };
            same("state", field(&held[..given]), &field(&state(case.expected[2])[..given]))?;
            untouched("state", &held, given, UNTOUCHED32)
        })
    }

    #[cfg(feature = "prepared")]
    fn append(&self) -> Result<(), String> {
        self.with_table_from(1, |case, table| {
            case.steps("append", state(case.inputs[0]), |state, answer| {
                case.face.append(table, state, answer)
            })
        })
    }

    #[cfg(feature = "prepared")]
    fn go_back(&self) -> Result<(), String> {
        self.with_table_from(1, |case, table| {
            let [rows, members, entries] = [4, 5, 6].map(|input| case.number(input));
            let to = Counts { rows, members, entries };
            case.steps("go_back", state(case.inputs[0]), |state, answer| {
                case.face.go_back(table, to, state, answer)
            })
        })
    }

    /// A step from a state to the one that is expected.
    #[cfg(feature = "prepared")]
    fn steps(
        &self,
        what: &str,
        mut state: [u32; STATE],
        step: impl FnOnce(&mut [u32], &mut [u64]) -> u32,
    ) -> Result<(), String> {
        let (_, verdict, _) = self.answered(0, |answer| step(&mut state, answer))?;
        same(what, format!("{verdict} {}", state_field(&state)), &self.expected.join(" "))
    }

    #[cfg(feature = "prepared")]
    fn state_check(&self) -> Result<(), String> {
        self.with_table_from(1, |case, table| {
            let (state, wire) = (state(case.inputs[0]), bytes(case.inputs[5]));
            let message = Message { bytes: &wire, handles: case.number(6) };
            let root = case.number(4) as u32;
            let (_, verdict, _) =
                case.answered(0, |answer| case.face.check_prepared(table, &state, root, message, answer))?;
            same("check_prepared", verdict, &case.verdict())
        })
    }
}
