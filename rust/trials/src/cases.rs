//! The cases of the fuzz: one input each, put through every function that takes it.

#[cfg(feature = "prepared")]
mod states;

use crate::compare::{Compare, Different, Given, MOST_RESULTS};
#[cfg(feature = "prepared")]
use crate::generate::state;
use crate::generate::table::Lists;
use crate::generate::{damage, header, table, text, values};
use crate::random::Random;
use ratlinery_reference::face::Table;
#[cfg(feature = "prepared")]
use ratlinery_reference::prepared::START;
use ratlinery_reference::{Epitaph, Header, Message};

/// What a case was, for a report.
pub type Description = String;

/// Runs a case of a seed: what it was and what differs, if something does.
pub fn run(compare: &mut Compare, seed: u64, case: u64) -> Result<(), (Description, Different)> {
    let mut random = Random::of_case(seed, case);
    compare.answer_room = if random.one_in(4) { random.below(MOST_RESULTS + 2) } else { MOST_RESULTS };
    compare.shift = random.below(8);
    match random.below(if cfg!(feature = "prepared") { 26 } else { 22 }) {
        0 => header_read(&mut random, compare),
        1 => header_write(&mut random, compare),
        2 => epitaph_write(&mut random, compare),
        3 => layout(&mut random, compare),
        4 => utf8(&mut random, compare),
        5..11 => write(&mut random, compare),
        #[cfg(feature = "prepared")]
        11..15 => states::run(&mut random, compare),
        _ => read(&mut random, compare),
    }
}

/// A table with a root, and a value list of that root.
fn some_value(random: &mut Random) -> (Lists, u32, Vec<u64>) {
    let (lists, root) = table::table(random);
    let sound = lists.table().schema().is_ok();
    let list = if sound { values::values(random, &lists, root) } else { Vec::new() };
    (lists, root, list)
}

/// Another table or another root, now and then.
fn damage_type(random: &mut Random, lists: &mut Lists, root: &mut u32) {
    if random.one_in(12) {
        (0..random.between(1, 2)).for_each(|_| damage::table(random, lists));
    }
    if random.one_in(40) {
        *root = if random.one_in(2) { random.below(lists.count() + 2) as u32 } else { random.word() as u32 };
    }
}

fn layout(random: &mut Random, compare: &mut Compare) -> Result<(), (Description, Different)> {
    let (mut lists, _) = table::table(random);
    if random.one_in(2) {
        (0..random.between(1, 3)).for_each(|_| damage::table(random, &mut lists));
    }
    let row = if random.one_in(20) { random.word() as u32 } else { random.below(lists.count() + 1) as u32 };
    let described = || format!("layout {} {row}", describe(&lists));
    compare.layout(lists.table(), row).map(|_| ()).map_err(|different| (described(), different))
}

fn header_read(random: &mut Random, compare: &mut Compare) -> Result<(), (Description, Different)> {
    let message = header::message(random);
    let described = || format!("header_read {}", hex(&message));
    header_read_all(compare, &message).map_err(|different| (described(), different))
}

/// An epitaph that is read is written as the same message.
fn header_read_all(compare: &mut Compare, message: &[u8]) -> Result<(), Different> {
    let given = compare.header_read(message)?;
    let [_, flags, ordinal, _, _, status] = given.results;
    if given.number != 0 || ordinal != u64::MAX {
        return Ok(());
    }
    let [flag0, flag1, flag2, ..] = flags.to_le_bytes();
    let epitaph = Epitaph { flags: [flag0, flag1, flag2], status: status as i32 };
    let (given, bytes) = compare.epitaph_write(epitaph, message.len())?;
    if given.number == 0 && bytes == message {
        return Ok(());
    }
    Err(format!("what is read is not written as it was: {given:?}, {}", hex(&bytes)))
}

fn header_write(random: &mut Random, compare: &mut Compare) -> Result<(), (Description, Different)> {
    let header = header::header(random);
    let Header { transaction, flags, ordinal } = header;
    let room = if random.one_in(3) { random.below(16) } else { random.between(16, 24) };
    let described = || format!("header_write {transaction} {} {ordinal} {room}", hex(&flags));
    compare.header_write(header, room).map(|_| ()).map_err(|different| (described(), different))
}

fn epitaph_write(random: &mut Random, compare: &mut Compare) -> Result<(), (Description, Different)> {
    let epitaph = header::epitaph(random);
    let Epitaph { flags, status } = epitaph;
    let room = if random.one_in(3) { random.below(24) } else { random.between(24, 32) };
    let described = || format!("epitaph_write {} {status} {room}", hex(&flags));
    epitaph_write_all(compare, epitaph, room).map_err(|different| (described(), different))
}

/// An epitaph that is written is read as it was.
fn epitaph_write_all(compare: &mut Compare, epitaph: Epitaph, room: usize) -> Result<(), Different> {
    let (given, bytes) = compare.epitaph_write(epitaph, room)?;
    if given.number != 0 {
        return Ok(());
    }
    let [flag0, flag1, flag2] = epitaph.flags;
    let flags = u32::from_le_bytes([flag0, flag1, flag2, 0]).into();
    let status = i64::from(epitaph.status) as u64;
    let given = compare.header_read(&bytes)?;
    if given.number == 0 && given.results == [0, flags, u64::MAX, 16, 8, status] {
        return Ok(());
    }
    Err(format!("what is written is not read as it was: {given:?}"))
}

/// A text by itself, at any byte.
fn utf8(random: &mut Random, compare: &mut Compare) -> Result<(), (Description, Different)> {
    let mut bytes = text::damaged(random, 300);
    let (start, count) = (random.below(8), bytes.len());
    bytes.splice(..0, vec![0xa5; start]);
    let described = || format!("utf8 {} {start} {count}", hex(&bytes));
    compare.utf8(&bytes[start..]).map(|_| ()).map_err(|different| (described(), different))
}

/// A value list, damaged more often than not, into rooms around what it needs.
fn write(random: &mut Random, compare: &mut Compare) -> Result<(), (Description, Different)> {
    let (mut lists, mut root, mut list) = some_value(random);
    damage_type(random, &mut lists, &mut root);
    if random.one_in(3) {
        (0..random.between(1, 2)).for_each(|_| damage::values(random, &mut list));
    }
    if random.one_in(3)
        && let Ok(schema) = lists.table().schema()
        && let Err(refusal) = schema.write(root, &list)
    {
        damage::values_again(random, &mut list, refusal.place);
    }
    let room = random.below(64);
    let described = || format!("write {} {root} {}", describe(&lists), field(&list));
    write_all(random, compare, lists.table(), root, &list, room).map_err(|different| (described(), different))
}

/// Writes with some room, and with around as much as is needed. What is written is read as the same list.
fn write_all(
    random: &mut Random,
    compare: &mut Compare,
    table: Table,
    root: u32,
    list: &[u64],
    room: usize,
) -> Result<(), Different> {
    let (given, _) = compare.write(table, root, list, room)?;
    let Some(needed) = needed(given, given.results[0]) else { return Ok(()) };
    let room = around(random, needed);
    let (given, bytes) = compare.write(table, root, list, room)?;
    if given.number != 0 {
        return Ok(());
    }
    let message = Message { bytes: &bytes, handles: given.results[1] };
    let (given, read) = compare.read_values(table, root, message, list.len())?;
    if given.number == 0 && read == list {
        return Ok(());
    }
    Err(format!("what is written is not read as it was: {given:?}, {read:?}"))
}

/// A message of a type, damaged more often than not, into rooms around what its lists need.
fn read(random: &mut Random, compare: &mut Compare) -> Result<(), (Description, Different)> {
    let (mut lists, mut root, list) = some_value(random);
    // also one that is too deep, or that breaks an enum
    let written = lists.lax().table().schema().and_then(|schema| schema.write_to_depth(root, &list, 50));
    let (mut bytes, mut handles) = written.unwrap_or_else(|_| (vec![0; 8 * random.below(12)], 0));
    damage_type(random, &mut lists, &mut root);
    if !random.one_in(4) {
        (0..random.between(1, 3)).for_each(|_| damage::message(random, &mut bytes));
    }
    if random.one_in(10) {
        handles = damage::handles(random, handles);
    }
    if random.one_in(3)
        && let Ok(schema) = lists.table().schema()
        && let Err(refusal) = schema.check(root, Message { bytes: &bytes, handles })
    {
        damage::message_again(random, &mut bytes, refusal.place);
    }
    // the message stands at any byte
    let start = random.below(8);
    bytes.splice(..0, vec![0xa5; start]);
    let message = Message { bytes: &bytes[start..], handles };
    let described = || format!("read {} {root} {} {handles}", describe(&lists), hex(message.bytes));
    read_all(random, compare, lists.table(), root, message).map_err(|different| (described(), different))
}

/// Through the checker and every reader. What is read is written as the same message.
fn read_all(
    random: &mut Random,
    compare: &mut Compare,
    table: Table,
    root: u32,
    message: Message,
) -> Result<(), Different> {
    #[cfg(feature = "prepared")]
    check_all(random, compare, table, root, message)?;
    #[cfg(not(feature = "prepared"))]
    compare.check(table, root, message)?;
    let (some, other) = (random.below(20), random.below(20));
    let (given, _) = compare.read_values(table, root, message, some)?;
    let value_numbers = needed(given, given.results[0]);
    let given = compare.read_objects(table, root, message, other)?;
    let object_numbers = needed(given, given.results[0]);
    let (Some(value_numbers), Some(object_numbers)) = (value_numbers, object_numbers) else {
        compare.read(table, root, message, some, other)?;
        return Ok(());
    };
    let (value_room, object_room) = (around(random, value_numbers), around(random, object_numbers));
    compare.read(table, root, message, value_room, object_room)?;
    compare.read_objects(table, root, message, object_room)?;
    let (given, list) = compare.read_values(table, root, message, value_room)?;
    if given.number != 0 {
        return Ok(());
    }
    let (given, bytes) = compare.write(table, root, &list, message.bytes.len())?;
    if given.number == 0 && bytes == message.bytes && given.results[1] == message.handles {
        return Ok(());
    }
    Err(format!("what is read is not written as it was: {given:?}, {}", hex(&bytes)))
}

/// The same answer with a state that agrees; then with one that may not.
#[cfg(feature = "prepared")]
fn check_all(
    random: &mut Random,
    compare: &mut Compare,
    table: Table,
    root: u32,
    message: Message,
) -> Result<(), Different> {
    let without = compare.check(table, root, message)?;
    let mut state = START;
    compare.prepare(table, &mut state)?;
    let with = compare.check_prepared(table, &state, root, message)?;
    if (with.number, with.place) != (without.number, without.place) {
        return Err(format!("with a state: {with:?}, without one: {without:?}"));
    }
    if random.one_in(8) {
        state::change(random, &mut state);
        compare.check_prepared(table, &state, root, message)?;
    }
    Ok(())
}

/// How much an accepted input needs: what was given, or the place of 22.
fn needed(given: Given, count: u64) -> Option<usize> {
    match given.number {
        0 => Some(count as usize),
        22 => Some(given.place as usize),
        _ => None,
    }
}

/// A room that is just enough, or a little more or less.
fn around(random: &mut Random, needed: usize) -> usize {
    match random.below(6) {
        0 => needed.saturating_sub(1),
        1 => needed + 1,
        2 => needed + random.below(30),
        _ => needed,
    }
}

impl Lists {
    pub fn table(&self) -> Table<'_> {
        Table { rows: &self.rows, members: &self.members, entries: &self.entries }
    }
}

/// The fields of a table, as in vectors/.
fn describe(lists: &Lists) -> String {
    format!("{} {} {}", field(&lists.rows), field(&lists.members), field(&lists.entries))
}

fn field<T: ToString>(numbers: &[T]) -> String {
    let texts: Vec<String> = numbers.iter().map(T::to_string).collect();
    if texts.is_empty() { "-".into() } else { texts.join(",") }
}

fn hex(bytes: &[u8]) -> String {
    let text: String = bytes.iter().map(|byte| format!("{byte:02x}")).collect();
    if text.is_empty() { "-".into() } else { text }
}
