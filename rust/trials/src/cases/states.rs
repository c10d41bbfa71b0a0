//! Prepared states: single operations on states of every kind, and tables that grow and shrink in steps.

use super::{Description, describe, field, hex, some_value};
use crate::compare::{Compare, Different};
use crate::generate::table::Lists;
use crate::generate::{damage, state};
use crate::random::Random;
use ratlinery_reference::Message;
use ratlinery_reference::face::Table;
use ratlinery_reference::prepared::{Counts, START, STATE};
use ratlinery_reference::vectors::state_field;

pub fn run(random: &mut Random, compare: &mut Compare) -> Result<(), (Description, Different)> {
    match random.below(6) {
        0 => prepare(random, compare),
        1 => append(random, compare),
        2 => go_back(random, compare),
        3 => check(random, compare),
        _ => steps(random, compare),
    }
}

fn state_text(state: &[u32]) -> String {
    match state.try_into() {
        Ok(state) => state_field(state),
        Err(_) => format!("({} numbers: {})", state.len(), field(state)),
    }
}

/// The lists cut to counts that they have.
fn cut(lists: &Lists, counts: Counts) -> Table<'_> {
    lists.table().cut(counts).expect("counts of these lists")
}

fn damage_lists(random: &mut Random, lists: &mut Lists) {
    if random.one_in(5) {
        damage::table(random, lists);
    }
}

/// Into a list of any length, whatever it held.
fn prepare(random: &mut Random, compare: &mut Compare) -> Result<(), (Description, Different)> {
    let (mut lists, counts) = state::batches(random);
    damage_lists(random, &mut lists);
    let mut given = state::state(random, &lists, &counts);
    if random.one_in(3) {
        given.resize(state::other_length(random), 7);
    }
    let described = || format!("prepare {} (into {} numbers)", describe(&lists), given.len());
    let mut after = given.clone();
    compare.prepare(lists.table(), &mut after).map(|_| ()).map_err(|different| (described(), different))
}

/// A batch behind a state, now and then of lists that are shorter than the state's.
fn append(random: &mut Random, compare: &mut Compare) -> Result<(), (Description, Different)> {
    let (mut lists, counts) = state::batches(random);
    let given = state::state(random, &lists, &counts);
    if random.one_in(3) {
        let to = random.pick(&counts);
        let table = cut(&lists, to);
        lists = Lists {
            rows: table.rows.to_vec(),
            members: table.members.to_vec(),
            entries: table.entries.to_vec(),
        };
    }
    damage_lists(random, &mut lists);
    let described = || format!("append {} {}", state_text(&given), describe(&lists));
    let mut after = given.clone();
    compare.append(lists.table(), &mut after).map(|_| ()).map_err(|different| (described(), different))
}

/// To counts from before the state, most times.
fn go_back(random: &mut Random, compare: &mut Compare) -> Result<(), (Description, Different)> {
    let (mut lists, counts) = state::batches(random);
    let now = random.between(1, counts.len() - 1);
    let given = state::state(random, &lists, &counts[now..=now]);
    let from = if random.one_in(10) { 0 } else { 1 };
    let until = if random.one_in(6) { counts.len() - 1 } else { now };
    let to = state::earlier(random, &counts[from..=until]);
    if random.one_in(3) {
        state::overhang(random, &mut lists);
    }
    damage_lists(random, &mut lists);
    let Counts { rows, members, entries } = to;
    let described =
        || format!("go_back {} {} {rows} {members} {entries}", state_text(&given), describe(&lists));
    let mut after = given.clone();
    compare.go_back(lists.table(), to, &mut after).map(|_| ()).map_err(|different| (described(), different))
}

/// A message with a state that agrees with the lists, or not quite.
fn check(random: &mut Random, compare: &mut Compare) -> Result<(), (Description, Different)> {
    let (mut lists, root, list) = some_value(random);
    let written = lists.table().schema().and_then(|schema| schema.write(root, &list));
    let (bytes, handles) = written.unwrap_or_default();
    let counts = lists.counts();
    let given = state::state(random, &lists, &[counts]);
    match random.below(8) {
        // other lists of the same counts, or longer ones that begin alike
        0 => damage::table(random, &mut lists),
        1 => lists.rows.extend([1, 0, 0, 0]),
        2 => lists.members.extend([0, 0]),
        3 => lists.entries.push(0),
        _ => {}
    }
    let root = if random.one_in(20) { random.below(lists.count() + 2) as u32 } else { root };
    let message = Message { bytes: &bytes, handles };
    let described = || {
        format!(
            "state_check {} {} {root} {} {handles}",
            state_text(&given),
            describe(&lists),
            hex(message.bytes)
        )
    };
    compare
        .check_prepared(lists.table(), &given, root, message)
        .map(|_| ())
        .map_err(|different| (described(), different))
}

/// Batch by batch from the start, then back and forth: after each step the state is that of the lists in use.
fn steps(random: &mut Random, compare: &mut Compare) -> Result<(), (Description, Different)> {
    let (lists, counts) = state::batches(random);
    let start = counts[0];
    let counts = &counts[1..];
    let taken: Vec<Counts> = counts.iter().copied().chain((0..4).map(|_| random.pick(counts))).collect();
    let mut state = START;
    let mut now = start;
    for to in taken {
        let described = |state: &[u32; STATE]| {
            let Counts { rows, members, entries } = to;
            format!("{} {} to {rows} {members} {entries}", state_field(state), describe(&lists))
        };
        let before = state;
        now = step(compare, &lists, now, to, &mut state)
            .map_err(|different| (described(&before), different))?;
    }
    Ok(())
}

/// To counts, if they give a sound table; answers the counts in use.
fn step(
    compare: &mut Compare,
    lists: &Lists,
    now: Counts,
    to: Counts,
    state: &mut [u32; STATE],
) -> Result<Counts, Different> {
    let forth = to.rows >= now.rows && to.members >= now.members && to.entries >= now.entries;
    let given = if forth {
        compare.append(cut(lists, to), state)?
    } else {
        compare.go_back(lists.table(), to, state)?
    };
    let mut prepared = START;
    let whole = compare.prepare(cut(lists, to), &mut prepared)?;
    match given.number {
        0 if *state == prepared => Ok(to),
        1 if (whole.number, whole.place) == (1, given.place) => Ok(now),
        _ => Err(format!("{given:?} is not what preparing gives: {whole:?}, {}", state_field(&prepared))),
    }
}
