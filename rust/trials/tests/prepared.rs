//! Prepared states, through the C face: every length of the list, every number of it, and tables built up row by row.

#![cfg(feature = "prepared")]

use ratlinery::{Place, Prepared, Reason, TypeTable, row};
use ratlinery_reference::Message;
use ratlinery_reference::face::{Face, Table};
use ratlinery_reference::prepared::{Counts, START, STATE};
use ratlinery_trials::library::Library;

/// A strict enum, a number, a struct of both, and a vector of that.
const TABLE: Table = Table {
    rows: &[11, 1, 0, 2, 2, 4, 0, 0, 7, 0, 2, 0, 5, 2, 9, 0],
    members: &[1, 0, 2, 1],
    entries: &[3, 5],
};
const COUNTS: Counts = Counts { rows: 4, members: 2, entries: 2 };
const MESSAGE: Message = Message { bytes: &[5, 0, 0, 0, 1, 0, 0, 0], handles: 0 };
const ROOT: u32 = 2;

fn prepared(table: Table) -> [u32; STATE] {
    let mut state = START;
    assert_eq!(Library.prepare(table, &mut state, &mut []), 0);
    state
}

/// What each operation that takes a state answers to a list: append of nothing, a return to where it is, a check.
fn answers(state: &[u32]) -> [u32; 3] {
    let mut place = [9];
    let mut held = state.to_vec();
    let appended = Library.append(TABLE, &mut held, &mut place);
    assert_eq!((place, &held[..]), ([0], state));
    let returned = Library.go_back(TABLE, COUNTS, &mut held, &mut [0]);
    assert_eq!(held, state);
    let checked = Library.check_prepared(TABLE, state, ROOT, MESSAGE, &mut place);
    assert_eq!(place, [0]);
    [appended, returned, checked]
}

#[test]
fn sizes_and_alignments() {
    let state = prepared(TABLE);
    assert_eq!(state[..3], [4, 2, 2]);
    assert_eq!(state[3..7], [1, 4, 8, 16]);
    assert_eq!(state[259..263], [1, 4, 4, 8]);
    assert_eq!(state.iter().filter(|&&number| number != 0).count(), 11);
    assert_eq!(answers(&state), [0, 0, 0]);
}

#[test]
fn every_length() {
    let whole = prepared(TABLE);
    for length in (0..=2 * STATE).filter(|&length| length != STATE) {
        let mut state = whole.to_vec();
        state.resize(length, 0);
        assert_eq!(answers(&state), [34, 34, 34], "{length} numbers");

        let mut given = vec![9; length];
        let mut place = [9];
        let number = Library.prepare(TABLE, &mut given, &mut place);
        if length < STATE {
            assert_eq!((number, place), (22, [STATE as u64]));
            assert_eq!(given, vec![9; length]);
        } else {
            assert_eq!((number, place), (0, [0]));
            assert_eq!(given[..STATE], whole);
            assert!(given[STATE..].iter().all(|&number| number == 9));
        }
    }
}

#[test]
fn every_number() {
    let whole = prepared(TABLE);
    for at in 0..STATE {
        for number in [0, 1, 2, 4, 8, 16, 256, 65_536, u32::MAX, whole[at] + 1, whole[at] ^ 1 << 16] {
            let mut state = whole;
            state[at] = number;
            let same = state == whole;
            let [appended, returned, checked] = answers(&state);
            assert_eq!([appended, checked], if same { [0, 0] } else { [34, 34] }, "{at}: {number}");
            // a return to a count above the state's is 1
            let above = at < 3 && number < whole[at];
            assert_eq!(returned, if same { 0 } else { 34 - 33 * u32::from(above) }, "{at}: {number}");
        }
    }
}

/// As many structs as there may be, each of the one before it: the state of each count is the same by every way there.
#[test]
fn row_by_row() {
    let rows: Vec<[u32; 4]> =
        (0..256).map(|row| if row == 0 { row::number(2) } else { row::structure(row - 1, 1) }).collect();
    let members: Vec<[u32; 2]> = (0..255).map(|row| [1, row]).collect();
    let mut grown = Prepared::new(TypeTable::new(&rows[..1], &[])).unwrap();
    let mut steps = vec![grown.clone()];
    for row in 1..256 {
        grown.append(&rows[row..=row], &members[row - 1..row], &[]).unwrap();
        assert_eq!(grown, Prepared::new(TypeTable::new(&rows[..=row], &members[..row])).unwrap());
        steps.push(grown.clone());
    }
    // there is no room for more
    let refusal = grown.append(&[row::BOOL], &[], &[]).unwrap_err();
    assert_eq!((refusal.reason, refusal.place), (Reason::TableNotSound, Place::Row(256)));
    assert_eq!(grown, steps[255]);
    for row in (0..256).rev() {
        let mut back = grown.clone();
        back.go_back(row + 1, row, 0).unwrap();
        assert_eq!(back, steps[row]);
        grown.go_back(row + 1, row, 0).unwrap();
        assert_eq!(grown, steps[row]);
    }
    assert_eq!(
        grown.go_back(0, 0, 0).unwrap_err().to_string(),
        "refusal 1: the type table is not sound (the length of a list, or a count, is wrong)"
    );
}

/// Members and entries that no row names count too: a check wants the state of all of them, an append takes one without.
#[test]
fn members_and_entries_that_no_row_names() {
    let few = prepared(TABLE);
    for longer in
        [Table { members: &[1, 0, 2, 1, 0, 0], ..TABLE }, Table { entries: &[3, 5, u64::MAX], ..TABLE }]
    {
        let many = prepared(longer);
        assert_ne!(few[..3], many[..3]);
        assert_eq!(few[3..], many[3..]);
        assert_eq!(Library.check_prepared(longer, &few, ROOT, MESSAGE, &mut []), 34);
        assert_eq!(Library.check_prepared(longer, &many, ROOT, MESSAGE, &mut []), 0);
        let mut state = few;
        assert_eq!(Library.append(longer, &mut state, &mut []), 0);
        assert_eq!(state, many);
        assert_eq!(Library.go_back(longer, COUNTS, &mut state, &mut []), 0);
        assert_eq!(state, few);
    }
}

/// The numbers fit together, but row 1 has another width than they say.
#[test]
fn a_state_of_a_table_much_like_it() {
    let rows = [&TABLE.rows[..5], &[2], &TABLE.rows[6..]].concat();
    let state = prepared(Table { rows: &rows, ..TABLE });
    assert_eq!(state[3..7], [1, 2, 4, 16]);
    assert_eq!(answers(&state), [34, 34, 34]);
}

/// A refusal of the table goes before one of the state, and that before one of the root.
#[test]
fn order() {
    let state = [7; STATE];
    let unsound = Table { entries: &[5, 3], ..TABLE };
    let mut place = [9];
    assert_eq!(Library.check_prepared(unsound, &state, 99, MESSAGE, &mut place), 1);
    assert_eq!(Library.append(unsound, &mut state.clone(), &mut place), 1);
    assert_eq!(Library.go_back(unsound, COUNTS, &mut state.clone(), &mut place), 1);
    assert_eq!(Library.check_prepared(TABLE, &state, 99, MESSAGE, &mut place), 34);
    assert_eq!(place, [0]);
    assert_eq!(Library.check_prepared(TABLE, &prepared(TABLE), 99, MESSAGE, &mut place), 2);
    assert_eq!(place, [99]);
    assert_eq!(Library.prepare(unsound, &mut [], &mut place), 1);
}
