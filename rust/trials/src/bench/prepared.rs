//! What a prepared state is worth: checks with one and without, and a few rows appended against the whole prepared.

use super::measure::{fastest, time};
use super::workloads::{Workload, all, at_limits, tables};
use crate::generate::state;
use crate::library::Library;
use ratlinery_reference::face::Face;
use ratlinery_reference::prepared::STATE;
use std::hint::black_box;

/// How many times as long it may take as without a state: runs differ by as much.
const TARGET: f64 = 1.1;

/// How many rows are appended.
const ADDED: usize = 4;

/// A message, and nanoseconds to check it.
pub struct Checked {
    name: String,
    rows: usize,
    bytes: usize,
    without: f64,
    with: f64,
}

/// A type table, and nanoseconds to prepare it, to append its last rows, and to go back to those before.
pub struct Grown {
    name: String,
    rows: usize,
    prepare: f64,
    append: f64,
    go_back: f64,
}

/// All messages with a state and without, of small type tables and of tables at the limits.
pub fn checked() -> Vec<Checked> {
    all().iter().chain(&at_limits()).map(check).collect()
}

/// All type tables that have more rows than are appended.
pub fn grown() -> Vec<Grown> {
    all().iter().chain(&tables()).filter(|workload| workload.lists.count() > ADDED).map(grow).collect()
}

fn check(workload: &Workload) -> Checked {
    let state = state::of(&workload.lists, workload.lists.counts());
    let [without, with] = fastest(|contender| {
        let (face, workload): (&dyn Face, _) = (black_box(&Library), black_box(workload));
        let (table, root, message) = (workload.lists.table(), workload.root, workload.message());
        let mut answer = [0];
        let number = match contender {
            0 => face.check(table, root, message, &mut answer),
            _ => face.check_prepared(table, black_box(&state), root, message, &mut answer),
        };
        assert_eq!(number, 0, "{}", workload.name);
        black_box(answer);
    });
    let (name, bytes) = (workload.name.clone(), workload.bytes.len());
    Checked { name, rows: workload.lists.count(), bytes, without, with }
}

/// Each contender starts from a copy of its state.
fn grow(workload: &Workload) -> Grown {
    let lists = &workload.lists;
    let before = lists.counts_of(lists.count() - ADDED);
    let (small, whole) = (state::of(lists, before), state::of(lists, lists.counts()));
    let [prepare, append, go_back] = fastest(|contender| {
        let (face, table): (&dyn Face, _) = (black_box(&Library), black_box(lists).table());
        let mut state: [u32; STATE] = *black_box(if contender == 1 { &small } else { &whole });
        let mut answer = [0];
        let number = match contender {
            0 => face.prepare(table, &mut state, &mut answer),
            1 => face.append(table, &mut state, &mut answer),
            _ => face.go_back(table, before, &mut state, &mut answer),
        };
        assert_eq!(number, 0, "{}", workload.name);
        black_box((state, answer));
    });
    Grown { name: workload.name.clone(), rows: lists.count(), prepare, append, go_back }
}

/// Prints both; answers which checks and appends take longer than without a state.
pub fn print_prepared(checked: &[Checked], grown: &[Grown]) -> Vec<String> {
    let mut missed = Vec::new();
    let mut told = |what: String, ratio: f64| {
        let over = ratio > TARGET;
        if over {
            missed.push(format!("{what}: {ratio:.2}"));
        }
        format!("{ratio:.2}{}", if over { " (!)" } else { "" })
    };
    println!("\n| workload | rows | bytes | check | with a state | ratio |");
    println!("|---|---:|---:|---:|---:|---:|");
    for Checked { name, rows, bytes, without, with } in checked {
        let ratio = told(format!("check with a state, {name}"), with / without);
        println!("| {name} | {rows} | {bytes} | {} | {} | {ratio} |", time(*without), time(*with));
    }
    println!("\n| type table | rows | prepare | append the last {ADDED} | ratio | go back | ratio |");
    println!("|---|---:|---:|---:|---:|---:|---:|");
    for Grown { name, rows, prepare, append, go_back } in grown {
        let ratio = told(format!("append, {name}"), append / prepare);
        println!(
            "| {name} | {rows} | {} | {} | {ratio} | {} | {:.2} |",
            time(*prepare),
            time(*append),
            time(*go_back),
            go_back / prepare,
        );
    }
    missed
}
