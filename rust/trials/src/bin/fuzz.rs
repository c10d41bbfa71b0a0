//! A differential fuzz: the library against the reference, from a seed.
//!
//! usage: fuzz [CASES [SEED [FIRST]]]
//!
//! Runs so many cases from the case FIRST on and prints how often each function gave each number. It fails if something
//! differs, and if a function never gave a number that it can give.

use ratlinery_reference::face::Reference;
use ratlinery_trials::cases;
use ratlinery_trials::compare::{Compare, Tally};
use ratlinery_trials::library::Library;
use std::collections::{BTreeMap, BTreeSet};
use std::process::ExitCode;
use std::time::Instant;

const CASES: u64 = 400_000;
const SEED: u64 = 1;
/// After so many differences there is nothing new to learn.
const MOST_REPORTS: usize = 5;

fn main() -> ExitCode {
    let argument = |index: usize, default: u64| match std::env::args().nth(index) {
        None => default,
        Some(text) => text.parse().unwrap_or_else(|_| panic!("not a number: {text}")),
    };
    let (count, seed, first) = (argument(1, CASES), argument(2, SEED), argument(3, 0));
    let start = Instant::now();
    let mut compare = Compare::new(&Library, &Reference);
    let mut differences = 0;
    for case in first..first + count {
        if let Err((description, different)) = cases::run(&mut compare, seed, case) {
            differences += 1;
            println!("case {case} of seed {seed}: {different}\n  {description}");
            if differences == MOST_REPORTS {
                break;
            }
        }
    }
    let calls: u64 = compare.tally.values().flat_map(BTreeMap::values).sum();
    let seconds = start.elapsed().as_secs_f64();
    print_tally(&compare.tally);
    println!(
        "{count} cases of seed {seed}, {calls} calls compared, {differences} differences, {seconds:.1} s"
    );
    let missing = missing(&compare.tally);
    if !missing.is_empty() {
        println!("never given: {}", missing.join(", "));
    }
    if differences == 0 && missing.is_empty() { ExitCode::SUCCESS } else { ExitCode::FAILURE }
}

/// How often a function gave a number.
fn given(tally: &Tally, function: &str, number: u32) -> u64 {
    tally.get(function).and_then(|counts| counts.get(&number)).copied().unwrap_or(0)
}

/// Each function with the numbers that it can give.
fn can_give() -> Vec<(&'static str, Vec<u32>)> {
    let judged: Vec<u32> = (0..=21).chain([28, 29, 35]).collect();
    let read: Vec<u32> = judged.iter().copied().chain([22]).collect();
    #[cfg(feature = "prepared")]
    let prepared: Vec<u32> = judged.iter().copied().chain([34]).collect();
    vec![
        ("layout", vec![0, 1, 2]),
        ("check", judged),
        ("read", read.clone()),
        ("read_values", read.clone()),
        ("read_objects", read),
        ("write", vec![0, 1, 2, 3, 4, 5, 22, 26]),
        ("header_read", vec![0, 3, 6, 7, 20, 23, 24, 25]),
        ("header_write", vec![0, 22, 24, 25]),
        ("epitaph_write", vec![0, 22]),
        ("utf8", vec![0, 13]),
        #[cfg(feature = "prepared")]
        ("prepare", vec![0, 1, 22]),
        #[cfg(feature = "prepared")]
        ("append", vec![0, 1, 34]),
        #[cfg(feature = "prepared")]
        ("go_back", vec![0, 1, 34]),
        #[cfg(feature = "prepared")]
        ("check_prepared", prepared),
    ]
}

/// What was never given, though it can be.
fn missing(tally: &Tally) -> Vec<String> {
    let mut missing = Vec::new();
    for (function, numbers) in can_give() {
        let never = numbers.into_iter().filter(|&number| given(tally, function, number) == 0);
        missing.extend(never.map(|number| format!("{number} by {function}")));
    }
    missing
}

/// A line for each number that was given, a column for each function.
fn print_tally(tally: &Tally) {
    let width = if cfg!(feature = "prepared") { 14 } else { 13 };
    print!("number {:>width$}", "all");
    tally.keys().for_each(|function| print!(" {function:>width$}"));
    println!();
    let numbers: BTreeSet<u32> = tally.values().flat_map(BTreeMap::keys).copied().collect();
    for number in numbers {
        let all: u64 = tally.keys().map(|function| given(tally, function, number)).sum();
        print!("{number:>6} {all:>width$}");
        for function in tally.keys() {
            match given(tally, function, number) {
                0 => print!(" {:>width$}", "."),
                count => print!(" {count:>width$}"),
            }
        }
        println!();
    }
}
