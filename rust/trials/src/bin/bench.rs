//! The benchmark: Ratlinery, the reference and a plain copy side by side.
//!
//! usage: bench [--strict] [PLOT]
//!
//! Prints a table in Markdown and writes a plot, target/bench.svg where no other is named. With --strict it fails if a
//! target is missed.

use ratlinery_trials::bench::measure::{Operation, times};
use ratlinery_trials::bench::plot;
#[cfg(feature = "prepared")]
use ratlinery_trials::bench::prepared::{checked, grown, print_prepared};
use ratlinery_trials::bench::report::{Growth, Measured, print_growth, print_workloads};
use ratlinery_trials::bench::texts::{judged, print_texts};
use ratlinery_trials::bench::workloads::{Workload, all, growing, tables};
use std::process::ExitCode;

const PLOT: &str = concat!(env!("CARGO_MANIFEST_DIR"), "/../../target/bench.svg");

fn main() -> ExitCode {
    let words: Vec<String> = std::env::args().skip(1).collect();
    let strict = words.iter().any(|word| word == "--strict");
    let path = words.iter().find(|word| *word != "--strict").map_or(PLOT, String::as_str);

    let workloads: Vec<Measured> =
        all().iter().map(|workload| measured(workload, &Operation::OF_MESSAGES)).collect();
    let tables: Vec<Measured> =
        tables().iter().map(|workload| measured(workload, &[Operation::Layout])).collect();
    let mut missed = print_workloads(workloads.iter().chain(&tables));
    missed.extend(print_texts(&judged()));
    #[cfg(feature = "prepared")]
    missed.extend(print_prepared(&checked(), &grown()));
    let sized = |workload: &Workload| measured(workload, &Operation::OF_MESSAGES[..3]);
    let growths: Vec<Growth> = growing()
        .into_iter()
        .map(|(name, sizes)| Growth { name, sizes: sizes.iter().map(sized).collect() })
        .collect();
    missed.extend(print_growth(&growths));

    println!(
        "\nratio: Ratlinery / reference; targets: check and read 1.5, write 2, growth no more than linear, \
         layout under a millisecond, long texts 1.1 times from_utf8."
    );
    #[cfg(feature = "prepared")]
    println!("of states: a check with one 1.1 times one without, an append 1.1 times preparing the whole.");
    println!("The fastest of 15 turns counts; buffers are reused and not cleared.");
    match &missed[..] {
        [] => println!("All targets are met."),
        _ => println!("Missed: {}", missed.join("; ")),
    }
    if let Err(error) = std::fs::write(path, plot::svg(&workloads, &growths)) {
        println!("{path}: {error}");
        return ExitCode::FAILURE;
    }
    if strict && !missed.is_empty() { ExitCode::FAILURE } else { ExitCode::SUCCESS }
}

fn measured(workload: &Workload, operations: &[Operation]) -> Measured {
    let times = operations.iter().map(|&operation| (operation, times(workload, operation))).collect();
    Measured { name: workload.name.clone(), bytes: workload.bytes.len(), times }
}
