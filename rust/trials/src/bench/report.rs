//! The benchmark's table, in Markdown.

use super::measure::{Operation, Times, time};

/// A workload measured: its name and size, and the times of each operation.
pub struct Measured {
    pub name: String,
    pub bytes: usize,
    pub times: Vec<(Operation, Times)>,
}

/// A kind of message measured from 1 KB to 64 KB.
pub struct Growth {
    pub name: &'static str,
    pub sizes: Vec<Measured>,
}

impl Growth {
    /// The time that grows with a size by the power 1 grows in step with it; this is the power, from 4 KB on, where fixed
    /// costs no longer show.
    pub fn power(&self, operation: Operation, time: impl Fn(&Times) -> f64) -> f64 {
        let points: Vec<(f64, f64)> = self
            .sizes
            .iter()
            .filter(|measured| measured.bytes > 4000)
            .flat_map(|measured| {
                let times = measured.times.iter().filter(|(of, _)| *of == operation);
                times.map(|(_, times)| ((measured.bytes as f64).ln(), time(times).ln()))
            })
            .collect();
        let count = points.len() as f64;
        let mean = |of: fn(&(f64, f64)) -> f64| points.iter().map(of).sum::<f64>() / count;
        let (x, y) = (mean(|point| point.0), mean(|point| point.1));
        let above: f64 = points.iter().map(|point| (point.0 - x) * (point.1 - y)).sum();
        let below: f64 = points.iter().map(|point| (point.0 - x).powi(2)).sum();
        above / below
    }
}

/// Prints every workload; answers which targets are missed.
pub fn print_workloads<'m>(all: impl IntoIterator<Item = &'m Measured>) -> Vec<String> {
    let mut missed = Vec::new();
    println!(
        "| workload | bytes | operation | Ratlinery | reference | ratio | table judged before | ratio | copy |"
    );
    println!("|---|---:|---|---:|---:|---:|---:|---:|---:|");
    for measured in all {
        for (operation, times) in &measured.times {
            let over = operation.target().is_some_and(|target| times.ratio() > target);
            if over {
                missed.push(format!("{} of {}: {:.2}", operation.name(), measured.name, times.ratio()));
            }
            if operation.limit().is_some_and(|limit| times.library > limit) {
                missed.push(format!("{} of {}: {}", operation.name(), measured.name, time(times.library)));
            }
            println!(
                "| {} | {} | {} | {} | {} | {:.2}{} | {} | {:.2} | {} |",
                measured.name,
                measured.bytes,
                operation.name(),
                time(times.library),
                time(times.reference),
                times.ratio(),
                if over { " (!)" } else { "" },
                time(times.prepared),
                times.library / times.prepared,
                time(times.copy),
            );
        }
    }
    missed
}

/// Prints how time grows; answers where it is more than linear.
pub fn print_growth(all: &[Growth]) -> Vec<String> {
    let mut missed = Vec::new();
    for growth in all {
        let sizes: Vec<String> = growth.sizes.iter().map(|measured| measured.name.clone()).collect();
        println!("\n| {}, ns a byte | {} | power |", growth.name, sizes.join(" | "));
        println!("|---|{}", "---:|".repeat(sizes.len() + 1));
        for operation in [Operation::Check, Operation::Read, Operation::Write] {
            for (name, of) in [
                ("Ratlinery", (|times| times.library) as fn(&Times) -> f64),
                ("reference", |times| times.reference),
            ] {
                let power = growth.power(operation, of);
                println!(
                    "| {} by {name} | {} | {power:.2} |",
                    operation.name(),
                    per_byte(growth, operation, of)
                );
                if name == "Ratlinery" && power > 1.05 {
                    missed.push(format!(
                        "{} of {} grows with the power {power:.2}",
                        operation.name(),
                        growth.name
                    ));
                }
            }
        }
    }
    missed
}

fn per_byte(growth: &Growth, operation: Operation, of: fn(&Times) -> f64) -> String {
    let cells = growth.sizes.iter().flat_map(|measured| {
        let times = measured.times.iter().filter(|(timed, _)| *timed == operation);
        times.map(|(_, times)| format!("{:.2}", of(times) / measured.bytes as f64))
    });
    cells.collect::<Vec<String>>().join(" | ")
}
