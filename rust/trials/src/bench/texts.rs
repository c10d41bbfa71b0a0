//! The text check by itself, beside Rust's own `from_utf8` and the reference, which is made of it.

use super::measure::{fastest, time};
use super::workloads::{ASCII, MIXED};
use crate::library::Library;
use crate::random::Random;
use ratlinery_reference::face::{Face, Reference};
use std::hint::black_box;

/// As many bytes as the long texts have, or somewhat less.
const LONG: usize = 4_000;

/// How many times `from_utf8`'s time a long text may take: runs differ by as much.
const TARGET: f64 = 1.1;

/// A text, and nanoseconds to judge it.
pub struct Judged {
    name: &'static str,
    bytes: usize,
    library: f64,
    reference: f64,
    standard: f64,
}

/// All texts, timed: long ones, of which no sequence is like the one before or all are, and short ones.
pub fn judged() -> Vec<Judged> {
    let repeated = |text: &str| text.repeat(LONG / text.len());
    [
        ("ASCII", repeated(ASCII)),
        ("mixed", repeated(MIXED)),
        ("any lengths in any order", shuffled(1)),
        ("the same, mostly ASCII", shuffled(12)),
        ("2-byte sequences", repeated("é")),
        ("3-byte sequences", repeated("語")),
        ("4-byte sequences", repeated("😀")),
        ("a name in ASCII", "Profile of pad 3".into()),
        ("a name with accents", "Zoë Müller".into()),
        ("a name of 3-byte sequences", "日本語のプロファイル".into()),
    ]
    .iter()
    .map(|(name, text)| timed(name, text.as_bytes()))
    .collect()
}

/// Characters of one to four bytes at random, ASCII so many times as often as the others.
fn shuffled(ascii: usize) -> String {
    let mut random = Random::of_case(1, 2);
    let mut text = String::new();
    while text.len() < LONG - 4 {
        text.push(match random.below(ascii + 3) {
            0 => random.pick(&['é', '\u{7ff}']),
            1 => random.pick(&['語', '\u{800}', '\u{d7ff}', '\u{ffff}']),
            2 => random.pick(&['😀', '\u{10ffff}']),
            _ => char::from(random.between(32, 126) as u8),
        });
    }
    text
}

fn timed(name: &'static str, text: &[u8]) -> Judged {
    let [library, reference, standard] = fastest(|contender| match contender {
        0 => by_face(&Library, text),
        1 => by_face(&Reference, text),
        _ => assert!(std::str::from_utf8(black_box(text)).is_ok()),
    });
    Judged { name, bytes: text.len(), library, reference, standard }
}

fn by_face(face: &dyn Face, text: &[u8]) {
    let mut answer = [0];
    assert_eq!(black_box(face).utf8(black_box(text), &mut answer), 0);
    black_box(answer);
}

/// Prints every text; answers which long ones miss the target.
pub fn print_texts(all: &[Judged]) -> Vec<String> {
    println!("\n| text | bytes | Ratlinery | reference | ratio | from_utf8 | ratio |");
    println!("|---|---:|---:|---:|---:|---:|---:|");
    let mut missed = Vec::new();
    for judged in all {
        let ratio = judged.library / judged.standard;
        let over = judged.bytes > LONG / 2 && ratio > TARGET;
        if over {
            missed.push(format!("text, {}: {ratio:.2}", judged.name));
        }
        println!(
            "| {} | {} | {} | {} | {:.2} | {} | {ratio:.2}{} |",
            judged.name,
            judged.bytes,
            time(judged.library),
            time(judged.reference),
            judged.library / judged.reference,
            time(judged.standard),
            if over { " (!)" } else { "" },
        );
    }
    missed
}
