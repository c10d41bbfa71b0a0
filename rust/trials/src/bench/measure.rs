//! How long an operation takes: by the library, by the reference, and a plain copy of the bytes.

use super::workloads::Workload;
use crate::library::Library;
use ratlinery_reference::Schema;
use ratlinery_reference::face::{Face, Reference};
use std::hint::black_box;
use std::time::{Duration, Instant};

/// How often each contender has its turn; the fastest one counts, which is the one least disturbed.
const ROUNDS: usize = 15;
/// How long a turn should take.
const TURN: Duration = Duration::from_micros(800);

/// What is measured.
#[derive(Clone, Copy, Debug, PartialEq, Eq)]
pub enum Operation {
    Check,
    Read,
    Write,
    /// All of a message's way from nothing: the table judged, the message checked, read and written.
    OneShot,
    /// The layout of the root.
    Layout,
}

impl Operation {
    /// What is done with a message.
    pub const OF_MESSAGES: [Operation; 4] =
        [Operation::Check, Operation::Read, Operation::Write, Operation::OneShot];

    pub fn name(self) -> &'static str {
        match self {
            Operation::Check => "check",
            Operation::Read => "read",
            Operation::Write => "write",
            Operation::OneShot => "one-shot",
            Operation::Layout => "layout",
        }
    }

    /// How many times the reference's time it may take.
    pub fn target(self) -> Option<f64> {
        match self {
            Operation::Check | Operation::Read => Some(1.5),
            Operation::Write => Some(2.0),
            Operation::OneShot | Operation::Layout => None,
        }
    }

    /// How many nanoseconds it may take, whatever the table.
    pub fn limit(self) -> Option<f64> {
        (self == Operation::Layout).then_some(1e6)
    }
}

/// Nanoseconds for one operation.
#[derive(Clone, Copy, Debug)]
pub struct Times {
    pub library: f64,
    /// The reference, which judges the type table in each call, as the library does.
    pub reference: f64,
    /// The reference with a type table that was judged before.
    pub prepared: f64,
    /// A copy of the message's bytes.
    pub copy: f64,
}

impl Times {
    pub fn ratio(&self) -> f64 {
        self.library / self.reference
    }
}

/// A time that a person can read.
pub fn time(nanoseconds: f64) -> String {
    match nanoseconds {
        below if below < 10.0 => format!("{below:.1} ns"),
        below if below < 1e3 => format!("{below:.0} ns"),
        below if below < 1e5 => format!("{:.2} µs", below / 1e3),
        more => format!("{:.1} µs", more / 1e3),
    }
}

/// Room for both lists and the message. It is reused and not cleared between calls.
struct Buffers {
    values: Vec<u64>,
    objects: Vec<u32>,
    out: Vec<u8>,
}

/// Times an operation on a workload: the contenders take turns.
pub fn times(workload: &Workload, operation: Operation) -> Times {
    let mut buffers = Buffers { values: vec![0; 65_536], objects: vec![0; 65_536], out: vec![0; 65_536] };
    let table = workload.lists.table();
    let schema = table.schema().expect("a sound table");
    let [library, reference, prepared, copy] = fastest(|contender| match contender {
        0 => by_face(&Library, workload, operation, &mut buffers),
        1 => by_face(&Reference, workload, operation, &mut buffers),
        2 => prepared(&schema, workload, operation, &mut buffers),
        _ => copy(workload, &mut buffers),
    });
    Times { library, reference, prepared, copy }
}

/// The fastest turn of each of so many contenders, one after the other: nanoseconds a call.
pub fn fastest<const CONTENDERS: usize>(mut run: impl FnMut(usize)) -> [f64; CONTENDERS] {
    let mut best = [f64::INFINITY; CONTENDERS];
    let mut counts = [0; CONTENDERS];
    for round in 0..=ROUNDS {
        for contender in 0..CONTENDERS {
            let mut run = || run(contender);
            if round == 0 {
                counts[contender] = calibrate(&mut run);
            } else {
                best[contender] = f64::min(best[contender], turn(counts[contender], &mut run));
            }
        }
    }
    best
}

/// How many calls fill a turn.
fn calibrate(run: &mut impl FnMut()) -> u32 {
    let mut count = 1;
    loop {
        let start = Instant::now();
        (0..count).for_each(|_| run());
        let taken = start.elapsed();
        if taken >= TURN / 4 {
            let calls = f64::from(count) * TURN.as_secs_f64() / taken.as_secs_f64();
            return (calls as u32).max(1);
        }
        count *= 4;
    }
}

/// Nanoseconds a call.
fn turn(count: u32, run: &mut impl FnMut()) -> f64 {
    let start = Instant::now();
    (0..count).for_each(|_| run());
    start.elapsed().as_secs_f64() * 1e9 / f64::from(count)
}

/// Library and reference are called alike, through a pointer, so that neither is compiled into the measurement.
fn by_face(face: &dyn Face, workload: &Workload, operation: Operation, buffers: &mut Buffers) {
    let (face, workload) = (black_box(face), black_box(workload));
    let (table, root, message) = (workload.lists.table(), workload.root, workload.message());
    let mut answer = [0; 3];
    let answer = &mut answer;
    let Buffers { values, objects, out } = buffers;
    let number = match operation {
        Operation::Check => face.check(table, root, message, answer),
        Operation::Read => face.read(table, root, message, values, objects, answer),
        Operation::Write => face.write(table, root, &workload.values, out, answer),
        Operation::OneShot => {
            face.layout(table, 0, answer)
                | face.check(table, root, message, answer)
                | face.read(table, root, message, values, objects, answer)
                | face.write(table, root, &workload.values, out, answer)
        }
        Operation::Layout => face.layout(table, root, answer),
    };
    assert_eq!(number, 0, "{}", workload.name);
    black_box((answer, buffers));
}

/// The reference with a schema made before; for one-shot, made once and used for all.
fn prepared(schema: &Schema, workload: &Workload, operation: Operation, buffers: &mut Buffers) {
    let workload = black_box(workload);
    let (root, message) = (workload.root, workload.message());
    let Buffers { values, objects, out } = buffers;
    let given = match operation {
        Operation::Check => schema.check(root, message).is_ok(),
        Operation::Read => schema.read(root, message, Some(values), Some(objects)).is_ok(),
        Operation::Write => schema.write_into(root, &workload.values, out).is_ok(),
        Operation::OneShot => {
            let schema = workload.lists.table().schema().expect("a sound table");
            schema.check(root, message).is_ok()
                && schema.read(root, message, Some(values), Some(objects)).is_ok()
                && schema.write_into(root, &workload.values, out).is_ok()
        }
        Operation::Layout => schema.layout(root).is_ok(),
    };
    assert!(given, "{}", workload.name);
    black_box(buffers);
}

fn copy(workload: &Workload, buffers: &mut Buffers) {
    let bytes = black_box(&workload.bytes);
    buffers.out[..bytes.len()].copy_from_slice(bytes);
    black_box(&mut buffers.out);
}
