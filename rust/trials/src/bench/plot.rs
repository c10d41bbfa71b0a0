//! The benchmark's plot: ratios of all workloads on the left, growth on the right, as an SVG.

use super::measure::{Operation, Times};
use super::report::{Growth, Measured};
use std::fmt::Write;

const OPERATIONS: [(Operation, &str); 3] =
    [(Operation::Check, "#1b6ca8"), (Operation::Read, "#2a9d5c"), (Operation::Write, "#d0662b")];
const WIDTH: f64 = 1100.0;
const HEIGHT: f64 = 520.0;
const TOP: f64 = 60.0;
const BOTTOM: f64 = 470.0;

/// A picture of both.
pub fn svg(workloads: &[Measured], growths: &[Growth]) -> String {
    let mut picture = format!(
        "<svg xmlns=\"http://www.w3.org/2000/svg\" viewBox=\"0 0 {WIDTH} {HEIGHT}\" font-family=\"sans-serif\" \
         font-size=\"12\">\n<rect width=\"{WIDTH}\" height=\"{HEIGHT}\" fill=\"white\"/>\n"
    );
    ratios(&mut picture, workloads);
    growth(&mut picture, growths);
    legend(&mut picture);
    picture.push_str("</svg>\n");
    picture
}

fn text(picture: &mut String, x: f64, y: f64, anchor: &str, text: &str) {
    let text = text.replace('&', "&amp;").replace('<', "&lt;");
    let _ = writeln!(picture, "<text x=\"{x:.1}\" y=\"{y:.1}\" text-anchor=\"{anchor}\">{text}</text>");
}

fn line(picture: &mut String, from: (f64, f64), to: (f64, f64), style: &str) {
    let ((x1, y1), (x2, y2)) = (from, to);
    let _ = writeln!(picture, "<line x1=\"{x1:.1}\" y1=\"{y1:.1}\" x2=\"{x2:.1}\" y2=\"{y2:.1}\" {style}/>");
}

/// A bar for each workload and operation, on a scale of powers of two.
fn ratios(picture: &mut String, workloads: &[Measured]) {
    const LEFT: f64 = 190.0;
    const RIGHT: f64 = 560.0;
    let largest = workloads.iter().flat_map(|measured| &measured.times).map(|(_, times)| times.ratio());
    let (least, most) = (0.25_f64, largest.fold(4.0, f64::max).log2().ceil().exp2());
    let x = |ratio: f64| {
        LEFT + (RIGHT - LEFT) * (ratio.clamp(least, most) / least).log2() / (most / least).log2()
    };
    text(picture, LEFT, 30.0, "start", "Time of Ratlinery / time of the reference (targets: 1.5, write 2)");
    for tick in [0.25, 0.5, 1.0, 2.0, 4.0, 8.0, 16.0].into_iter().filter(|&tick| tick <= most) {
        line(picture, (x(tick), TOP), (x(tick), BOTTOM), "stroke=\"#ddd\"");
        text(picture, x(tick), BOTTOM + 16.0, "middle", &tick.to_string());
    }
    for target in [1.5, 2.0] {
        line(picture, (x(target), TOP), (x(target), BOTTOM), "stroke=\"#c00\" stroke-dasharray=\"4 3\"");
    }
    let step = (BOTTOM - TOP) / workloads.len() as f64;
    for (i, measured) in workloads.iter().enumerate() {
        let y = TOP + step * i as f64;
        text(picture, LEFT - 8.0, y + step / 2.0 + 4.0, "end", &measured.name);
        for (j, (operation, colour)) in OPERATIONS.iter().enumerate() {
            let Some((_, times)) = measured.times.iter().find(|(of, _)| of == operation) else { continue };
            let (from, to) = (x(1.0).min(x(times.ratio())), x(1.0).max(x(times.ratio())));
            let bar = y + 4.0 + j as f64 * (step - 8.0) / 3.0;
            let _ = writeln!(
                picture,
                "<rect x=\"{from:.1}\" y=\"{bar:.1}\" width=\"{:.1}\" height=\"{:.1}\" fill=\"{colour}\"/>",
                (to - from).max(1.0),
                (step - 8.0) / 3.0 - 1.0,
            );
        }
    }
}

/// Time over size, both on a scale of powers of two: a line for each operation, whole for Ratlinery, dashed for the
/// reference.
fn growth(picture: &mut String, growths: &[Growth]) {
    const LEFT: f64 = 640.0;
    const RIGHT: f64 = 1070.0;
    let (least, most) = (100.0_f64, 1e6_f64);
    let x = |bytes: f64| LEFT + (RIGHT - LEFT) * (bytes / 1000.0).log2() / 66.0_f64.log2();
    let y =
        |time: f64| BOTTOM - (BOTTOM - TOP) * (time.clamp(least, most) / least).ln() / (most / least).ln();
    text(picture, LEFT, 30.0, "start", "Nanoseconds over bytes of the message");
    for tick in [1e2, 1e3, 1e4, 1e5, 1e6] {
        line(picture, (LEFT, y(tick)), (RIGHT, y(tick)), "stroke=\"#ddd\"");
        text(picture, LEFT - 8.0, y(tick) + 4.0, "end", &format!("{tick:.0}"));
    }
    for tick in [1024, 4096, 16384, 65536] {
        text(picture, x(f64::from(tick)), BOTTOM + 16.0, "middle", &format!("{} KB", tick / 1024));
    }
    for growth in growths {
        for (operation, colour) in OPERATIONS {
            for (of, style) in [
                ((|times| times.library) as fn(&Times) -> f64, "stroke-width=\"2\""),
                (|times| times.reference, "stroke-width=\"1\" stroke-dasharray=\"3 3\""),
            ] {
                let points: Vec<String> = growth
                    .sizes
                    .iter()
                    .filter_map(|measured| {
                        let (_, times) = measured.times.iter().find(|(timed, _)| *timed == operation)?;
                        Some(format!("{:.1},{:.1}", x(measured.bytes as f64), y(of(times))))
                    })
                    .collect();
                let points = points.join(" ");
                let _ = writeln!(
                    picture,
                    "<polyline points=\"{points}\" fill=\"none\" stroke=\"{colour}\" {style}/>"
                );
            }
        }
    }
}

fn legend(picture: &mut String) {
    for (i, (operation, colour)) in OPERATIONS.iter().enumerate() {
        let x = 200.0 + 90.0 * i as f64;
        let _ = writeln!(picture, "<rect x=\"{x}\" y=\"495\" width=\"12\" height=\"12\" fill=\"{colour}\"/>");
        text(picture, x + 18.0, 505.0, "start", operation.name());
    }
    text(
        picture,
        640.0,
        505.0,
        "start",
        "whole: Ratlinery; dashed: the reference; structs with fill, and strings",
    );
}
