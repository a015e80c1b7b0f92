//! A drawing of the walk's speed by the size of the blob, for both sides, as an SVG file.

use std::fmt::Write;
use std::path::{Path, PathBuf};
use std::{fs, io};

use crate::summary::cpu_model;
use crate::walk::{self, Walked};

const NODES: [usize; 8] = [50, 100, 200, 500, 1_000, 2_000, 5_000, 10_000];

const ROUNDS: usize = 1_000;

/// Where the drawing belongs, seen from this crate.
pub fn place() -> PathBuf {
    Path::new(env!("CARGO_MANIFEST_DIR")).join("../../docs/walk.svg")
}

/// Measures, prints the figures, and writes the drawing.
pub fn run(file: &Path) -> io::Result<()> {
    let walked = walk::measure(&NODES, ROUNDS);
    println!("walk by the size of the blob, medians of {ROUNDS} rounds, million nodes a second");
    println!();
    println!("| nodes | ours, without the check | ours, whole call | published |");
    println!("|---|---|---|---|");
    for walked in &walked {
        let [row, whole, published] = speeds(walked);
        println!("| {} | {row:.0} | {whole:.0} | {published:.0} |", walked.nodes);
    }
    fs::write(file, drawing(&walked))
}

/// Million nodes a second: ours without the check, our whole call, published.
fn speeds(walked: &Walked) -> [f64; 3] {
    [&walked.row, &walked.whole, &walked.published].map(|time| 1e3 * walked.nodes as f64 / time.median)
}

const SERIES: [(&str, &str); 3] = [
    ("ours, without the check", "#0072b2"),
    ("ours, whole call", "#56b4e9"),
    ("published", "#d55e00"),
];

const WIDTH: f64 = 720.0;
const HEIGHT: f64 = 420.0;
const LEFT: f64 = 70.0;
const RIGHT: f64 = 20.0;
const TOP: f64 = 60.0;
const BOTTOM: f64 = 60.0;

/// Where sizes and speeds stand: sizes by their logarithm, speeds from 0.
struct Axes {
    largest: f64,
}

impl Axes {
    fn x(&self, nodes: usize) -> f64 {
        let [first, last, at] = [NODES[0], NODES[NODES.len() - 1], nodes].map(|nodes| (nodes as f64).ln());
        LEFT + (at - first) / (last - first) * (WIDTH - LEFT - RIGHT)
    }

    fn y(&self, speed: f64) -> f64 {
        HEIGHT - BOTTOM - speed / self.largest * (HEIGHT - TOP - BOTTOM)
    }
}

/// A round number, of which four to ten reach past the largest speed.
fn step(largest: f64) -> f64 {
    let power = 10f64.powf((largest / 4.0).log10().floor());
    let fits = |step: &f64| step * 10.0 >= largest;
    [1.0, 2.0, 5.0]
        .map(|digit| digit * power)
        .into_iter()
        .find(fits)
        .unwrap_or(10.0 * power)
}

fn drawing(walked: &[Walked]) -> String {
    let speeds: Vec<[f64; 3]> = walked.iter().map(speeds).collect();
    let largest = speeds.iter().flatten().copied().fold(1.0, f64::max);
    let step = step(largest);
    let lines = (largest / step).ceil();
    let axes = Axes { largest: lines * step };
    let mut svg = String::new();
    let mut put = |text: &str| svg.push_str(text);
    put(&format!(
        "<svg xmlns=\"http://www.w3.org/2000/svg\" viewBox=\"0 0 {WIDTH} {HEIGHT}\" font-family=\"sans-serif\" font-size=\"13\">\n"
    ));
    put(&format!(
        "<rect width=\"{WIDTH}\" height=\"{HEIGHT}\" fill=\"white\"/>\n"
    ));
    put(&text(
        LEFT,
        24.0,
        "start",
        "Walk of one row: million nodes a second, by the size of the blob",
    ));
    for line in 0..=lines as usize {
        let speed = line as f64 * step;
        let y = axes.y(speed);
        put(&format!(
            "<path d=\"M{LEFT} {y:.1}H{:.1}\" stroke=\"#ddd\"/>\n",
            WIDTH - RIGHT
        ));
        put(&text(LEFT - 8.0, y + 4.0, "end", &format!("{speed}")));
    }
    for nodes in NODES {
        put(&text(
            axes.x(nodes),
            HEIGHT - BOTTOM + 20.0,
            "middle",
            &nodes.to_string(),
        ));
    }
    for (series, (name, color)) in SERIES.iter().enumerate() {
        let at = LEFT + 215.0 * series as f64;
        put(&format!(
            "<path d=\"M{at} 40h24\" stroke=\"{color}\" stroke-width=\"2\"/>\n"
        ));
        put(&text(at + 30.0, 44.0, "start", name));
        let mut points = String::new();
        for (walked, speeds) in walked.iter().zip(&speeds) {
            let (x, y) = (axes.x(walked.nodes), axes.y(speeds[series]));
            _ = write!(points, "{x:.1},{y:.1} ");
            put(&format!(
                "<circle cx=\"{x:.1}\" cy=\"{y:.1}\" r=\"3\" fill=\"{color}\"/>\n"
            ));
        }
        put(&format!(
            "<polyline points=\"{}\" fill=\"none\" stroke=\"{color}\" stroke-width=\"2\"/>\n",
            points.trim_end()
        ));
    }
    put(&text(
        LEFT,
        HEIGHT - 14.0,
        "start",
        &format!("{}; medians of {ROUNDS} rounds", cpu_model()),
    ));
    put(&text(WIDTH - RIGHT, HEIGHT - 14.0, "end", "nodes of the blob"));
    put("</svg>\n");
    svg
}

fn text(x: f64, y: f64, anchor: &str, words: &str) -> String {
    let words = words.replace('&', "&amp;").replace('<', "&lt;");
    format!("<text x=\"{x:.1}\" y=\"{y:.1}\" text-anchor=\"{anchor}\">{words}</text>\n")
}
