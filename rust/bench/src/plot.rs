//! The plots of a run, as SVG text: the ratio of each call as a bar with its quartiles, and the hit ratios of the five mixes. Leans on report.

use crate::mixes::MIXES;
use crate::report::{comparable, Mixed, Timed};
use std::fmt::Write;

const ROW: f64 = 16.0;
const LEFT: f64 = 380.0;
/// pixels of a ratio of 1
const UNIT: f64 = 150.0;
const TOP: f64 = 50.0;

fn open(width: f64, height: f64, title: &str) -> String {
    let mut text = String::new();
    let _ = writeln!(
        text,
        "<svg xmlns=\"http://www.w3.org/2000/svg\" width=\"{width}\" height=\"{height}\" font-family=\"sans-serif\" font-size=\"11\">"
    );
    rectangle(&mut text, [0.0, 0.0, width, height], "white");
    label(&mut text, 10.0, 18.0, "start", title);
    text
}

fn rectangle(text: &mut String, [x, y, w, h]: [f64; 4], colour: &str) {
    let _ = writeln!(text, "<rect x=\"{x:.1}\" y=\"{y:.1}\" width=\"{w:.1}\" height=\"{h:.1}\" fill=\"{colour}\"/>");
}

fn line(text: &mut String, [x1, y1, x2, y2]: [f64; 4], colour: &str) {
    let _ = writeln!(text, "<line x1=\"{x1:.1}\" y1=\"{y1:.1}\" x2=\"{x2:.1}\" y2=\"{y2:.1}\" stroke=\"{colour}\"/>");
}

fn label(text: &mut String, x: f64, y: f64, anchor: &str, words: &str) {
    let _ = writeln!(text, "<text x=\"{x:.1}\" y=\"{y:.1}\" text-anchor=\"{anchor}\">{}</text>", words.replace('&', "&amp;").replace('<', "&lt;"));
}

/// One bar for each row: how long the library takes if the twin takes 1.
pub fn ratios(timed: &[Timed]) -> String {
    let timed: Vec<&Timed> = comparable(timed).collect();
    let most = timed.iter().map(|row| row.measured.ratio.high).fold(2.0, f64::max).ceil();
    let (width, height) = (LEFT + most * UNIT + 80.0, TOP + ROW * timed.len() as f64 + 20.0);
    let mut text = open(width, height, "Time of the library by that of the twin: median, and quartiles as a line. Below 1 the library is faster.");
    for mark in 0..=(2.0 * most) as u32 {
        let x = LEFT + mark as f64 * UNIT / 2.0;
        line(&mut text, [x, TOP - 5.0, x, height - 15.0], if mark == 2 { "black" } else { "#ddd" });
        label(&mut text, x, TOP - 10.0, "middle", &format!("{:.1}", mark as f64 / 2.0));
    }
    timed.iter().enumerate().for_each(|(i, row)| ratio_bar(&mut text, TOP + ROW * i as f64, row));
    text + "</svg>\n"
}

fn ratio_bar(text: &mut String, y: f64, row: &Timed) {
    let ratio = &row.measured.ratio;
    let colour = match ratio.median {
        r if r <= 1.0 => "#6aa56a",
        r if r <= 1.2 => "#c9b458",
        _ => "#c77",
    };
    label(text, LEFT - 8.0, y + 11.0, "end", &format!("{}: {}", row.group, row.name));
    rectangle(text, [LEFT, y + 2.0, ratio.median * UNIT, ROW - 4.0], colour);
    line(text, [LEFT + ratio.low * UNIT, y + ROW / 2.0, LEFT + ratio.high * UNIT, y + ROW / 2.0], "black");
    label(text, LEFT + ratio.high.max(ratio.median) * UNIT + 5.0, y + 11.0, "start", &format!("{:.2}", ratio.median));
}

/// A group of bars for each mix: document 002's, the settings' and the cache that is emptied at every write.
pub fn hits(mixed: &[Mixed]) -> String {
    let (height, base) = (340.0, 280.0);
    let mut text = open(900.0, height, "Hit ratios by the mix of reads / inserts / deletes");
    for tenth in 0..=10 {
        let y = base - tenth as f64 * 22.0;
        line(&mut text, [50.0, y, 880.0, y], "#ddd");
        label(&mut text, 45.0, y + 4.0, "end", &format!("{}%", tenth * 10));
    }
    let bars = hit_bars(mixed);
    for (b, (name, colour, values)) in bars.iter().enumerate() {
        rectangle(&mut text, [60.0 + 200.0 * b as f64, height - 18.0, 10.0, 10.0], colour);
        label(&mut text, 75.0 + 200.0 * b as f64, height - 9.0, "start", name);
        values.iter().enumerate().for_each(|(m, value)| hit_bar(&mut text, [m as f64, b as f64, bars.len() as f64], base, *value, colour));
    }
    MIXES.iter().enumerate().for_each(|(m, mix)| label(&mut text, 130.0 + 165.0 * m as f64, base + 18.0, "middle", mix.name));
    text + "</svg>\n"
}

fn hit_bars(mixed: &[Mixed]) -> Vec<(&str, &str, Vec<f64>)> {
    let ours = |i: usize| mixed[i].tallies.iter().map(|(tally, ..)| tally.hit_ratio()).collect();
    let emptied = mixed[0].tallies.iter().map(|(tally, ..)| tally.naive_ratio()).collect();
    vec![
        ("document 002", "#888", MIXES.iter().map(|mix| mix.paper_hits as f64 / 100.0).collect()),
        (mixed[0].setting.name, "#47a", ours(0)),
        (mixed[1].setting.name, "#9bd", ours(1)),
        ("emptied at every write", "#c77", emptied),
    ]
}

fn hit_bar(text: &mut String, [mix, bar, bars]: [f64; 3], base: f64, value: f64, colour: &str) {
    let width = 140.0 / bars;
    let x = 60.0 + 165.0 * mix + bar * width;
    rectangle(text, [x, base - value * 220.0, width - 3.0, value * 220.0], colour);
    label(text, x + width / 2.0, base - value * 220.0 - 3.0, "middle", &format!("{:.0}", value * 100.0));
}
