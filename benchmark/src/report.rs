//! The page and the drawing, from what was counted and timed.

use crate::workloads;
use growth::{thousands, Growth};
use std::collections::HashMap;
use std::fmt::Write;
use std::fs;

struct Row {
    group: &'static str,
    name: &'static str,
    /// Ours and the Rust's; None where it wasn't counted or timed.
    instructions: Option<(f64, f64)>,
    nanoseconds: Option<(f64, f64)>,
    samples: usize,
}

pub fn read(path: &str) -> Result<String, String> {
    fs::read_to_string(path).map_err(|e| format!("{path} can't be read: {e}"))
}

/// Reads COUNTS (workload, side and instructions by tabs), GROWTH (name, way, length and instructions) and TIMES (workload, ours, the Rust's and samples),
/// prints the table, and writes it with the text of ABOUT and with how work grows into FOLDER/BENCHMARKS.md and the ratios into FOLDER/benchmarks.svg.
pub fn write(counts: &str, growth: &str, times: &str, about: &str, folder: &str) -> Result<(), String> {
    let (counts, growth, times, about) = (read(counts)?, Growth::read(&read(growth)?)?, read(times)?, read(about)?);
    let mut counted: HashMap<(&str, &str), f64> = HashMap::new();
    for line in counts.lines() {
        let [name, side, n] = line.split('\t').collect::<Vec<_>>()[..] else {
            return Err(format!("not a line of counts: {line}"));
        };
        counted.insert((name, side), n.parse().map_err(|_| format!("not a count: {line}"))?);
    }
    let mut timed: HashMap<&str, (f64, f64, usize)> = HashMap::new();
    for line in times.lines() {
        let [name, ours, theirs, samples] = line.split('\t').collect::<Vec<_>>()[..] else {
            return Err(format!("not a line of times: {line}"));
        };
        let number = |s: &str| s.parse::<f64>().map_err(|_| format!("not a time: {line}"));
        timed.insert(name, (number(ours)?, number(theirs)?, number(samples)? as usize));
    }
    let rows: Vec<Row> = workloads::all()
        .iter()
        .map(|w| Row {
            group: w.group,
            name: w.name,
            instructions: counted.get(&(w.name, "ours")).copied().zip(counted.get(&(w.name, "the Rust")).copied()),
            nanoseconds: timed.get(w.name).map(|&(ours, theirs, _)| (ours, theirs)),
            samples: timed.get(w.name).map_or(0, |t| t.2),
        })
        .collect();
    let empty = counted.get(&("an empty call", "ours")).copied().unwrap_or(0.0);
    print!("{}", plain(&rows));
    let save = |name: &str, text: String| fs::write(format!("{folder}/{name}"), text).map_err(|e| format!("{folder}/{name} can't be written: {e}"));
    save("BENCHMARKS.md", page(&rows, empty, &growth, &about))?;
    save("benchmarks.svg", drawing(&rows))
}

fn ratio_of(pair: Option<(f64, f64)>) -> Option<f64> {
    pair.map(|(ours, theirs)| ours / theirs)
}

fn ratio(pair: Option<(f64, f64)>) -> String {
    ratio_of(pair).map_or("-".to_owned(), |r| if r < 0.095 { format!("{r:.4}") } else { format!("{r:.2}") })
}

fn both(pair: Option<(f64, f64)>) -> (String, String) {
    pair.map_or(("-".to_owned(), "-".to_owned()), |(ours, theirs)| (thousands(ours), thousands(theirs)))
}

fn plain(rows: &[Row]) -> String {
    let mut out =
        format!("{:48} {:>15} {:>15} {:>7} {:>15} {:>15} {:>7}\n", "workload", "instructions", "the Rust's", "ratio", "nanoseconds", "the Rust's", "ratio");
    for r in rows {
        let ((a, b), (c, d)) = (both(r.instructions), both(r.nanoseconds));
        let _ = writeln!(out, "{:48} {a:>15} {b:>15} {:>7} {c:>15} {d:>15} {:>7}", r.name, ratio(r.instructions), ratio(r.nanoseconds));
    }
    out
}

fn page(rows: &[Row], empty: f64, growth: &Growth, about: &str) -> String {
    let mut out = String::from("# Benchmarks: ours beside atat 0.25.0\n\n");
    out += "`./bench` writes this page. Ratios are ours / the Rust's: below 1 ours is cheaper, above 1 the Rust is.\n\n![the ratios](benchmarks.svg)\n\n";
    out += about;
    out += "\n## The table\n\nInstructions of one call, and median nanoseconds of one call. `-`: not counted, or not timed.\n\n";
    out += "| Workload | Instructions, ours | the Rust's | Ratio | Nanoseconds, ours | the Rust's | Ratio | Samples |\n|---|--:|--:|--:|--:|--:|--:|--:|\n";
    let mut group = "";
    for r in rows {
        if r.group != group {
            group = r.group;
            let _ = writeln!(out, "| **{group}** | | | | | | | |");
        }
        let ((a, b), (c, d)) = (both(r.instructions), both(r.nanoseconds));
        let _ = writeln!(out, "| {} | {a} | {b} | {} | {c} | {d} | {} | {} |", r.name, ratio(r.instructions), ratio(r.nanoseconds), r.samples);
    }
    let _ = writeln!(out, "\nA call that does nothing counts {empty:.0} instructions; they are in every figure.");
    out += &growth.section();
    out
}

const LEFT: f64 = 340.0;
const RIGHT: f64 = 880.0;
const STEP: f64 = 20.0;

/// The ratios on a logarithmic scale: a disc for instructions, a ring for time where it was measured.
fn drawing(rows: &[Row]) -> String {
    let all = || rows.iter().flat_map(|r| [ratio_of(r.instructions), ratio_of(r.nanoseconds)]).flatten();
    let low = all().fold(0.5, f64::min).log10().floor();
    let high = all().fold(2.0, f64::max).log10().ceil();
    let x = |r: f64| LEFT + (r.log10() - low) / (high - low) * (RIGHT - LEFT);
    let groups = 1 + rows.windows(2).filter(|w| w[0].group != w[1].group).count();
    let (top, bottom) = (76.0, 76.0 + STEP * (rows.len() + groups) as f64);
    let mut out = format!(
        "<svg xmlns=\"http://www.w3.org/2000/svg\" viewBox=\"0 0 940 {h}\" width=\"940\" height=\"{h}\" font-family=\"sans-serif\" font-size=\"12\">\n\
         <rect width=\"940\" height=\"{h}\" fill=\"#fff\"/>\n\
         <text x=\"20\" y=\"26\" font-size=\"16\" fill=\"#111\">Cost of a call: ours / atat 0.25.0</text>\n\
         <circle cx=\"26\" cy=\"45\" r=\"5\" fill=\"#1b5e9c\"/><text x=\"38\" y=\"49\" fill=\"#333\">instructions</text>\n\
         <text x=\"{l:.0}\" y=\"49\" text-anchor=\"end\" fill=\"#333\">&#8592; ours is cheaper</text><text x=\"{r:.0}\" y=\"49\" fill=\"#333\">the Rust is cheaper &#8594;</text>\n",
        h = bottom + 36.0,
        l = x(1.0) - 8.0,
        r = x(1.0) + 8.0,
    );
    if rows.iter().any(|r| r.nanoseconds.is_some()) {
        out +=
            "<circle cx=\"128\" cy=\"45\" r=\"4.5\" fill=\"none\" stroke=\"#b3541e\" stroke-width=\"2\"/><text x=\"140\" y=\"49\" fill=\"#333\">time</text>\n";
    }
    for power in low as i32..=high as i32 {
        for digit in 1..=9 {
            let value = f64::from(digit) * 10f64.powi(power);
            let at = x(value);
            if at > RIGHT + 0.5 {
                break;
            }
            let (colour, width) = match (power, digit) {
                (0, 1) => ("#111", 1.6),
                (_, 1) => ("#999", 1.0),
                _ => ("#e6e6e6", 0.7),
            };
            let _ = writeln!(out, "<line x1=\"{at:.1}\" y1=\"{top}\" x2=\"{at:.1}\" y2=\"{bottom}\" stroke=\"{colour}\" stroke-width=\"{width}\"/>");
            if digit == 1 {
                for y in [top - 6.0, bottom + 16.0] {
                    let _ = writeln!(out, "<text x=\"{at:.1}\" y=\"{y}\" text-anchor=\"middle\" fill=\"#333\">{value}</text>");
                }
            }
        }
    }
    let mut y = top;
    let mut group = "";
    for r in rows {
        if r.group != group {
            group = r.group;
            y += STEP;
            let _ = writeln!(out, "<text x=\"20\" y=\"{:.1}\" font-weight=\"bold\" fill=\"#111\">{group}</text>", y - 5.0);
        }
        y += STEP;
        let middle = y - STEP / 2.0;
        let _ = writeln!(
            out,
            "<text x=\"{:.0}\" y=\"{:.1}\" text-anchor=\"end\" fill=\"#111\">{}</text>",
            LEFT - 12.0,
            middle + 4.0,
            r.name.replace('<', "&lt;").replace('>', "&gt;")
        );
        if let Some(ratio) = ratio_of(r.instructions) {
            let _ = writeln!(out, "<circle cx=\"{:.1}\" cy=\"{middle:.1}\" r=\"5\" fill=\"#1b5e9c\"/>", x(ratio));
        }
        if let Some(ratio) = ratio_of(r.nanoseconds) {
            let _ = writeln!(out, "<circle cx=\"{:.1}\" cy=\"{middle:.1}\" r=\"4.5\" fill=\"none\" stroke=\"#b3541e\" stroke-width=\"2\"/>", x(ratio));
        }
    }
    out += "</svg>\n";
    out
}
