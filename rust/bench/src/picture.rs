//! The picture: for each workload on full texts three bars, ours, the tuned
//! version's and the limit, as parts of the straightforward version's time,
//! which is the line at 1. A bar that would be longer than the picture is wide
//! ends in a point.

use std::fmt::Write;

use crate::clock::Times;
use crate::workloads::Workload;

const LEFT: f64 = 268.0;
const UNIT: f64 = 420.0;
const MOST: f64 = 1.2;
const ROW: f64 = 20.0;
const GAP: f64 = 30.0;

const INK: &str = "#222222";
const OURS: &str = "#2a6f97";
const TUNED: &str = "#b5533c";
const LIMIT: &str = "#c9a227";

/// Whether a workload is one of those that the picture shows, 14 rows.
fn is_shown(workload: &Workload) -> bool {
    workload.name.contains("full texts") && !workload.name.starts_with("one answer, verify")
}

/// The picture as the text of an SVG file.
pub fn drawn(all: &[Workload], times: &[Times]) -> String {
    let mut body = String::new();
    let mut top = 58.0;
    let mut group = "";
    let shown = all.iter().zip(times);
    for (workload, times) in shown.filter(|(workload, _)| is_shown(workload)) {
        if workload.group != group {
            group = workload.group;
            top += GAP;
            text(&mut body, 12.0, top - 8.0, "start", true, group);
        }
        row(&mut body, top, &workload.name, times);
        top += ROW;
    }
    let height = top + 20.0;
    let width = LEFT + UNIT * MOST + 80.0;
    let mut svg = format!(
        "<svg xmlns=\"http://www.w3.org/2000/svg\" viewBox=\"0 0 {width} {height}\" font-family=\"sans-serif\" font-size=\"12\">\n<rect width=\"{width}\" height=\"{height}\" fill=\"#ffffff\"/>\n"
    );
    text(
        &mut svg,
        12.0,
        22.0,
        "start",
        true,
        "Time as a part of the straightforward Rust version's (the line at 1)",
    );
    key(&mut svg, 12.0, OURS, "the proved library");
    key(&mut svg, 160.0, TUNED, "a tuned Rust version");
    key(
        &mut svg,
        320.0,
        LIMIT,
        "a loop that touches the same bytes once",
    );
    for tenth in [0, 5, 10] {
        let x = LEFT + UNIT * f64::from(tenth) / 10.0;
        let width = if tenth == 10 { 1.5 } else { 0.5 };
        writeln!(svg, "<line x1=\"{x}\" y1=\"62\" x2=\"{x}\" y2=\"{}\" stroke=\"{INK}\" stroke-width=\"{width}\"/>", height - 12.0).unwrap();
        text(
            &mut svg,
            x,
            58.0,
            "middle",
            false,
            &format!("{:.1}", f64::from(tenth) / 10.0),
        );
    }
    svg + &body + "</svg>\n"
}

fn row(body: &mut String, top: f64, name: &str, times: &Times) {
    text(body, LEFT - 8.0, top + 11.0, "end", false, name);
    bar(body, top + 1.0, 8.0, times.ratio(), OURS);
    bar(body, top + 9.0, 4.0, times.tuned / times.rust, TUNED);
    bar(body, top + 13.0, 4.0, times.limit / times.rust, LIMIT);
    text(
        body,
        LEFT + UNIT * MOST + 60.0,
        top + 11.0,
        "end",
        false,
        &format!("{:.2}", times.ratio()),
    );
}

fn bar(body: &mut String, top: f64, height: f64, ratio: f64, colour: &str) {
    let width = UNIT * ratio.min(MOST);
    writeln!(body, "<rect x=\"{LEFT}\" y=\"{top}\" width=\"{width:.1}\" height=\"{height}\" fill=\"{colour}\"/>").unwrap();
    if ratio > MOST {
        let end = LEFT + width;
        let (middle, bottom) = (top + height / 2.0, top + height);
        writeln!(
            body,
            "<path d=\"M{end:.1} {top}L{:.1} {middle}L{end:.1} {bottom}Z\" fill=\"{colour}\"/>",
            end + 10.0
        )
        .unwrap();
    }
}

fn key(svg: &mut String, x: f64, colour: &str, words: &str) {
    writeln!(
        svg,
        "<rect x=\"{x}\" y=\"32\" width=\"12\" height=\"10\" fill=\"{colour}\"/>"
    )
    .unwrap();
    text(svg, x + 18.0, 41.0, "start", false, words);
}

fn text(svg: &mut String, x: f64, y: f64, anchor: &str, bold: bool, words: &str) {
    let weight = if bold { " font-weight=\"bold\"" } else { "" };
    writeln!(svg, "<text x=\"{x:.1}\" y=\"{y:.1}\" text-anchor=\"{anchor}\" fill=\"{INK}\"{weight}>{words}</text>").unwrap();
}
