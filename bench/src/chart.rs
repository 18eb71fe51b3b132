//! The chart: for each row of the table a bar as long as our time is in units of the Rust's.
use crate::timing::Times;
use std::fmt::Write;

const LEFT: f64 = 420.0;
const UNIT: f64 = 360.0;
const LINE: f64 = 18.0;
const TOP: f64 = 64.0;
/// Bars end here, in units of the Rust's time; a longer one is cut, and its number says how long it is.
const MOST: f64 = 1.25;

fn text(out: &mut String, x: f64, y: f64, anchor: &str, words: &str) {
    writeln!(out, r#"<text x="{x:.1}" y="{y:.1}" text-anchor="{anchor}">{words}</text>"#).unwrap();
}

/// An upright line at so many units, named above the bars.
fn mark(out: &mut String, at: f64, bottom: f64, dashes: &str, words: &str) {
    let x = LEFT + at * UNIT;
    writeln!(
        out,
        r##"<line x1="{x:.1}" y1="{:.1}" x2="{x:.1}" y2="{bottom:.1}" stroke="#444" stroke-dasharray="{dashes}"/>"##,
        TOP - 8.0
    )
    .unwrap();
    text(out, x, TOP - 14.0, "middle", words);
}

fn bar(out: &mut String, row: &Times, y: f64) {
    let long = row.ratio().min(MOST) * UNIT;
    let colour = if row.ratio() <= 0.5 {
        "#2a7f62"
    } else if row.ratio() <= 1.0 {
        "#d9a514"
    } else {
        "#b5433a"
    };
    text(out, LEFT - 8.0, y + 12.0, "end", &row.name);
    writeln!(out, r#"<rect x="{LEFT}" y="{:.1}" width="{long:.1}" height="{:.1}" fill="{colour}"/>"#, y + 2.0, LINE - 5.0).unwrap();
    let cut = if row.ratio() > MOST { ", cut" } else { "" };
    text(out, LEFT + long + 5.0, y + 12.0, "start", &format!("{:.2}{cut}", row.ratio()));
}

pub fn svg(rows: &[Times]) -> String {
    let bottom = TOP + LINE * rows.len() as f64;
    let (width, height) = (LEFT + MOST * UNIT + 80.0, bottom + 12.0);
    let mut out = String::new();
    writeln!(
        out,
        r#"<svg xmlns="http://www.w3.org/2000/svg" viewBox="0 0 {width} {height}" width="{width}" height="{height}" font-family="sans-serif" font-size="11">"#
    )
    .unwrap();
    writeln!(out, r#"<rect width="100%" height="100%" fill="white"/>"#).unwrap();
    writeln!(out, r#"<text x="12" y="22" font-size="15">The proved code's time in units of kanpig's Rust (shorter is faster)</text>"#).unwrap();
    for (at, row) in rows.iter().enumerate() {
        bar(&mut out, row, TOP + LINE * at as f64);
    }
    mark(&mut out, 0.5, bottom, "4 4", "half its time");
    mark(&mut out, 1.0, bottom, "none", "the Rust's time");
    out.push_str("</svg>\n");
    out
}
