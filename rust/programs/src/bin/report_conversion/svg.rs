//! Draws a report in SVG, in the colours of a light or a dark page, as the reader has it: what is said of each target,
//! and a bar for each binade, divided by what became of its numbers.

use crate::measures::Fate;
use crate::run::Report;
use crate::text::{binade_name, headline, rows};
use std::io::{self, Write};

/// The margin, the width of what is left of the bars, and that of the bars of a target.
const MARGIN: usize = 24;
const NAMES: usize = 170;
const TARGET: usize = 190;

/// The longest bar, the thinnest part of one, the height of a line, and that of a bar.
const LONGEST: u64 = 164;
const THINNEST: usize = 2;
const LINE: usize = 20;
const BAR: usize = 14;

/// The width of a part's name in the key.
const KEY: usize = 130;

/// What a part of a bar stands for.
const PARTS: [(&str, &str); 4] =
    [("exact", "exact"), ("inexact", "inexact"), ("lost", "becomes zero"), ("past", "past the largest")];

const STYLE: &str = "\
text { font: 13px ui-monospace, Menlo, Consolas, 'DejaVu Sans Mono', monospace; fill: #1f2328 }
.soft { fill: #59636e }
.small { font-size: 11px }
.end { text-anchor: end }
.page { fill: #ffffff }
.exact { fill: #1a7f37 }
.inexact { fill: #0969da; fill-opacity: .55 }
.lost { fill: #9a6700 }
.past { fill: #cf222e }
@media (prefers-color-scheme: dark) {
text { fill: #e6edf3 }
.soft { fill: #9198a1 }
.page { fill: #0d1117 }
.exact { fill: #3fb950 }
.inexact { fill: #58a6ff; fill-opacity: .6 }
.lost { fill: #d29922 }
.past { fill: #ff7b72 }
}
";

/// Writes the picture of a report.
pub fn write_svg(report: Report<'_>, out: &mut impl Write) -> io::Result<()> {
    let title = headline(&report);
    let words: Vec<_> = report.request.targets.iter().map(|(word, _)| word.to_string()).collect();
    let binades = report.binades.filled();
    let fates: Vec<Vec<Fate>> = report.measures.iter().map(|(measures, _)| measures.fates.clone()).collect();
    let rows = rows(report);
    let width = (2 * MARGIN + NAMES + TARGET * words.len()).max(2 * MARGIN + 9 * title.len());
    let height = 3 * MARGIN + LINE * (rows.len() + 3) + (BAR + 2) * binades.len();
    let size = format!(r#"viewBox="0 0 {width} {height}" width="{width}" height="{height}""#);
    writeln!(out, r#"<svg xmlns="http://www.w3.org/2000/svg" {size} role="img">"#)?;
    writeln!(out, "<title>{title}</title>\n<style>\n{STYLE}</style>")?;
    writeln!(out, r#"<rect class="page" width="{width}" height="{height}" rx="6"/>"#)?;
    let mut y = MARGIN + LINE / 2;
    text(out, MARGIN, y, "", &title)?;
    y += LINE + LINE / 4;
    for (i, word) in words.iter().enumerate() {
        text(out, right_of(i), y, "end", word)?;
    }
    for row in &rows {
        y += LINE;
        let name = row.name.trim_start();
        text(out, MARGIN + 8 * (row.name.len() - name.len()), y, "soft", name)?;
        for (i, cell) in row.cells.iter().enumerate() {
            text(out, right_of(i), y, "end", cell)?;
        }
    }
    y += LINE + MARGIN / 2;
    for (i, (class, name)) in PARTS.iter().enumerate() {
        let x = MARGIN + i * KEY;
        writeln!(out, r#"<rect class="{class}" x="{x}" y="{}" width="10" height="10"/>"#, y - 10)?;
        text(out, x + 16, y, "small", name)?;
    }
    y += MARGIN / 2;
    let most = binades.iter().map(|(_, count)| *count).max().unwrap_or(1);
    for (place, count) in binades {
        text(out, MARGIN, y + BAR - 3, "small soft", &binade_name(place))?;
        text(out, MARGIN + NAMES - 20, y + BAR - 3, "small soft end", &count.to_string())?;
        for (i, fates) in fates.iter().enumerate() {
            bar(out, MARGIN + NAMES + i * TARGET, y, count, most, fates[place])?;
        }
        y += BAR + 2;
    }
    writeln!(out, "</svg>")
}

/// Where the words of a target end.
fn right_of(target: usize) -> usize {
    MARGIN + NAMES + target * TARGET + LONGEST as usize
}

fn text(out: &mut impl Write, x: usize, y: usize, class: &str, said: &str) -> io::Result<()> {
    writeln!(out, r#"<text x="{x}" y="{y}" class="{class}">{said}</text>"#)
}

/// The bar of a binade, as long as its share of the fullest one. Each part that has values is wide enough to be seen.
fn bar(out: &mut impl Write, mut x: usize, y: usize, count: u64, most: u64, fate: Fate) -> io::Result<()> {
    let parts = [count - fate.inexact - fate.past, fate.inexact - fate.lost, fate.lost, fate.past];
    for ((class, _), part) in PARTS.iter().zip(parts) {
        if part > 0 {
            let share = u128::from(part) * u128::from(LONGEST) / u128::from(most);
            let width = THINNEST.max(share as usize);
            writeln!(out, r#"<rect class="{class}" x="{x}" y="{y}" width="{width}" height="{BAR}"/>"#)?;
            x += width;
        }
    }
    Ok(())
}
