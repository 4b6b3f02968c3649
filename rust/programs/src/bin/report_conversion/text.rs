//! Writes a report as text.

use crate::decibels::hundredths;
use crate::erased::apfloat_decimals::{rounded, shortest};
use crate::erased::rustc_apfloat::ieee::{Double, IeeeFloat, Semantics};
use crate::erased::rustc_apfloat::{Float, Round};
use crate::measures::{Fate, Largest, exponent};
use crate::run::Report;
use std::io::{self, Write};

/// The least width of a column, and the least space before what stands in it.
const COLUMN: usize = 14;
const SPACE: usize = 2;

/// The length of the longest bar.
const BAR: u64 = 20;

/// The digits of an error, and the most of a number.
const ERROR_DIGITS: u32 = 4;
const NUMBER_DIGITS: u32 = 9;

/// A row of a report: what it says, and the word of each target.
pub struct Row {
    pub name: &'static str,
    pub cells: Vec<String>,
}

/// The line about the values.
pub fn headline(report: &Report<'_>) -> String {
    let kinds = report.values;
    let all = kinds.numbers + kinds.zeros + kinds.infinities + kinds.nans;
    format!(
        "{all} values of {}: {} numbers, {} zeros, {} infinities, {} NaNs",
        report.request.source_word, kinds.numbers, kinds.zeros, kinds.infinities, kinds.nans
    )
}

/// What is said of each target. Rows of numbers leave out zeros, infinities and NaNs.
pub fn rows(report: Report<'_>) -> Vec<Row> {
    let mut rows: Vec<Row> = [
        "exact",
        "inexact",
        "become zero",
        "past the largest",
        "flags: inexact",
        "underflow",
        "overflow",
        "invalid",
        "results: zeros",
        "infinities",
        "NaNs",
        "largest error",
        "  of the value",
        "largest, in ulps",
        "  of the value",
        "signal to noise",
    ]
    .map(|name| Row { name, cells: Vec::new() })
    .into();
    for (measures, counts) in report.measures {
        let (results, all, exact) = (measures.results, measures.all, measures.exact);
        let (error, ulps) = (measures.error, measures.ulps);
        let size = |found: Largest| found.map_or("0".into(), |(error, _)| rounded_text(error, ERROR_DIGITS));
        let of = |found: Largest| found.map_or("-".into(), |(_, x)| number_text(x));
        let cells = [
            exact.to_string(),
            all.inexact.to_string(),
            all.lost.to_string(),
            all.past.to_string(),
            counts.inexact.to_string(),
            counts.underflow.to_string(),
            counts.overflow.to_string(),
            counts.invalid.to_string(),
            results.zeros.to_string(),
            results.infinities.to_string(),
            results.nans.to_string(),
            size(error),
            of(error),
            size(ulps),
            of(ulps),
            if error.is_none() { "no noise".into() } else { ratio(measures.powers()) },
        ];
        for (row, cell) in rows.iter_mut().zip(cells) {
            row.cells.push(cell);
        }
    }
    rows
}

/// The ratio of signal to noise, if both can be written as doubles.
fn ratio((signal, noise): (Double, Double)) -> String {
    if [signal, noise].iter().any(|power| power.is_zero() || !power.is_finite()) {
        return "-".into();
    }
    let hundredths = hundredths(signal, noise);
    let sign = if hundredths < 0 { "-" } else { "" };
    let magnitude = hundredths.unsigned_abs();
    format!("{sign}{}.{:02} dB", magnitude / 100, magnitude % 100)
}

fn rounded_text<S: Semantics>(x: IeeeFloat<S>, digits: u32) -> String {
    rounded(x, digits, Round::NearestTiesToEven).map_or("-".into(), |(decimal, _)| decimal.to_string())
}

/// The shortest decimal of a number, or a rounded one if that has more digits.
fn number_text(x: Double) -> String {
    match shortest(x) {
        Some(decimal) if decimal.digits < 10_u128.pow(NUMBER_DIGITS) => decimal.to_string(),
        _ => rounded_text(x, NUMBER_DIGITS),
    }
}

/// The name of a binade.
pub fn binade_name(place: usize) -> String {
    format!("2^{}", exponent(place))
}

/// What became of the numbers of a binade.
fn fate_text(fate: Fate) -> String {
    let said = [(fate.inexact - fate.lost, "inexact"), (fate.lost, "zero"), (fate.past, "past")];
    let said: Vec<_> =
        said.iter().filter(|(count, _)| *count > 0).map(|(count, name)| format!("{count} {name}")).collect();
    if said.is_empty() { "exact".into() } else { said.join(" ") }
}

/// Writes the report.
pub fn write_text(report: Report<'_>, out: &mut impl Write) -> io::Result<()> {
    writeln!(out, "{}\n", headline(&report))?;
    let words: Vec<_> = report.request.targets.iter().map(|(word, _)| word.to_string()).collect();
    let binades = histogram(&report, &words);
    let mut table = vec![Row { name: "", cells: words }];
    table.extend(rows(report));
    let longest = table.iter().flat_map(|row| &row.cells).map(String::len).max().unwrap_or(0);
    let column = COLUMN.max(longest + SPACE);
    for Row { name, cells } in table {
        let cells: String = cells.iter().map(|cell| format!("{cell:>column$}")).collect();
        writeln!(out, "{name:<18}{cells}")?;
    }
    if !binades.is_empty() {
        writeln!(out)?;
    }
    binades.iter().try_for_each(|line| writeln!(out, "{}", line.trim_end()))
}

/// A heading, and a line for each binade that has numbers.
fn histogram(report: &Report<'_>, words: &[String]) -> Vec<String> {
    let binades = report.binades.filled();
    let Some(most) = binades.iter().map(|(_, count)| *count).max() else {
        return Vec::new();
    };
    let mut lines = vec![format!("{:<8}{:>12} {:<20}", "binade", "numbers", "")];
    for (place, count) in &binades {
        let bar = "#".repeat((count * BAR).div_ceil(most) as usize);
        lines.push(format!("{:<8}{count:>12} {bar:<20}", binade_name(*place)));
    }
    for (word, (measures, _)) in words.iter().zip(&report.measures) {
        let fates = binades.iter().map(|(place, _)| fate_text(measures.fates[*place]));
        let cells: Vec<_> = std::iter::once(word.clone()).chain(fates).collect();
        let width = cells.iter().map(String::len).max().unwrap_or(0);
        for (line, cell) in lines.iter_mut().zip(cells) {
            line.push_str(&format!("  {cell:<width$}"));
        }
    }
    lines
}
