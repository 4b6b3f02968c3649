//! Draws an explanation in SVG, in the colours of a light or a dark page, as the reader has it.

use crate::explanation::{Between, Explanation, Meaning, Place, Shown, Widths};
use crate::grid::Grid;
use crate::picture::{
    name_of, rule_of, write_decimal, write_digits, write_exact, write_flags, write_meaning, write_pick, write_reading,
};
use crate::question::{Operation, Question};
use std::io::{self, Write};

/// The width of the picture, and of the margins beside what is drawn.
const WIDTH: u32 = 760;
const MARGIN: u32 = 24;

/// The width of what is drawn.
const DRAWN: u32 = WIDTH - 2 * MARGIN;

const STYLE: &str = "\
text { font: 14px ui-monospace, Menlo, Consolas, 'DejaVu Sans Mono', monospace; fill: #1f2328 }
.small { font-size: 11px }
.soft { fill: #59636e }
.middle { text-anchor: middle }
.end { text-anchor: end }
.page { fill: #ffffff }
.line { stroke: #59636e; stroke-width: 1.5; fill: none }
.sign { fill: #cf222e; stroke: #cf222e }
.exponent { fill: #1a7f37; stroke: #1a7f37 }
.digits { fill: #0969da; stroke: #0969da }
.zero { fill-opacity: .12 }
.one { fill-opacity: .85 }
.on { fill: #ffffff }
.exact { fill: #9a6700 }
.way { stroke: #9a6700; stroke-width: 2; stroke-dasharray: 5 4; fill: none }
.pick { fill: #8250df }
@media (prefers-color-scheme: dark) {
text { fill: #e6edf3 }
.soft { fill: #9198a1 }
.page { fill: #0d1117 }
.line { stroke: #9198a1 }
.sign { fill: #ff7b72; stroke: #ff7b72 }
.exponent { fill: #3fb950; stroke: #3fb950 }
.digits { fill: #58a6ff; stroke: #58a6ff }
.zero { fill-opacity: .18 }
.on { fill: #0d1117 }
.exact { fill: #d29922 }
.way { stroke: #d29922 }
.pick { fill: #bc8cff }
}
";

/// What is drawn, from the top on.
struct Drawing {
    body: Vec<u8>,
    /// How far down there is something.
    bottom: u32,
}

/// Writes the picture of an explanation.
pub fn write_svg(question: Question, explanation: &Explanation, out: &mut impl Write) -> io::Result<()> {
    let mut drawing = Drawing { body: Vec::new(), bottom: 8 };
    drawing.explanation(question, explanation)?;
    let height = drawing.bottom + 12;
    write!(out, r#"<svg xmlns="http://www.w3.org/2000/svg" viewBox="0 0 {WIDTH} {height}" "#)?;
    writeln!(out, r#"width="{WIDTH}" height="{height}" role="img">"#)?;
    writeln!(out, "<title>{}</title>", title(question))?;
    writeln!(out, "<style>\n{STYLE}</style>")?;
    writeln!(out, r#"<rect class="page" width="{WIDTH}" height="{height}" rx="6"/>"#)?;
    out.write_all(&drawing.body)?;
    writeln!(out, "</svg>")
}

/// What is asked, in a line.
fn title(question: Question) -> String {
    let machine = question.machine.map_or(String::new(), |(_, name)| format!(", on {name}"));
    match question.operation {
        Operation::Value => format!("a value of {}", question.format_word),
        operation => format!("{} {}, {}{machine}", question.format_word, name_of(operation), rule_of(question.round)),
    }
}

impl Drawing {
    fn explanation(&mut self, question: Question, explanation: &Explanation) -> io::Result<()> {
        let widths = explanation.widths;
        self.line("", &title(question))?;
        let names = ["A", "B", "C"].iter().zip(&explanation.operands);
        for (name, operand) in names.take(question.operation.operand_count()) {
            self.value(widths, name, &operand.value)?;
            for line in written(|out| write_reading(operand, out))?.lines() {
                self.line("soft small", line.trim_start())?;
            }
        }
        if let Operation::Value = question.operation {
            return Ok(());
        }
        if let Some(grid) = explanation.grid {
            self.grid(grid, &explanation.operands[0].value)?;
            return self.lines(|out| write_flags(grid.status, false, out));
        }
        match &explanation.place {
            Place::None => {}
            Place::Exact => self.line("", "The exact result is a value of the format.")?,
            Place::Beyond(exact) => {
                self.lines(|out| write_exact(exact, out))?;
                self.line("", "The exact result is beyond the largest value.")?;
            }
            Place::Between(between) => {
                self.lines(|out| write_exact(&between.exact, out))?;
                self.way(widths, between)?;
                self.lines(|out| write_pick(question.round, between, out))?;
            }
        }
        self.value(widths, "result", &explanation.result)?;
        self.lines(|out| write_flags(explanation.status, false, out))
    }

    /// A text at the left, below what is there.
    fn line(&mut self, class: &str, text: &str) -> io::Result<()> {
        self.bottom += 22;
        self.text(MARGIN, self.bottom, class, text)
    }

    fn text(&mut self, x: u32, y: u32, class: &str, text: &str) -> io::Result<()> {
        let text = text.replace('&', "&amp;").replace('<', "&lt;");
        writeln!(self.body, r#"<text x="{x}" y="{y}" class="{class}" xml:space="preserve">{text}</text>"#)
    }

    /// The lines of a text that is written as on a terminal, without the empty ones.
    fn lines(&mut self, write: impl FnOnce(&mut Vec<u8>) -> io::Result<()>) -> io::Result<()> {
        for line in written(write)?.lines().filter(|line| !line.is_empty()) {
            self.line("", line)?;
        }
        Ok(())
    }

    /// A value: its name, its bits and its decimal, the bits by fields, and what it is exactly.
    fn value(&mut self, widths: Widths, name: &str, shown: &Shown) -> io::Result<()> {
        self.bottom += 8;
        self.line("", &format!("{name:<7} {}", head(widths, shown)?))?;
        self.bottom += 8;
        self.bits(widths, shown.bits)?;
        self.line("soft small", &written(|out| write_meaning(shown, out))?)
    }

    /// The bits: the sign, the exponent and the trailing significand. Where there is room for digits they have them.
    fn bits(&mut self, widths: Widths, bits: u128) -> io::Result<()> {
        const HEIGHT: u32 = 20;
        const GAP: u32 = 6;
        // In tenths of a unit.
        let cell = (10 * (DRAWN - 2 * GAP) / widths.bits).min(200);
        let mut left = 10 * MARGIN;
        for place in (0..widths.bits).rev() {
            let from_top = widths.bits - 1 - place;
            let class = match from_top {
                0 => "sign",
                of_exponent if of_exponent <= widths.exponent => "exponent",
                _ => "digits",
            };
            if from_top == 1 || from_top == widths.exponent + 1 {
                left += 10 * GAP;
            }
            let bit = bits >> place & 1;
            let kind = if bit == 1 { "one" } else { "zero" };
            let (x, y, width) = (tenths(left), self.bottom, tenths(cell));
            writeln!(
                self.body,
                r#"<rect x="{x}" y="{y}" width="{width}" height="{HEIGHT}" class="{class} {kind}" stroke-width=".5"/>"#
            )?;
            if cell >= 80 {
                let class = if bit == 1 { "small middle on" } else { "small middle" };
                self.text((left + cell / 2) / 10, self.bottom + 14, class, if bit == 1 { "1" } else { "0" })?;
            }
            left += cell;
        }
        self.bottom += HEIGHT - 4;
        Ok(())
    }

    /// The line from one neighbour to the next, the exact result between them, and the one that is picked.
    fn way(&mut self, widths: Widths, between: &Between) -> io::Result<()> {
        let (left, right) = (MARGIN + 8, WIDTH - MARGIN - 8);
        let y = self.bottom + 60;
        let at = |parts: u32| left + (right - left) * parts.min(64) / 64;
        let (exact, pick) = (at(between.parts), if between.takes_upper { right } else { left });
        writeln!(self.body, r#"<path class="line" d="M{left} {y}H{right}"/>"#)?;
        for parts in (0..=64).step_by(8) {
            let half = if parts % 32 == 0 { 9 } else { 4 };
            writeln!(self.body, r#"<path class="line" d="M{} {}v{}"/>"#, at(parts), y - half, 2 * half)?;
        }
        let top = y - 34;
        writeln!(
            self.body,
            r#"<path class="way" d="M{exact} {}Q{} {top} {pick} {}"/>"#,
            y - 10,
            (exact + pick) / 2,
            y - 8
        )?;
        writeln!(self.body, r#"<circle class="pick" cx="{pick}" cy="{y}" r="7"/>"#)?;
        writeln!(self.body, r#"<path class="exact" d="M{exact} {y}l-6 11h12z"/>"#)?;
        let (side, x) = if exact > WIDTH / 2 { ("end", exact + 8) } else { ("", exact - 8) };
        self.text(x, y + 26, &format!("small {side}"), "exact result")?;
        self.text(left - 8, y + 46, "", &format!("lower {}", head(widths, &between.lower)?))?;
        self.text(right + 8, y + 68, "end", &format!("upper {}", head(widths, &between.upper)?))?;
        self.bottom = y + 72;
        Ok(())
    }

    /// The numbers of a storage format with the sign of the result, and the value among them.
    fn grid(&mut self, grid: Grid, value: &Shown) -> io::Result<()> {
        let (left, width, y) = (MARGIN + 8, DRAWN - 40, self.bottom + 54);
        let count = grid.element.count();
        let largest = grid.element.sixteenths(count - 1);
        let at = |sixteenths: u32| left + width * sixteenths / largest;
        writeln!(self.body, r#"<path class="line" d="M{left} {y}H{}"/>"#, left + width)?;
        let mut named = 0;
        for index in 0..count {
            let sixteenths = grid.element.sixteenths(index);
            let x = at(sixteenths);
            writeln!(self.body, r#"<path class="line" d="M{x} {}v12"/>"#, y - 6)?;
            let is_taken = index == grid.taken % count;
            if is_taken {
                writeln!(self.body, r#"<circle class="pick" cx="{x}" cy="{y}" r="7"/>"#)?;
            }
            if index == 0 || x >= named + 44 {
                let sign = if grid.taken >= count { "-" } else { "" };
                let (whole, rest) = (sixteenths / 16, sixteenths % 16 * 625);
                let digits = format!("{whole}.{rest:04}");
                let digits = digits.trim_end_matches('0').trim_end_matches('.');
                self.text(x, y + 24, "small middle", &format!("{sign}{digits}"))?;
                named = x;
            }
        }
        let x = left + place_of(value.meaning, width, largest);
        writeln!(self.body, r#"<path class="exact" d="M{x} {}l-6 -11h12z"/>"#, y - 6)?;
        self.text(x, y - 22, "small middle", "A")?;
        self.bottom = y + 30;
        Ok(())
    }
}

/// How far a number is from zero, if the largest one, in sixteenths, is so far from it; a little past it for one
/// beyond.
fn place_of(meaning: Meaning, width: u32, largest: u32) -> u32 {
    let past = width + 20;
    match meaning {
        Meaning::Zero => 0,
        Meaning::Number(significand, exponent) => {
            // Of the first 32 digits.
            let cut = (128 - significand.leading_zeros()).saturating_sub(32);
            let units = (significand >> cut) * u128::from(16 * width) / u128::from(largest);
            let exponent = exponent.saturating_add(cut as i32);
            match u32::try_from(exponent) {
                Ok(places) if places < 64 => (units << places).min(past.into()) as u32,
                Ok(_) => past,
                Err(_) => units.checked_shr(exponent.unsigned_abs()).unwrap_or(0).min(past.into()) as u32,
            }
        }
        _ => past,
    }
}

/// Tenths as a number with a dot.
fn tenths(number: u32) -> String {
    format!("{}.{}", number / 10, number % 10)
}

/// The bits of a value in hexadecimal digits, and its decimal.
fn head(widths: Widths, shown: &Shown) -> io::Result<String> {
    written(|out| {
        write_digits(shown.bits, widths.bits.div_ceil(4), 4, out)?;
        write!(out, " = ")?;
        write_decimal(shown, out)
    })
}

/// What is written, as a text.
fn written(write: impl FnOnce(&mut Vec<u8>) -> io::Result<()>) -> io::Result<String> {
    let mut bytes = Vec::new();
    write(&mut bytes)?;
    Ok(String::from_utf8_lossy(&bytes).into_owned())
}
