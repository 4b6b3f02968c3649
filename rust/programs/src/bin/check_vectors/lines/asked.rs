//! Checks rows of calls: the call is made, and what it returns is compared with the row.

use crate::erased::formats_at_run_time::mode_named;
use crate::erased::rustc_apfloat::Round;
use crate::lines::call::Call;
use crate::lines::call_fault::CallFault;
use crate::lines::call_row::CallRow;
use crate::lines::every::{self, EVERY};
use crate::lines::fault::takes_mode;
use crate::lines::formats::Formats;
use crate::lines::operands::Operands;
use crate::lines::quanta::Quanta;
use crate::lines::reading::operands_of;
use crate::lines::request::{Answered, Request};
use std::io;
use std::io::Write;

/// The modes, with the text that follows `given` in messages.
static MODES: &[(&str, Round)] = &[
    (" in even", Round::NearestTiesToEven),
    (" in up", Round::TowardPositive),
    (" in down", Round::TowardNegative),
    (" in zero", Round::TowardZero),
    (" in away", Round::NearestTiesToAway),
];

/// Whether a row agrees in each mode that it names.
pub fn agrees(row: CallRow<'_>) -> Result<bool, CallFault> {
    if let Some(name) = row.call.strip_prefix(EVERY) {
        return agree(every::answer(row, name), row.value, row.status, row.extra);
    }
    Asked::of(row.call, row.format, row.mode, row.operands, row.value)
        .and_then(|asked| asked.agrees(row.value, row.status, row.extra))
}

/// Writes what a row expects, and what the call returns in each mode of the row in which they differ.
pub fn write_answers(row: CallRow<'_>, out: &mut impl Write) -> io::Result<()> {
    let (value, status, extra) = (row.value, row.status, row.extra);
    writeln!(out, "  expected: {value}\t{status}\t{extra}")?;
    if let Some(name) = row.call.strip_prefix(EVERY) {
        return write_other(every::answer(row, name), value, status, extra, "", out);
    }
    match Asked::of(row.call, row.format, row.mode, row.operands, value) {
        Ok(asked) => asked.write_given(value, status, extra, out),
        Err(_) => Ok(()),
    }
}

/// The call that a row asks for.
#[derive(Clone, Copy)]
pub struct Asked<'a> {
    formats: Formats,
    call: Call,
    operands: Operands,
    // The operands as written, since the operand may be a text.
    text: &'a str,
    // The value that the row states, in a format without bits.
    stated: Option<Quanta>,
    // The mode, or `None` for all modes.
    round: Option<Round>,
}

impl<'a> Asked<'a> {
    /// The call that these columns of a row ask for, or the fault of a column.
    pub fn of(name: &str, format: &str, mode: &str, operands: &'a str, value: &str) -> Result<Asked<'a>, CallFault> {
        let Some(call) = Call::named(name) else {
            return Err(CallFault::Call);
        };
        let Some(round) = mode_of(mode, takes_mode(name)) else {
            return Err(CallFault::Mode);
        };
        let Some(formats) = Formats::of(call, format) else {
            return Err(CallFault::Format);
        };
        match operands_of(call.form(), operands) {
            Some(read) => {
                Ok(Asked { formats, call, operands: read, text: operands, stated: Quanta::named(value), round })
            }
            None => Err(CallFault::Operands),
        }
    }

    /// The width of an operand in bits, if it has bits.
    pub fn width(self) -> Option<usize> {
        self.formats.width()
    }

    /// The operands that are not texts.
    pub fn operands(self) -> Operands {
        self.operands
    }

    /// The same call with these operands.
    pub fn with(self, operands: Operands) -> Asked<'a> {
        Asked { operands, ..self }
    }

    /// What the call returns; to nearest, ties to even, if all modes are asked for.
    pub fn answer(self) -> Answered {
        self.answer_in(self.round.unwrap_or(Round::NearestTiesToEven))
    }

    /// What the call returns in a mode.
    fn answer_in(self, round: Round) -> Answered {
        let request = Request { call: self.call, round, operands: self.operands, stated: self.stated };
        crate::calls::answer(self.formats, request, self.text)
    }

    /// Whether the call returns what these columns state, in each mode.
    fn agrees(self, value: &str, status: &str, extra: &str) -> Result<bool, CallFault> {
        if let Some(round) = self.round {
            return agree(self.answer_in(round), value, status, extra);
        }
        let mut all_agree = true;
        for (_, round) in MODES {
            match agree(self.answer_in(*round), value, status, extra) {
                Ok(agrees) => all_agree &= agrees,
                Err(fault) => return Err(fault),
            }
        }
        Ok(all_agree)
    }

    /// Writes what the call returns, in each mode in which that is not what these columns state.
    fn write_given(self, value: &str, status: &str, extra: &str, out: &mut impl Write) -> io::Result<()> {
        if let Some(round) = self.round {
            return write_other(self.answer_in(round), value, status, extra, "", out);
        }
        for (label, round) in MODES {
            let answer = self.answer_in(*round);
            write_other(answer, value, status, extra, label, out)?;
        }
        Ok(())
    }
}

/// Whether an answer is what these columns state.
fn agree(answer: Answered, value: &str, status: &str, extra: &str) -> Result<bool, CallFault> {
    answer.and_then(|answer| answer.is_of(value, status, extra))
}

/// Writes an answer, after a label, unless it is what these columns state.
fn write_other(
    answer: Answered,
    value: &str,
    status: &str,
    extra: &str,
    label: &str,
    out: &mut impl Write,
) -> io::Result<()> {
    let Ok(answer) = answer else {
        return Ok(());
    };
    if let Ok(true) = answer.is_of(value, status, extra) {
        return Ok(());
    }
    write!(out, "  given{label}: ")?;
    answer.write(value, extra, out)?;
    out.write_all(b"\n")
}

/// The mode of a row, with `Some(None)` for all modes; `None` if the call does not take it. A call without a mode gets
/// an arbitrary one.
fn mode_of(word: &str, takes_mode: bool) -> Option<Option<Round>> {
    match word {
        "any" if takes_mode => Some(None),
        "-" if !takes_mode => Some(Some(Round::NearestTiesToEven)),
        _ if takes_mode => mode_named(word).map(Some),
        _ => None,
    }
}
