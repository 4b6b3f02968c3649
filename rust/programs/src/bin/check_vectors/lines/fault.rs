//! The errors of malformed rows of calls.

use crate::erased::commands::bits_of;
use crate::lines::call::Call;
use crate::lines::call_fault::CallFault;
use crate::lines::call_row::CallRow;
use crate::lines::every::EVERY;
use crate::lines::form::Form;
use crate::lines::formats::Formats;
use crate::lines::machine_format::{MACHINE_WORDS, not_given, unknown_machine};
use crate::lines::operands::Operand;
use crate::lines::operations::OperationCall;
use crate::lines::row_error::{RowError, bits_error};

/// The form of a value, for messages.
const VALUE: &str = "hexadecimal digits, or quanta as `+3q` in a format without bits";

impl<'a> CallRow<'a> {
    /// The error for a fault of the row: the wrong word, and what is expected.
    pub fn error(self, fault: CallFault) -> RowError<'a> {
        match fault {
            CallFault::Call => RowError::Word("no call", self.call, "one that docs/PROGRAMS.md lists"),
            CallFault::Mode => RowError::Word("no mode of the call", self.mode, modes(self.call)),
            CallFault::Format => format_error(self.format),
            CallFault::Support if self.format.contains('@') => RowError::Word(
                "no such call on the machine",
                self.call,
                "a call that the machine has (docs/PROGRAMS.md)",
            ),
            CallFault::Support => {
                RowError::Word("no such call here", self.call, "a call that the format has (docs/PROGRAMS.md)")
            }
            CallFault::Flags(form) => RowError::Word("no flags of the call", self.status, form),
            CallFault::Extra(form) => RowError::Word("nothing that the call returns", self.extra, form),
            CallFault::Value(form) => RowError::Word("no value of the call", self.value, form),
            CallFault::ValueBits(width) => bits_error("no value of the call", self.value, width),
            CallFault::Operands if self.call.starts_with(EVERY) => RowError::Word(
                "no operands of the call",
                self.operands,
                "a step for each value, and the other operands",
            ),
            CallFault::Operands => operand_error(self.operands, form_of(self.call)),
            CallFault::Random(form) => RowError::Word("no random digits", self.operands, form),
            CallFault::Operand => value_error(self.operands, form_of(self.call), widths_of(self.call, self.format)),
        }
    }
}

/// The error for a word that names no formats.
fn format_error(formats: &str) -> RowError<'_> {
    match (unknown_machine(formats), not_given(formats)) {
        (Some(word), _) => RowError::Word("no machine", word, MACHINE_WORDS),
        (None, Some((fault, instead))) => RowError::Word(fault, formats, instead),
        (None, None) => RowError::Word("no format", formats, "one that docs/PROGRAMS.md lists, or SOURCE>TARGET"),
    }
}

/// The form of values of a format without bits, for messages.
const QUANTA: &str = "values of the format, in quanta as `+3q`";

/// The width of an operand in these formats, if it has bits.
pub fn width_of(formats: &str) -> Option<usize> {
    Formats::named(formats).and_then(|formats| formats.width())
}

/// The widths of the first operand of a call in these formats and of the others, if they have bits.
fn widths_of(call: &str, formats: &str) -> (Option<usize>, Option<usize>) {
    match (OperationCall::named(call), Formats::named(formats)) {
        (Some(OperationCall::Comparison(_, _)), Some(Formats::Between(left, right))) => (left.width(), right.width()),
        (_, Some(formats)) => (formats.width(), formats.width()),
        (_, None) => (None, None),
    }
}

/// The form of the operands of a call.
fn form_of(call: &str) -> Form {
    match Call::named(call) {
        Some(call) => call.form(),
        None => Form::Text,
    }
}

/// The modes that a call takes, for messages.
fn modes(call: &str) -> &'static str {
    if takes_mode(call) { "even, up, down, zero, away or any" } else { "`-`, since the call has none" }
}

/// Whether the call of this name takes a rounding mode.
pub fn takes_mode(call: &str) -> bool {
    let call = call.strip_prefix(EVERY).unwrap_or(call);
    match OperationCall::named(call) {
        Some(operation) => operation.takes_mode(),
        None => call.ends_with("_r") || matches!(call, "round_to_integral" | "read_decimal" | "rounded"),
    }
}

/// The error for operands that do not have this form, at the first of them that is not a value.
fn operand_error(operands: &str, form: Form) -> RowError<'_> {
    let mut left = form.value_count();
    for word in operands.split(' ') {
        if left == 0 {
            break;
        }
        left -= 1;
        if Operand::value(word).is_none() {
            return RowError::Word("no operand of the call", word, VALUE);
        }
    }
    RowError::Word("no operands of the call", operands, form.description())
}

/// The error for operands of which one is not a value of a format of these widths (of the first one, and of the
/// others), or without bits, at that operand.
fn value_error(operands: &str, form: Form, widths: (Option<usize>, Option<usize>)) -> RowError<'_> {
    let (Some(first), Some(others)) = widths else {
        return RowError::Word("no operands of the call", operands, QUANTA);
    };
    let mut width = first;
    let mut left = form.value_count();
    for word in operands.split(' ') {
        if left == 0 {
            break;
        }
        left -= 1;
        if bits_of(word, width).is_none() {
            return bits_error("no operand of the call", word, width);
        }
        width = others;
    }
    RowError::Word("no operands of the call", operands, form.description())
}
