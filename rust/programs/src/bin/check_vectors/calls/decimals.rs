//! The calls of decimals, in the built-in formats.
//!
//! The value of a row is that of `read_decimal`, or the text of a decimal as `Display` writes it.

use crate::calls::in_a_format::{rounded_in, value_in};
use crate::erased::apfloat_decimals::{Decimal, exact, read_decimal, rounded, shortest};
use crate::erased::formats_at_run_time::{FlaggedFormat, InFormat};
use crate::erased::rustc_apfloat::Round;
use crate::erased::rustc_apfloat::ieee::{IeeeFloat, Semantics};
use crate::lines::{
    Answered, CallFault, DecimalCall, ExtraField, Operand, Request, RowAnswer, RowFormat, Text, ValueField,
};
use std::fmt::Write as _;

/// What a call of decimals returns in a format, if that is a built-in one with the flags of the built-in formats.
pub fn in_decimals(format: RowFormat, call: DecimalCall, request: Request, text: &str) -> Answered {
    match format {
        RowFormat::BuiltIn(format, FlaggedFormat::BuiltIn(_)) => format.run(InDecimals { call, request, text }),
        _ => Err(CallFault::Support),
    }
}

/// A call of decimals in a format.
struct InDecimals<'a> {
    call: DecimalCall,
    request: Request,
    text: &'a str,
}

impl InFormat for InDecimals<'_> {
    type Output = Answered;

    fn in_format<S: Semantics>(self) -> Answered {
        match self.call {
            DecimalCall::Read => Ok(read::<S>(self.text, self.request.round)),
            _ => written::<S>(self.call, self.request),
        }
    }
}

/// The value of a decimal text.
#[inline(never)]
fn read<S: Semantics>(text: &str, round: Round) -> RowAnswer {
    match read_decimal::<S>(text, round) {
        Ok(answer) => rounded_in(answer, None),
        Err(error) => RowAnswer::refused(Text::of(error.0)),
    }
}

/// A value as a decimal.
#[inline(never)]
fn written<S: Semantics>(call: DecimalCall, request: Request) -> Answered {
    let Some(x) = value_in::<S>(request.operands.first) else {
        return Err(CallFault::Operand);
    };
    match call {
        DecimalCall::Shortest => Ok(columns(shortest(x))),
        DecimalCall::Rounded => rounded_columns(x, request.operands.second, request.round),
        _ => Ok(columns(exact(x))),
    }
}

/// The columns for a value rounded to `count` digits.
fn rounded_columns<S: Semantics>(x: IeeeFloat<S>, count: Operand, round: Round) -> Answered {
    let Operand::Integer(count) = count else {
        return Err(CallFault::Operands);
    };
    let Ok(count) = u32::try_from(count) else {
        return Err(CallFault::Operands);
    };
    if !(1..=36).contains(&count) {
        return Err(CallFault::Operands);
    }
    match rounded(x, count, round) {
        Some((decimal, is_exact)) => Ok(columns(Some(decimal)).with(ExtraField::IsExact(is_exact))),
        None => Ok(columns(None)),
    }
}

/// The columns for a decimal, if there is one.
pub(crate) fn columns(decimal: Option<Decimal>) -> RowAnswer {
    let mut text = Text::of("");
    match decimal {
        Some(decimal) => {
            let _ = write!(text, "{decimal}");
        }
        None => text = Text::of("None"),
    }
    RowAnswer::told(ValueField::Text(text))
}
