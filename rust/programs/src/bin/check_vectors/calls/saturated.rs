//! Conversions between built-in formats that saturate.

use crate::calls::array::overflow_of;
use crate::calls::storage::converted;
use crate::erased::formats_at_run_time::InFlaggedFormat;
use crate::erased::rustc_apfloat::ieee::{Flagged, IeeeFloat, QuadS};
use crate::erased::rustc_apfloat::{Float, Round, StatusAnd};
use crate::erased::small_formats::saturation::{Overflow, ValueClass, treat};
use crate::library::{AnyFloat, any_value};
use crate::lines::{Answered, CallFault, Request, RowFormat, SaturateCall};

/// What a conversion between built-in formats that saturates returns.
pub fn answer(source: RowFormat, target: RowFormat, call: SaturateCall, request: Request) -> Answered {
    let (RowFormat::BuiltIn(_, _), RowFormat::BuiltIn(_, format)) = (source, target) else {
        return Err(CallFault::Support);
    };
    match any_value(source, request.operands.first) {
        Some(x) => format.run(Saturating { x, overflow: overflow_of(call), round: request.round }),
        None => Err(CallFault::Operand),
    }
}

/// The class of a value and whether it has the sign minus, seen in a format that has the values of all built-in ones.
fn class_and_sign(x: AnyFloat) -> (ValueClass, bool) {
    let mut loses_info = false;
    let answer: StatusAnd<IeeeFloat<QuadS>> = x.convert_to(Round::TowardZero, &mut loses_info);
    let wide = answer.value;
    (ValueClass::of(wide.category()), wide.is_negative())
}

/// A conversion that saturates.
struct Saturating {
    x: AnyFloat,
    overflow: Overflow,
    round: Round,
}

impl InFlaggedFormat for Saturating {
    type Output = Answered;

    fn in_flagged_format<T: Flagged>(self) -> Answered {
        let (class, negative) = class_and_sign(self.x);
        let mut loses_info = false;
        let own: StatusAnd<IeeeFloat<T>> = self.x.convert_to(self.round, &mut loses_info);
        let answer = treat(self.overflow, class, negative, own, &mut loses_info);
        Ok(converted(answer.value.to_bits(), T::BITS, answer.status, loses_info))
    }
}
