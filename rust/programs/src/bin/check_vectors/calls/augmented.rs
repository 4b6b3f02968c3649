//! Augmented operations (9.5) and payloads of NaNs (9.7).

use crate::calls::in_a_format::{OfValue, of_value, two_values_in};
use crate::erased::formats_at_run_time::{BuiltInFormat, FlaggedFormat};
use crate::erased::ieee_operations::augmented::{
    augmented_add, augmented_multiply, augmented_subtract, get_payload, set_payload, set_payload_signaling,
};
use crate::erased::rustc_apfloat::Float;
use crate::erased::rustc_apfloat::ieee::{
    DoubleS, Flagged, Float8E4M3FNS, Float8E4M3FNUZS, Float8E5M2S, HalfS, IeeeFlags, IeeeFloat, Semantics, SingleS,
};
use crate::lines::{
    Answered, AugmentedCall, CallFault, ExtraField, Operand, Operands, PayloadCall, RowAnswer, RowFormat, StatusField,
    ValueField,
};

/// What an augmented operation returns in a format. It is made of several others, which are inlined, so rows can name
/// few formats, with the flags of IEEE 754 where they have a choice.
pub(crate) fn augmented_in(format: RowFormat, call: AugmentedCall, operands: Operands) -> Answered {
    match format {
        RowFormat::BuiltIn(format, FlaggedFormat::AfterRounding(_)) => match format {
            BuiltInFormat::Half => augmented::<IeeeFlags<HalfS>>(call, operands),
            BuiltInFormat::Single => augmented::<IeeeFlags<SingleS>>(call, operands),
            BuiltInFormat::Double => augmented::<IeeeFlags<DoubleS>>(call, operands),
            BuiltInFormat::E5M2 => augmented::<IeeeFlags<Float8E5M2S>>(call, operands),
            _ => Err(CallFault::Support),
        },
        RowFormat::BuiltIn(BuiltInFormat::E4M3FN, _) => augmented::<Float8E4M3FNS>(call, operands),
        RowFormat::BuiltIn(BuiltInFormat::E4M3FNUZ, _) => augmented::<Float8E4M3FNUZS>(call, operands),
        _ => Err(CallFault::Support),
    }
}

/// What an augmented operation returns in the format `S`: head and tail.
#[inline(never)]
fn augmented<S: Flagged>(call: AugmentedCall, operands: Operands) -> Answered {
    if S::PRECISION >= S::BITS {
        return Err(CallFault::Support);
    }
    let Some((x, y)) = two_values_in::<S>(operands) else {
        return Err(CallFault::Operand);
    };
    let answer = match call {
        AugmentedCall::Add => augmented_add(x, y),
        AugmentedCall::Subtract => augmented_subtract(x, y),
        AugmentedCall::Multiply => augmented_multiply(x, y),
    };
    Ok(RowAnswer {
        value: ValueField::TwoBits(answer.value.head.to_bits(), answer.value.tail.to_bits(), S::BITS),
        status: StatusField::Flags(answer.status),
        extra: ExtraField::Nothing,
    })
}

/// What an operation on the payload of a NaN returns in a built-in format.
pub(crate) fn payload_in(format: RowFormat, call: PayloadCall, operand: Operand) -> Answered {
    of_value(format, operand, call)
}

impl OfValue for PayloadCall {
    fn of<S: Semantics>(self, x: IeeeFloat<S>) -> Answered {
        let value = match self {
            PayloadCall::Get => get_payload(x),
            PayloadCall::Set => set_payload(x),
            PayloadCall::SetSignaling => set_payload_signaling(x),
        };
        Ok(RowAnswer::told(ValueField::Bits(value.to_bits(), S::BITS)))
    }
}
