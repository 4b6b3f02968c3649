//! Conversions to a storage format.

use crate::calls::array::in_array;
use crate::calls::projections;
use crate::calls::storage::converted;
use crate::erased::apfloat_arrays::stored::{Ends, StoredFormat};
use crate::erased::formats_at_run_time::{BuiltInFormat, InFormat};
use crate::erased::rustc_apfloat::ieee::{IeeeFloat, Semantics};
use crate::erased::rustc_apfloat::{Float, Round, StatusAnd};
use crate::erased::small_formats::{
    ConversionRound, E2M1FN, E2M3FN, E3M2FN, E8M0FNU, Float8E3M4, NanResult, RandomDigits, RandomError, StorageFormat,
    StoredFloat, UE4M3,
};
use crate::lines::{
    Answered, Call, CallFault, ConversionCall, OddCall, Operand, Operands, OperationCall, Request, StorageName,
};

/// What a conversion from a built-in format to a storage format returns.
pub(crate) fn to_storage(source: BuiltInFormat, target: StorageName, bits: u128, request: Request) -> Answered {
    let Some(stored) = StoredFormat::named(target.word) else {
        return mode_of(request).and_then(|mode| projections::stored(source, target, bits, mode));
    };
    if let Call::Operation(OperationCall::Saturate(call)) = request.call {
        let ends = Ends::Into(source, stored);
        return Ok(in_array(ends, call, request.round, bits, target.width));
    }
    let nans = match request.call {
        Call::Operation(OperationCall::ConvertStochasticAll) => NanResult::Largest,
        _ => NanResult::Zero,
    };
    mode_of(request).and_then(|mode| source.run(ToStorage { bits, target: stored, width: target.width, mode, nans }))
}

/// How a conversion rounds.
fn mode_of(request: Request) -> Result<ConversionRound, CallFault> {
    match request.call {
        Call::Conversion(ConversionCall::Convert) => Ok(ConversionRound::Ieee(Round::NearestTiesToEven)),
        Call::Conversion(ConversionCall::ConvertR) => Ok(ConversionRound::Ieee(request.round)),
        Call::Operation(OperationCall::Odd(OddCall::Convert)) => Ok(ConversionRound::ToOdd),
        Call::Operation(OperationCall::ConvertStochastic | OperationCall::ConvertStochasticAll) => {
            random_mode(request.operands)
        }
        _ => Err(CallFault::Support),
    }
}

/// What the number of random digits has to be, for messages.
const COUNT: &str = "a count of 1 to 32 digits";

/// What random digits have to be, for messages.
const RANDOM: &str = "a random number below 2 to the power of the count of digits";

/// Rounding with the random digits of the operands.
fn random_mode(operands: Operands) -> Result<ConversionRound, CallFault> {
    let (Operand::Integer(count), Operand::Unsigned(random)) = (operands.second, operands.third) else {
        return Err(CallFault::Operands);
    };
    let Ok(count) = u32::try_from(count) else {
        return Err(CallFault::Random(COUNT));
    };
    let Ok(random) = u32::try_from(random) else {
        return Err(CallFault::Random(RANDOM));
    };
    match RandomDigits::new(count, random) {
        Ok(digits) => Ok(ConversionRound::Stochastic(digits)),
        Err(RandomError::DigitCount) => Err(CallFault::Random(COUNT)),
        Err(RandomError::TooWide) => Err(CallFault::Random(RANDOM)),
    }
}

/// A conversion to a storage format.
struct ToStorage {
    bits: u128,
    target: StoredFormat,
    width: usize,
    mode: ConversionRound,
    nans: NanResult,
}

impl InFormat for ToStorage {
    type Output = Answered;

    fn in_format<S: Semantics>(self) -> Answered {
        let mut loses_info = false;
        let x = IeeeFloat::<S>::from_bits(self.bits);
        match code_of(x, self.target, self.mode, self.nans, &mut loses_info) {
            Some(code) => Ok(converted(code.value, self.width, code.status, loses_info)),
            None => Err(CallFault::Support),
        }
    }
}

/// The code of a value, if the format has a conversion in that mode.
fn code_of<S: Semantics>(
    x: IeeeFloat<S>,
    target: StoredFormat,
    mode: ConversionRound,
    nans: NanResult,
    loses_info: &mut bool,
) -> Option<StatusAnd<u128>> {
    match (target, mode) {
        (StoredFormat::E2M1FN, _) => Some(element_of::<S, E2M1FN>(x, mode, nans, loses_info)),
        (StoredFormat::E2M3FN, _) => Some(element_of::<S, E2M3FN>(x, mode, nans, loses_info)),
        (StoredFormat::E3M2FN, _) => Some(element_of::<S, E3M2FN>(x, mode, nans, loses_info)),
        (StoredFormat::E3M4, ConversionRound::Ieee(round)) => {
            let answer = Float8E3M4::from_value(x, round, loses_info);
            Some(answer.status.and(u128::from(answer.value.to_bits())))
        }
        (StoredFormat::E8M0FNU, ConversionRound::Ieee(round)) => {
            let answer = E8M0FNU::from_value(x, round, loses_info);
            Some(answer.status.and(u128::from(answer.value.to_bits())))
        }
        (StoredFormat::UE4M3, ConversionRound::Ieee(round)) => {
            let answer = UE4M3::from_value(x, round, loses_info);
            Some(answer.status.and(u128::from(answer.value.to_bits())))
        }
        _ => None,
    }
}

/// The code of a value in a format all of whose codes are numbers.
fn element_of<S: Semantics, F: StorageFormat>(
    x: IeeeFloat<S>,
    mode: ConversionRound,
    nans: NanResult,
    loses_info: &mut bool,
) -> StatusAnd<u128> {
    let answer = StoredFloat::<F>::from_value_by(x, mode, nans, loses_info);
    answer.status.and(u128::from(answer.value.to_bits()))
}
