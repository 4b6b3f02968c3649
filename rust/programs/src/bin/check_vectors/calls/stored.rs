//! Operations of the storage formats all of whose codes are numbers.

use crate::calls::projections;
use crate::calls::storage::converted;
use crate::erased::apfloat_arrays::stored::StoredFormat;
use crate::erased::rustc_apfloat::{Round, StatusAnd};
use crate::erased::small_formats::{E2M1FN, E2M3FN, E3M2FN, StorageFormat, StoredFloat};
use crate::lines::{
    Answered, Call, CallFault, ConversionCall, FormatCall, OneValueCall, Operand, OperationCall, OrderCall, Request,
    RowAnswer, StorageName, TwoValuesCall, ValueField, mask,
};

/// What a call on values of a storage format returns.
pub(crate) fn on_values(format: StorageName, request: Request) -> Answered {
    match StoredFormat::named(format.word) {
        Some(StoredFormat::E2M1FN) => operated::<E2M1FN>(format.width, request),
        Some(StoredFormat::E2M3FN) => operated::<E2M3FN>(format.width, request),
        Some(StoredFormat::E3M2FN) => operated::<E3M2FN>(format.width, request),
        Some(_) => Err(CallFault::Support),
        None => projections::on_values(format, request),
    }
}

/// What an operation on values of the format `F` returns.
fn operated<F: StorageFormat>(width: usize, request: Request) -> Answered {
    let Request { operands, round, .. } = request;
    let value = |operand| value::<F>(width, operand);
    let x = value(operands.first)?;
    let field = |value: StoredFloat<F>| ValueField::Bits(u128::from(value.to_bits()), width);
    let answer: StatusAnd<StoredFloat<F>> = match request.call {
        Call::OfTwoValues(TwoValuesCall::AddR) => x.add_r(value(operands.second)?, round),
        Call::OfTwoValues(TwoValuesCall::SubR) => x.sub_r(value(operands.second)?, round),
        Call::OfTwoValues(TwoValuesCall::MulR) => x.mul_r(value(operands.second)?, round),
        Call::OfTwoValues(TwoValuesCall::DivR) => x.div_r(value(operands.second)?, round),
        Call::OfOneValue(OneValueCall::SqrtR) => x.sqrt_r(round),
        Call::OfFormat(FormatCall::MulAddR) => x.mul_add_r(value(operands.second)?, value(operands.third)?, round),
        Call::OfTwoValues(TwoValuesCall::Minimum) => {
            return Ok(RowAnswer::told(field(x.minimum(value(operands.second)?))));
        }
        Call::OfTwoValues(TwoValuesCall::Maximum) => {
            return Ok(RowAnswer::told(field(x.maximum(value(operands.second)?))));
        }
        Call::OfTwoValues(TwoValuesCall::PartialCmp) => {
            return Ok(RowAnswer::told(ValueField::Order(Some(x.compare(value(operands.second)?)))));
        }
        Call::Operation(OperationCall::Order(OrderCall::TotalCmp)) => {
            return Ok(RowAnswer::told(ValueField::Order(Some(x.total_cmp(value(operands.second)?)))));
        }
        _ => return Err(CallFault::Support),
    };
    Ok(RowAnswer::flagged(answer.status.and(field(answer.value))))
}

/// What a conversion between two of these formats returns.
pub(crate) fn between(source: StorageName, target: StorageName, bits: u128, request: Request) -> Answered {
    let round = match request.call {
        Call::Conversion(ConversionCall::Convert) => Round::NearestTiesToEven,
        Call::Conversion(ConversionCall::ConvertR) => request.round,
        _ => return Err(CallFault::Support),
    };
    let code = (bits % 256) as u8;
    match StoredFormat::named(source.word) {
        Some(StoredFormat::E2M1FN) => from::<E2M1FN>(code, target, round),
        Some(StoredFormat::E2M3FN) => from::<E2M3FN>(code, target, round),
        Some(StoredFormat::E3M2FN) => from::<E3M2FN>(code, target, round),
        _ => Err(CallFault::Support),
    }
}

/// What a conversion of a code of the format `G` returns.
fn from<G: StorageFormat>(code: u8, target: StorageName, round: Round) -> Answered {
    let x = StoredFloat::<G>::from_bits(code);
    match StoredFormat::named(target.word) {
        Some(StoredFormat::E2M1FN) => Ok(into::<G, E2M1FN>(x, target.width, round)),
        Some(StoredFormat::E2M3FN) => Ok(into::<G, E2M3FN>(x, target.width, round)),
        Some(StoredFormat::E3M2FN) => Ok(into::<G, E3M2FN>(x, target.width, round)),
        _ => Err(CallFault::Support),
    }
}

/// A value in the format `F`, whose codes have this width.
fn into<G: StorageFormat, F: StorageFormat>(x: StoredFloat<G>, width: usize, round: Round) -> RowAnswer {
    let mut loses_info = false;
    let answer = StoredFloat::<F>::from_stored(x, round, &mut loses_info);
    converted(u128::from(answer.value.to_bits()), width, answer.status, loses_info)
}

/// An operand as a value.
fn value<F: StorageFormat>(width: usize, operand: Operand) -> Result<StoredFloat<F>, CallFault> {
    match operand {
        Operand::Bits(bits) if bits <= mask(width) => Ok(StoredFloat::from_bits((bits % 256) as u8)),
        _ => Err(CallFault::Operand),
    }
}
