//! Conversions from and to storage formats, and their operations. Conversions that saturate or take random digits are
//! the library's alone.

use crate::erased::formats_at_run_time::{InFlaggedFormat, InFormat};
use crate::lines::{
    Answered, Call, CallFault, ConversionCall, ExtraField, FormatCall, Formats, OneValueCall, Operand, OperationCall,
    OrderCall, Request, RowAnswer, StorageName, TwoValuesCall, ValueField, mask,
};
use rustc_apfloat::ieee::{IeeeFloat, Semantics};
use rustc_apfloat::storage_formats::{E2M1FN, E2M3FN, E3M2FN, E8M0FNU, Float8E3M4, StorageFormat, StoredFloat, UE4M3};
use rustc_apfloat::{Float, Round, StatusAnd};

/// What a conversion or an operation returns.
pub(crate) fn answer(formats: Formats, request: Request) -> Answered {
    if let Formats::Storage(format) = formats {
        return match format.word {
            "e2m1fn" => operated::<E2M1FN>(format.width, request),
            "e2m3fn" => operated::<E2M3FN>(format.width, request),
            "e3m2fn" => operated::<E3M2FN>(format.width, request),
            _ => Err(CallFault::Support),
        };
    }
    let round = match request.call {
        Call::Conversion(ConversionCall::Convert) => Round::NearestTiesToEven,
        Call::Conversion(ConversionCall::ConvertR) => request.round,
        _ => return Err(CallFault::Support),
    };
    let (Operand::Bits(bits), Some(width)) = (request.operands.first, formats.width()) else {
        return Err(CallFault::Operand);
    };
    if bits > mask(width) {
        return Err(CallFault::Operand);
    }
    match formats {
        Formats::ToStorage(source, target) => {
            let (code, loses_info) = source.run(ToStorage { bits, target: target.word, round })?;
            let value = code.map(|code| ValueField::Bits(code.into(), target.width));
            Ok(RowAnswer::flagged(value).with(ExtraField::LosesInfo(loses_info)))
        }
        Formats::FromStorage(source, target) => {
            target.run(FromStorage { source: source.word, code: bits as u8, round })
        }
        Formats::BetweenStorage(source, target) => match source.word {
            "e2m1fn" => between::<E2M1FN>(bits as u8, target, round),
            "e2m3fn" => between::<E2M3FN>(bits as u8, target, round),
            "e3m2fn" => between::<E3M2FN>(bits as u8, target, round),
            _ => Err(CallFault::Support),
        },
        _ => Err(CallFault::Support),
    }
}

/// What a conversion of a code of the format `G` returns.
fn between<G: StorageFormat>(code: u8, target: StorageName, round: Round) -> Answered {
    let x = StoredFloat::<G>::from_bits(code);
    match target.word {
        "e2m1fn" => Ok(into::<G, E2M1FN>(x, target.width, round)),
        "e2m3fn" => Ok(into::<G, E2M3FN>(x, target.width, round)),
        "e3m2fn" => Ok(into::<G, E3M2FN>(x, target.width, round)),
        _ => Err(CallFault::Support),
    }
}

/// A value in the format `F`, whose codes have this width.
fn into<G: StorageFormat, F: StorageFormat>(x: StoredFloat<G>, width: usize, round: Round) -> RowAnswer {
    let mut loses_info = false;
    let answer = StoredFloat::<F>::from_stored(x, round, &mut loses_info);
    let value = answer.map(|x| ValueField::Bits(x.to_bits().into(), width));
    RowAnswer::flagged(value).with(ExtraField::LosesInfo(loses_info))
}

/// What an operation on values of the format `F` returns.
fn operated<F: StorageFormat>(width: usize, request: Request) -> Answered {
    let Request { operands, round, .. } = request;
    let value = |operand| match operand {
        Operand::Bits(bits) if bits <= mask(width) => Ok(StoredFloat::<F>::from_bits(bits as u8)),
        _ => Err(CallFault::Operand),
    };
    let x = value(operands.first)?;
    let field = |x: StoredFloat<F>| ValueField::Bits(x.to_bits().into(), width);
    let answer = match request.call {
        Call::OfTwoValues(TwoValuesCall::Minimum) => {
            return Ok(RowAnswer::told(field(x.minimum(value(operands.second)?))));
        }
        Call::OfTwoValues(TwoValuesCall::Maximum) => {
            return Ok(RowAnswer::told(field(x.maximum(value(operands.second)?))));
        }
        Call::OfTwoValues(TwoValuesCall::PartialCmp) => {
            return Ok(RowAnswer::told(ValueField::Order(Some(x.compare(value(operands.second)?)))));
        }
        Call::Operation(OperationCall::Order(OrderCall::TotalCmp)) => {
            return Ok(RowAnswer::told(ValueField::Order(Some(x.total_cmp(value(operands.second)?)))));
        }
        Call::OfTwoValues(TwoValuesCall::AddR) => x.add_r(value(operands.second)?, round),
        Call::OfTwoValues(TwoValuesCall::SubR) => x.sub_r(value(operands.second)?, round),
        Call::OfTwoValues(TwoValuesCall::MulR) => x.mul_r(value(operands.second)?, round),
        Call::OfTwoValues(TwoValuesCall::DivR) => x.div_r(value(operands.second)?, round),
        Call::OfOneValue(OneValueCall::SqrtR) => x.sqrt_r(round),
        Call::OfFormat(FormatCall::MulAddR) => x.mul_add_r(value(operands.second)?, value(operands.third)?, round),
        _ => return Err(CallFault::Support),
    };
    Ok(RowAnswer::flagged(answer.map(field)))
}

/// Makes a conversion with the type of a storage format that the crate has.
macro_rules! with_type {
    ($word:expr, $then:ident) => {
        match $word {
            "e2m1fn" => $then!(StoredFloat<E2M1FN>),
            "e2m3fn" => $then!(StoredFloat<E2M3FN>),
            "e3m2fn" => $then!(StoredFloat<E3M2FN>),
            "e3m4" => $then!(Float8E3M4),
            "e8m0fnu" => $then!(E8M0FNU),
            "ue4m3" => $then!(UE4M3),
            _ => return Err(CallFault::Support),
        }
    };
}

struct ToStorage {
    bits: u128,
    target: &'static str,
    round: Round,
}

impl InFormat for ToStorage {
    type Output = Result<(StatusAnd<u8>, bool), CallFault>;

    fn in_format<S: Semantics>(self) -> Self::Output {
        let x = IeeeFloat::<S>::from_bits(self.bits);
        let mut loses_info = false;
        macro_rules! stored {
            ($type:ty) => {
                <$type>::from_value(x, self.round, &mut loses_info).map(<$type>::to_bits)
            };
        }
        let code = with_type!(self.target, stored);
        Ok((code, loses_info))
    }
}

struct FromStorage {
    source: &'static str,
    code: u8,
    round: Round,
}

impl InFlaggedFormat for FromStorage {
    type Output = Answered;

    fn in_flagged_format<T: Semantics>(self) -> Answered {
        let mut loses_info = false;
        macro_rules! loaded {
            ($type:ty) => {
                <$type>::from_bits(self.code).convert_r::<T>(self.round, &mut loses_info)
            };
        }
        let value = with_type!(self.source, loaded).map(|x| ValueField::Bits(x.to_bits(), T::BITS));
        Ok(RowAnswer::flagged(value).with(ExtraField::LosesInfo(loses_info)))
    }
}
