//! Conversions from a storage format.

use crate::calls::array::in_array;
use crate::calls::projections;
use crate::calls::storage::converted;
use crate::erased::apfloat_arrays::stored::{Ends, StoredFormat};
use crate::erased::formats_at_run_time::{FlaggedFormat, InFlaggedFormat};
use crate::erased::rustc_apfloat::ieee::{Flagged, IeeeFloat};
use crate::erased::rustc_apfloat::{Float, Round, StatusAnd};
use crate::erased::small_formats::{E2M1FN, E2M3FN, E3M2FN, E8M0FNU, Float8E3M4, StoredFloat, UE4M3};
use crate::lines::{Answered, Call, CallFault, ConversionCall, OperationCall, Request, RowFormat, StorageName};

/// What a conversion from a storage format to a built-in format returns.
pub(crate) fn from_storage(source: StorageName, target: FlaggedFormat, bits: u128, request: Request) -> Answered {
    let Some(stored) = StoredFormat::named(source.word) else {
        return projections::loaded(source, target, bits, request);
    };
    let round = match request.call {
        Call::Conversion(ConversionCall::Convert) => Round::NearestTiesToEven,
        Call::Conversion(ConversionCall::ConvertR) => request.round,
        Call::Operation(OperationCall::Saturate(call)) => {
            return match RowFormat::BuiltIn(target.built_in(), target).width() {
                Some(width) => {
                    let ends = Ends::OutOf(stored, target);
                    Ok(in_array(ends, call, request.round, bits, width))
                }
                None => Err(CallFault::Support),
            };
        }
        _ => return Err(CallFault::Support),
    };
    target.run(FromStorage { source: stored, code: (bits % 256) as u8, round })
}

/// A conversion from a storage format.
struct FromStorage {
    source: StoredFormat,
    code: u8,
    round: Round,
}

impl InFlaggedFormat for FromStorage {
    type Output = Answered;

    fn in_flagged_format<T: Flagged>(self) -> Answered {
        let mut loses_info = false;
        let answer = value_of::<T>(self.source, self.code, self.round, &mut loses_info);
        let bits = answer.value.to_bits();
        Ok(converted(bits, T::BITS, answer.status, loses_info))
    }
}

/// The value of a code in the format `T`.
fn value_of<T: Flagged>(
    source: StoredFormat,
    code: u8,
    round: Round,
    loses_info: &mut bool,
) -> StatusAnd<IeeeFloat<T>> {
    match source {
        StoredFormat::E2M1FN => StoredFloat::<E2M1FN>::from_bits(code).convert_r(round, loses_info),
        StoredFormat::E2M3FN => StoredFloat::<E2M3FN>::from_bits(code).convert_r(round, loses_info),
        StoredFormat::E3M2FN => StoredFloat::<E3M2FN>::from_bits(code).convert_r(round, loses_info),
        StoredFormat::E3M4 => Float8E3M4::from_bits(code).convert_r(round, loses_info),
        StoredFormat::E8M0FNU => E8M0FNU::from_bits(code).convert_r(round, loses_info),
        StoredFormat::UE4M3 => UE4M3::from_bits(code).convert_r(round, loses_info),
    }
}
