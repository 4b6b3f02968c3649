//! Which calls these are, and their answers.

use crate::calls::from_storage::from_storage;
use crate::calls::stored;
use crate::calls::to_storage::to_storage;
use crate::erased::rustc_apfloat::Status;
use crate::lines::{
    Answered, CallFault, ExtraField, Formats, Operand, Request, RowAnswer, StatusField, ValueField, mask,
};

/// What a conversion to a storage format, from one or between two returns.
pub fn answer(formats: Formats, request: Request) -> Answered {
    let (Operand::Bits(bits), Some(width)) = (request.operands.first, formats.width()) else {
        return Err(CallFault::Operand);
    };
    if bits > mask(width) {
        return Err(CallFault::Operand);
    }
    match formats {
        Formats::ToStorage(source, target) => to_storage(source, target, bits, request),
        Formats::FromStorage(source, target) => from_storage(source, target, bits, request),
        Formats::BetweenStorage(source, target) => stored::between(source, target, bits, request),
        _ => Err(CallFault::Support),
    }
}

/// The columns for a converted value.
pub(crate) fn converted(bits: u128, width: usize, status: Status, loses_info: bool) -> RowAnswer {
    RowAnswer {
        value: ValueField::Bits(bits, width),
        status: StatusField::Flags(status),
        extra: ExtraField::LosesInfo(loses_info),
    }
}
