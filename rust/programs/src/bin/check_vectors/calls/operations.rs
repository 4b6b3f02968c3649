//! The operations of IEEE 754-2019 that `Float` lacks, each in the formats of its row.

use crate::calls::augmented::{augmented_in, payload_in};
use crate::calls::compared_between::compared_between;
use crate::calls::digits::digits_in;
use crate::calls::fewer_digits::in_fewer_digits;
use crate::calls::flags::flags_of;
use crate::calls::in_another::in_another;
use crate::calls::in_one::in_format;
use crate::calls::odd::in_odd;
use crate::lines::{Answered, CallFault, Formats, OperationCall, Request};

/// What an operation returns in its formats.
pub(crate) fn answer(formats: Formats, call: OperationCall, request: Request) -> Answered {
    match call {
        OperationCall::Odd(call) => in_odd(formats, call, request),
        _ => in_formats(formats, call, request),
    }
}

/// What an operation that is not rounded to odd returns in its formats.
fn in_formats(formats: Formats, call: OperationCall, request: Request) -> Answered {
    match (formats, call) {
        (
            Formats::One(format),
            OperationCall::WriteDigits
            | OperationCall::DigitCount
            | OperationCall::WriteHex
            | OperationCall::WriteHexRounded,
        ) => digits_in(format, call, request),
        (Formats::One(format), OperationCall::Augmented(call)) => augmented_in(format, call, request.operands),
        (Formats::One(format), OperationCall::OfPayload(call)) => payload_in(format, call, request.operands.first),
        (Formats::One(format), _) => in_format(format, call, request),
        (Formats::Between(source, target), OperationCall::InAnother(call)) => in_another(source, target, call, request),
        (Formats::ToFewerDigits(target), OperationCall::InAnother(call)) => {
            in_fewer_digits(target, call, Some(request.round), request.operands)
        }
        (Formats::Between(source, target), OperationCall::Comparison(predicate, on_nan)) => {
            compared_between(source, target, predicate, on_nan, request.operands)
        }
        (Formats::OfFlags, OperationCall::OfFlags(call)) => flags_of(call, request.operands),
        _ => Err(CallFault::Support),
    }
}
