//! The calls of rows of test vectors, each in the formats that its row names: those of `Float`, what formats, pairs of
//! doubles and decimals have beyond them, the operations of IEEE 754-2019, rounding to odd, what machines give, and
//! conversions with storage formats.

mod array;
mod augmented;
mod blocks;
mod compared_between;
mod decimals;
mod digits;
mod fewer_digits;
mod flags;
mod formats;
mod from_storage;
mod in_a_format;
mod in_another;
mod in_one;
mod magnitudes;
mod odd;
mod of_type;
mod on_machine;
mod operations;
mod pairs;
mod projections;
mod saturated;
mod storage;
mod stored;
mod to_storage;

use crate::lines::{Answered, Call, Formats, OperationCall, Request};

/// What a call returns in its formats; `text` is its operand if that is a text.
pub fn answer(formats: Formats, request: Request, text: &str) -> Answered {
    match (formats, request.call) {
        (Formats::OnMachine(_) | Formats::BetweenOnMachine(_, _), _) => on_machine::answer(formats, request),
        (_, Call::Operation(OperationCall::OfBlock(call))) => blocks::answer(formats, call, request, text),
        (Formats::ToStorage(_, _) | Formats::FromStorage(_, _) | Formats::BetweenStorage(_, _), _) => {
            storage::answer(formats, request)
        }
        (Formats::Between(source, target), Call::Operation(OperationCall::Saturate(call))) => {
            saturated::answer(source, target, call, request)
        }
        (Formats::Storage(format), _) => stored::on_values(format, request),
        (_, Call::Operation(call)) => operations::answer(formats, call, request),
        _ => formats::answer(formats, request, text),
    }
}
