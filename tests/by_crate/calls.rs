//! The calls of rows that the crate has: those of `check_vectors`, but for what only the library has.

#[path = "../../rust/programs/src/bin/check_vectors/calls/augmented.rs"]
mod augmented;
#[path = "../../rust/programs/src/bin/check_vectors/calls/compared_between.rs"]
mod compared_between;
#[path = "../../rust/programs/src/bin/check_vectors/calls/decimals.rs"]
mod decimals;
#[path = "../../rust/programs/src/bin/check_vectors/calls/digits.rs"]
mod digits;
#[path = "../../rust/programs/src/bin/check_vectors/calls/fewer_digits.rs"]
mod fewer_digits;
#[path = "../../rust/programs/src/bin/check_vectors/calls/flags.rs"]
mod flags;
#[path = "../../rust/programs/src/bin/check_vectors/calls/formats.rs"]
mod formats;
#[path = "../../rust/programs/src/bin/check_vectors/calls/in_a_format.rs"]
mod in_a_format;
#[path = "../../rust/programs/src/bin/check_vectors/calls/in_another.rs"]
mod in_another;
#[path = "../../rust/programs/src/bin/check_vectors/calls/in_one.rs"]
mod in_one;
#[path = "../../rust/programs/src/bin/check_vectors/calls/magnitudes.rs"]
mod magnitudes;
#[path = "../../rust/programs/src/bin/check_vectors/calls/odd.rs"]
mod odd;
#[path = "../../rust/programs/src/bin/check_vectors/calls/of_type.rs"]
mod of_type;
#[path = "../../rust/programs/src/bin/check_vectors/calls/on_machine.rs"]
mod on_machine;
#[path = "../../rust/programs/src/bin/check_vectors/calls/operations.rs"]
mod operations;
#[path = "../../rust/programs/src/bin/check_vectors/calls/pairs.rs"]
mod pairs;
mod storage;

use crate::lines::{Answered, Call, CallFault, Constant, Formats, OneValueCall, Request};

/// What a call returns in its formats; `text` is its operand if that is a text.
pub fn answer(formats: Formats, request: Request, text: &str) -> Answered {
    match (formats, request.call) {
        (Formats::OnMachine(_) | Formats::BetweenOnMachine(_, _), _) => on_machine::answer(formats, request),
        (
            Formats::ToStorage(_, _)
            | Formats::FromStorage(_, _)
            | Formats::BetweenStorage(_, _)
            | Formats::Storage(_),
            _,
        ) => storage::answer(formats, request),
        // `Debug` is that of crates.io's crate, and the crate has products in every format.
        (_, Call::OfOneValue(OneValueCall::Debug) | Call::Constant(Constant::Multiplies)) => Err(CallFault::Support),
        (_, Call::Operation(call)) => operations::answer(formats, call, request),
        _ => formats::answer(formats, request, text),
    }
}
