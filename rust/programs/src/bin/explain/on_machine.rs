//! Results as machines give them: their NaNs, and the flags of IEEE 754 with the machine's rule of tininess.

use crate::compute::computed;
use crate::erased::apfloat_machines::{Machine, settled, settled_fused, settled_unary};
use crate::erased::rustc_apfloat::ieee::{Flagged, IeeeFlags, IeeeFloat, Semantics, TinyBefore};
use crate::erased::rustc_apfloat::{Float, Round, StatusAnd};
use crate::explanation::NanSource;
use crate::question::Operation;

/// The answer of an operation as the machine gives it.
pub fn on_machine<S: Semantics>(
    machine: Machine,
    operation: Operation,
    x: IeeeFloat<S>,
    y: IeeeFloat<S>,
    z: IeeeFloat<S>,
    round: Round,
) -> StatusAnd<IeeeFloat<S>> {
    let (a, b, c) = (S::to_bits(x), S::to_bits(y), S::to_bits(z));
    let answer = if machine.tiny_before_rounding {
        settled_bits::<IeeeFlags<TinyBefore<S>>>(machine, operation, a, b, c, round)
    } else {
        settled_bits::<IeeeFlags<S>>(machine, operation, a, b, c, round)
    };
    answer.status.and(S::from_bits(answer.value))
}

/// The bits of the answer for operands with these bits.
fn settled_bits<T: Flagged>(
    machine: Machine,
    operation: Operation,
    a: u128,
    b: u128,
    c: u128,
    round: Round,
) -> StatusAnd<u128> {
    let x = IeeeFloat::<T>::from_bits(a);
    let y = IeeeFloat::<T>::from_bits(b);
    let z = IeeeFloat::<T>::from_bits(c);
    let answer = computed(operation, x, y, z, round);
    let given = match operation {
        Operation::Value | Operation::Into(_) => answer,
        Operation::OfTwo(_) => settled(machine, x, y, answer),
        Operation::FusedSum => match settled_fused(machine, x, y, z, answer) {
            Some(fused) => fused,
            None => computed(operation, x, y, z, round),
        },
        Operation::SquareRoot => settled_unary(machine, x, answer),
    };
    given.status.and(given.value.to_bits())
}

/// Where the NaN of a result comes from, if it is one.
pub fn nan_source<S: Flagged>(
    machine: Machine,
    operation: Operation,
    x: IeeeFloat<S>,
    y: IeeeFloat<S>,
    z: IeeeFloat<S>,
    value: IeeeFloat<S>,
) -> Option<NanSource> {
    if !value.is_nan() {
        return None;
    }
    let is_addend = matches!(operation, Operation::FusedSum) && z.is_nan();
    if x.is_nan() || y.is_nan() {
        return Some(NanSource::Operands);
    }
    if !is_addend {
        return Some(NanSource::NoNan);
    }
    let is_invalid = (x.is_zero() && y.is_infinite()) || (x.is_infinite() && y.is_zero());
    let drops = if z.is_signaling() { machine.drops_signaling_addend } else { machine.drops_quiet_addend };
    Some(if is_invalid && drops { NanSource::InvalidProduct } else { NanSource::Operands })
}
