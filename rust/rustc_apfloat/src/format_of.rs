//! Operations whose result is of another format than their operands (IEEE 754-2019 5.4.1, formatOf): the exact result
//! is rounded once, to the format of the result, with exactly that rounding's flags. The crate `rustc_apfloat` has
//! none.
//!
//! The target, which may be narrower or wider, comes first among the type parameters; each operand may have a format of
//! its own. The methods `add_to`, `sub_to`, `mul_to`, `div_to`, `sqrt_to` and `mul_add_to` of
//! [`IeeeMore`](crate::more::IeeeMore) take operands of one format.
//!
//! A NaN is quieted and converted to the target, with `INVALID_OP` if an operand is signaling. An infinity in a target
//! without infinities raises `INEXACT`.
//!
//! ```
//! use rustc_apfloat::ieee::{Double, Half, HalfS, Single};
//! use rustc_apfloat::more::IeeeMore;
//! use rustc_apfloat::{Float, Round, Status, format_of};
//!
//! let (one, small) = (Double::from_u128(1).value, "0x1.001p-11".parse::<Double>().unwrap());
//! let sum = one.add_to::<HalfS>(small, Round::NearestTiesToEven);
//! assert_eq!((sum.value.to_bits(), sum.status), (0x3c01, Status::INEXACT));
//!
//! let half: Half = format_of::add(one, "0x1.8p0".parse::<Single>().unwrap(), Round::TowardZero).value;
//! assert_eq!(half.to_bits(), 0x4100);
//! ```

use crate::erased::apfloat_ieee::format_of as library;
use crate::ieee::{IeeeFloat, Semantics};
use crate::{Round, StatusAnd};

library_calls! {
    /// `x + y` in the format `T`.
    fn add<T, S, R>(x: IeeeFloat<S>, y: IeeeFloat<R>, round: Round) -> StatusAnd<IeeeFloat<T>>;
    /// `x - y` in the format `T`.
    fn subtract<T, S, R>(x: IeeeFloat<S>, y: IeeeFloat<R>, round: Round) -> StatusAnd<IeeeFloat<T>>;
    /// `x * y` in the format `T`.
    fn multiply<T, S, R>(x: IeeeFloat<S>, y: IeeeFloat<R>, round: Round) -> StatusAnd<IeeeFloat<T>>;
    /// `x / y` in the format `T`.
    fn divide<T, S, R>(x: IeeeFloat<S>, y: IeeeFloat<R>, round: Round) -> StatusAnd<IeeeFloat<T>>;
    /// The square root of `x` in the format `T`.
    fn square_root<T, S>(x: IeeeFloat<S>, round: Round) -> StatusAnd<IeeeFloat<T>>;
    /// `x * y + z` in the format `T`, fused.
    fn multiply_add<T, S, R, Q>(x: IeeeFloat<S>, y: IeeeFloat<R>, z: IeeeFloat<Q>, round: Round)
        -> StatusAnd<IeeeFloat<T>>;
}
