//! Augmented sums, differences and products (IEEE 754-2019 9.5), whose two results are together the exact one, and
//! payloads of NaNs as values (9.7), in every format. The crate `rustc_apfloat` has none of these.
//!
//! ```
//! use rustc_apfloat::ieee::Half;
//! use rustc_apfloat::{Float, Status, augmented};
//!
//! // 2049 is halfway between 2048 and 2050, and the lesser magnitude is taken.
//! let (x, y) = (Half::from_u128(2048).value, Half::from_u128(1).value);
//! let sum = augmented::augmented_add(x, y);
//! assert_eq!((sum.status, sum.value.head, sum.value.tail), (Status::OK, x, y));
//!
//! let nan = augmented::set_payload(Half::from_u128(42).value);
//! assert_eq!(nan.to_bits(), 0x7e2a);
//! assert_eq!(augmented::get_payload(nan), Half::from_u128(42).value);
//! ```

use crate::StatusAnd;
use crate::calls::Returned;
use crate::erased::ieee_operations::augmented as library;
use crate::ieee::{FlaggedS, IeeeFloat, Semantics};
use core::fmt;

/// The two results of an augmented operation (IEEE 754-2019 9.5).
pub struct Augmented<S: Semantics> {
    /// The exact result, rounded to nearest; of two values equally near, the one of lower magnitude.
    pub head: IeeeFloat<S>,
    /// What the head leaves of the exact result.
    pub tail: IeeeFloat<S>,
}

copied! { Augmented<S: Semantics> }

impl<S: Semantics> PartialEq for Augmented<S> {
    #[inline]
    fn eq(&self, other: &Self) -> bool {
        self.head == other.head && self.tail == other.tail
    }
}

impl<S: Semantics> fmt::Debug for Augmented<S> {
    fn fmt(&self, f: &mut fmt::Formatter<'_>) -> fmt::Result {
        f.debug_struct("Augmented").field("head", &self.head).field("tail", &self.tail).finish()
    }
}

impl<S: Semantics> Returned for library::Augmented<FlaggedS<S>> {
    type Answer = Augmented<S>;

    #[inline]
    fn returned(self) -> Augmented<S> {
        Augmented { head: self.head.returned(), tail: self.tail.returned() }
    }
}

library_calls! {
    /// augmentedAddition (9.5): the sum, rounded to nearest with ties toward zero, and what that leaves of the exact
    /// sum.
    ///
    /// If the head is past the largest value, both results are the infinity of its sign, or the NaN in its place, with
    /// `OVERFLOW` and `INEXACT`. Otherwise no flag is raised, unless an operand is an infinity or a NaN: then both
    /// results are that of `add_r`, with its flags.
    fn augmented_add<S>(x: IeeeFloat<S>, y: IeeeFloat<S>) -> StatusAnd<Augmented<S>>;
    /// augmentedSubtraction (9.5): `augmented_add` of `x` and `-y`, except that a NaN is not negated.
    fn augmented_subtract<S>(x: IeeeFloat<S>, y: IeeeFloat<S>) -> StatusAnd<Augmented<S>>;
    /// augmentedMultiplication (9.5): the product, rounded to nearest with ties toward zero, and what that leaves of the
    /// exact product.
    ///
    /// If the exact product has digits below the smallest denormal value, the tail is rounded in the same way, with
    /// `UNDERFLOW` and `INEXACT`. Past the largest value it is as for sums. If an operand is zero, an infinity or a NaN,
    /// both results are that of `mul_r`, with its flags.
    fn augmented_multiply<S>(x: IeeeFloat<S>, y: IeeeFloat<S>) -> StatusAnd<Augmented<S>>;

    /// getPayload (9.7): the payload of a NaN as an integer, and -1 for any other value.
    ///
    /// # Panics
    ///
    /// In a format without bits.
    fn get_payload<S>(x: IeeeFloat<S>) -> IeeeFloat<S> where S::BITS > S::PRECISION => "a format without bits";
    /// setPayload (9.7): the positive quiet NaN with the payload `x`, or +0 if the format has no such payload.
    fn set_payload<S>(x: IeeeFloat<S>) -> IeeeFloat<S>;
    /// setPayloadSignaling (9.7): the positive signaling NaN with the payload `x`, or +0 if the format has no such
    /// payload, as 0 is none.
    fn set_payload_signaling<S>(x: IeeeFloat<S>) -> IeeeFloat<S>;
}
