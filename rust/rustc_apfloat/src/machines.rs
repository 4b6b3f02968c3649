//! What processors do where IEEE 754 leaves a choice: which NaN is delivered, which integer an invalid conversion
//! gives, which of two operands is the minimum, and how denormal numbers are flushed. `docs/MACHINES.md` of the
//! repository has what to call for each instruction; the crate `rustc_apfloat` has none of this.
//!
//! An interpreter computes with [`IeeeFloat`], and passes operands and answer to `settled` or one of the functions
//! beside it, which give what the machine gives.
//!
//! ```
//! use rustc_apfloat::ieee::Single;
//! use rustc_apfloat::machines::{self, Contradiction, Machine, NanChoice};
//! use rustc_apfloat::{Float, Status};
//!
//! // The NaN of an invalid operation is positive on RISC-V, and negative on x86.
//! let zero = Single::ZERO;
//! let answer = zero / zero;
//! assert_eq!(machines::settled(Machine::RISC_V, zero, zero, answer).value.to_bits(), 0x7fc0_0000);
//! assert_eq!(machines::settled(Machine::X86, zero, zero, answer).value.to_bits(), 0xffc0_0000);
//! assert_eq!(answer.status, Status::INVALID_OP);
//!
//! // Any other machine is composed, and refused if one choice contradicts another.
//! let composed = Machine { nan_choice: NanChoice::AlwaysDefault, ..Machine::X86 };
//! assert_eq!(composed.checked(), Err(Contradiction::QuietAddendKept));
//! ```

use crate::{Round, StatusAnd};
use crate::erased::apfloat_machines as library;
use crate::ieee::{IeeeFloat, Semantics};

pub use library::{
    Contradiction, Flush, FusedOrder, Machine, MinimumRule, NanChoice, RangeRule, RangeSign, WholeOfNan,
};

same_types! { Flush, Machine, MinimumRule, RangeRule }

/// Machines as they were named when they were variants, and their choices when they were calls.
macro_rules! names_of_before {
    ($($variant:ident = $constant:ident),*; $($choice:ident: $type:ty),*) => {
        #[allow(missing_docs, non_upper_case_globals)]
        #[doc(hidden)]
        impl Machine {
            $(pub const $variant: Machine = Machine::$constant;)*
            $(
                #[inline]
                pub fn $choice(self) -> $type {
                    self.$choice
                }
            )*
        }
    };
}

names_of_before! {
    Arm = ARM, ArmDefaultNan = ARM_DEFAULT_NAN, ArmAlternate = ARM_ALTERNATE, RiscV = RISC_V, Power = POWER,
    S390x = S390X;
    nan_choice: NanChoice, default_is_negative: bool, has_fused: bool, fused_order: FusedOrder,
    drops_quiet_addend: bool, drops_signaling_addend: bool, flags_quiet_addend: bool, has_unsigned: bool,
    signed_of_nan: WholeOfNan, unsigned_of_nan: WholeOfNan, has_one_invalid_integer: bool,
    invalid_integer_is_inexact: bool, tiny_before_rounding: bool, flush: Option<Flush>
}

library_calls! {
    /// The answer of an operation on two operands, in the machine's order, as the machine gives it: if it is a NaN, the
    /// machine's NaN, and otherwise unchanged. The operation is a sum, a difference, a product, a quotient or a
    /// remainder of a format with infinities.
    ///
    /// # Panics
    ///
    /// In a format without bits.
    fn settled<S>(machine: Machine, x: IeeeFloat<S>, y: IeeeFloat<S>, answer: StatusAnd<IeeeFloat<S>>)
        -> StatusAnd<IeeeFloat<S>> where S::BITS > S::PRECISION => "a format without bits";
    /// The answer of a square root, or of rounding to an integral value, as the machine gives it, like `settled`.
    ///
    /// # Panics
    ///
    /// In a format without bits.
    fn settled_unary<S>(machine: Machine, x: IeeeFloat<S>, answer: StatusAnd<IeeeFloat<S>>)
        -> StatusAnd<IeeeFloat<S>> where S::BITS > S::PRECISION => "a format without bits";
    /// The answer of the fused sum `x * y + z`, as the machine gives it: if it is a NaN, the machine's NaN with its
    /// flags. None if the machine has no fused sums.
    ///
    /// # Panics
    ///
    /// In a format without bits.
    fn settled_fused<S>(
        machine: Machine, x: IeeeFloat<S>, y: IeeeFloat<S>, z: IeeeFloat<S>, answer: StatusAnd<IeeeFloat<S>>
    ) -> Option<StatusAnd<IeeeFloat<S>>> where S::BITS > S::PRECISION => "a format without bits";
    /// The answer of the conversion of `x` to another format, as the machine gives it.
    fn settled_conversion<S, T>(machine: Machine, x: IeeeFloat<S>, answer: StatusAnd<IeeeFloat<T>>)
        -> StatusAnd<IeeeFloat<T>>;
    /// The answer of the conversion of `x` to a signed integer of `width` binary digits, as the machine gives it.
    ///
    /// # Panics
    ///
    /// Unless the width is from 2 to 128.
    fn settled_signed<S>(machine: Machine, x: IeeeFloat<S>, width: usize, answer: StatusAnd<i128>) -> StatusAnd<i128>
        where (2..=128).contains(&width) => "no signed integer has this width";
    /// The answer of the conversion of `x` to an unsigned integer of `width` binary digits, as the machine gives it.
    /// None if the machine has no such conversions.
    ///
    /// # Panics
    ///
    /// Unless the width is from 1 to 128.
    fn settled_unsigned<S>(machine: Machine, x: IeeeFloat<S>, width: usize, answer: StatusAnd<u128>)
        -> Option<StatusAnd<u128>> where (1..=128).contains(&width) => "no integer has this width";
    /// The value rounded toward zero, modulo two to the power of `width`, as a signed integer of `width` binary digits,
    /// with the flags of `to_i128_r`; 0 for infinities and NaNs.
    ///
    /// # Panics
    ///
    /// Unless the width is from 2 to 128.
    fn to_signed_modulo<S>(x: IeeeFloat<S>, width: usize) -> StatusAnd<i128>
        where (2..=128).contains(&width) => "no signed integer has this width";
    /// The product of two values as FMULX of Arm gives it, given that of the machine: of an infinity and a zero 2 with
    /// the sign of the product, without a flag, and any other unchanged.
    fn extended_product<S>(x: IeeeFloat<S>, y: IeeeFloat<S>, product: StatusAnd<IeeeFloat<S>>)
        -> StatusAnd<IeeeFloat<S>>;

    /// The NaN that an operation on two operands delivers.
    ///
    /// # Panics
    ///
    /// In a format without bits.
    fn machine_nan<S>(machine: Machine, x: IeeeFloat<S>, y: IeeeFloat<S>) -> IeeeFloat<S>
        where S::BITS > S::PRECISION => "a format without bits";
    /// The quiet NaN that an invalid operation delivers, with the machine's sign and payload.
    fn default_nan<S>(machine: Machine) -> IeeeFloat<S>;
    /// The value negated, except that a NaN keeps its sign.
    fn negated_number<S>(x: IeeeFloat<S>) -> IeeeFloat<S>;

    /// The lesser of two operands by a rule, with its flags.
    ///
    /// # Panics
    ///
    /// In a format without bits.
    fn least<S>(rule: MinimumRule, machine: Machine, x: IeeeFloat<S>, y: IeeeFloat<S>) -> StatusAnd<IeeeFloat<S>>
        where S::BITS > S::PRECISION => "a format without bits";
    /// The greater of two operands by a rule, with its flags.
    ///
    /// # Panics
    ///
    /// In a format without bits.
    fn greatest<S>(rule: MinimumRule, machine: Machine, x: IeeeFloat<S>, y: IeeeFloat<S>) -> StatusAnd<IeeeFloat<S>>
        where S::BITS > S::PRECISION => "a format without bits";
    /// A minimum or a maximum with a sign that is chosen, as VRANGEPS of x86 and its forms give it: the first signaling
    /// operand quieted, or the operand that the rule chooses, a number rather than a NaN.
    fn range<S>(rule: RangeRule, x: IeeeFloat<S>, y: IeeeFloat<S>) -> StatusAnd<IeeeFloat<S>>;

    /// The bits of a value in Arm's alternative half precision (FPCR.AHP), tininess detected as in `S`. What rounds to
    /// 2^17 or more, and an infinity, is the greatest number of its sign, and a NaN the zero, with INVALID_OP alone.
    fn to_alternative_half<S>(x: IeeeFloat<S>, round: Round) -> StatusAnd<u16>;
    /// The value of bits of that precision, rounded once.
    fn from_alternative_half<S>(bits: u16, round: Round) -> StatusAnd<IeeeFloat<S>>;

    /// The answer of an operation, where tiny results are flushed to the zero of their sign; the answer is one of a
    /// format with the flags of IEEE 754, whose rule of tininess is the machine's.
    fn flushed<S>(flush: Flush, answer: StatusAnd<IeeeFloat<S>>) -> StatusAnd<IeeeFloat<S>>;
    /// An operand, where denormal ones are flushed: the zero of its sign if it is denormal.
    fn without_denormal<S>(x: IeeeFloat<S>) -> IeeeFloat<S>;
    /// Whether an operand is denormal, and none is a NaN.
    fn has_denormal<S>(x: IeeeFloat<S>, y: IeeeFloat<S>) -> bool;
}
