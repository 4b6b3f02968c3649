//! The law of a format: what its constants have to be, so that what is proved of the library holds for it.

use crate::ieee::{NonfiniteBehavior, Semantics};

/// The constants of a format.
pub(crate) struct Constants {
    pub bits: usize,
    pub exp_bits: usize,
    pub precision: usize,
    pub nonfinite: NonfiniteBehavior,
    pub max_exp: i32,
    pub ieee_max_exp: i32,
    pub min_exp: i32,
    pub ieee_min_exp: i32,
    pub nan_significand_base: u128,
    pub nan_payload_mask: u128,
    pub qnan_significand: u128,
    pub explicit_integer_bit: bool,
    pub tiny_before_rounding: bool,
    pub ieee_flags: bool,
}

/// The farthest that a format's exponents are from 0.
const FORMAT_BOUND: i32 = 1 << 20;

impl Constants {
    pub const fn of<S: Semantics>() -> Self {
        Constants {
            bits: S::BITS,
            exp_bits: S::EXP_BITS,
            precision: S::PRECISION,
            nonfinite: S::NONFINITE_BEHAVIOR,
            max_exp: S::MAX_EXP,
            ieee_max_exp: S::IEEE_MAX_EXP,
            min_exp: S::MIN_EXP,
            ieee_min_exp: S::IEEE_MIN_EXP,
            nan_significand_base: S::NAN_SIGNIFICAND_BASE,
            nan_payload_mask: S::NAN_PAYLOAD_MASK,
            qnan_significand: S::QNAN_SIGNIFICAND,
            explicit_integer_bit: S::EXPLICIT_INTEGER_BIT,
            tiny_before_rounding: S::TINY_BEFORE_ROUNDING,
            ieee_flags: S::IEEE_FLAGS,
        }
    }

    /// Whether the format, which is lawful, is that of `Double`. The law makes the other constants of these.
    pub const fn are_those_of_double(&self) -> bool {
        self.bits == 64
            && self.precision == 53
            && self.min_exp == -1022
            && matches!(self.nonfinite, NonfiniteBehavior::IEEE754)
            && !self.explicit_integer_bit
            && !self.tiny_before_rounding
            && !self.ieee_flags
    }

    /// The first clause of the law that the constants break.
    pub const fn fault(&self) -> Option<&'static str> {
        if let Some(fault) = self.fault_of_parameters() {
            return Some(fault);
        }
        let fault = if self.bits == 0 { self.fault_without_bits() } else { self.fault_of_bits() };
        if fault.is_some() { fault } else { self.fault_of_nans() }
    }

    const fn fault_of_parameters(&self) -> Option<&'static str> {
        if self.precision < 3 {
            return Some("PRECISION is at least 3");
        }
        if self.precision > 125 {
            return Some("PRECISION is at most 125");
        }
        if self.min_exp < -FORMAT_BOUND {
            return Some("MIN_EXP is at least -2^20");
        }
        if self.min_exp > -1 {
            return Some("MIN_EXP is at most -1");
        }
        if self.max_exp < self.precision as i32 {
            return Some("MAX_EXP is at least PRECISION");
        }
        if self.max_exp > FORMAT_BOUND {
            return Some("MAX_EXP is at most 2^20");
        }
        None
    }

    const fn fault_without_bits(&self) -> Option<&'static str> {
        if self.exp_bits != 0 {
            return Some("EXP_BITS is 0 in a format without bits");
        }
        if self.ieee_min_exp != 0 {
            return Some("IEEE_MIN_EXP is 0 in a format without bits");
        }
        if self.ieee_max_exp != 0 {
            return Some("IEEE_MAX_EXP is 0 in a format without bits");
        }
        if self.explicit_integer_bit {
            return Some("EXPLICIT_INTEGER_BIT is false in a format without bits");
        }
        None
    }

    const fn fault_of_bits(&self) -> Option<&'static str> {
        if self.exp_bits < 1 {
            return Some("EXP_BITS is at least 1 in a format with bits");
        }
        if self.bits > 128 {
            return Some("BITS is at most 128");
        }
        if self.bits != self.exp_bits + self.precision + self.explicit_integer_bit as usize {
            return Some("BITS is EXP_BITS + PRECISION, and 1 more with an explicit integer bit");
        }
        if self.exp_bits > 22 {
            return Some("EXP_BITS is at most 22, since exponents are within 2^20 of 0");
        }
        if self.ieee_min_exp != 2 - (1 << (self.exp_bits - 1)) {
            return Some("IEEE_MIN_EXP is 2 - 2^(EXP_BITS - 1)");
        }
        if self.ieee_max_exp != 1 - self.ieee_min_exp {
            return Some("IEEE_MAX_EXP is 1 - IEEE_MIN_EXP");
        }
        let more = match self.nonfinite {
            NonfiniteBehavior::IEEE754 => 0,
            NonfiniteBehavior::NanOnly | NonfiniteBehavior::NanNegativeZero => 1,
        };
        if self.max_exp != self.ieee_max_exp + (self.min_exp - self.ieee_min_exp) + more {
            return Some("MAX_EXP is IEEE_MAX_EXP + (MIN_EXP - IEEE_MIN_EXP), and 1 more without infinities");
        }
        None
    }

    const fn fault_of_nans(&self) -> Option<&'static str> {
        let trailing = (1 << (self.precision - 1)) - 1;
        let quiet = 1 << (self.precision - 2);
        let integer_bit = if self.explicit_integer_bit { 1 << (self.precision - 1) } else { 0 };
        let (base, mask, quiet) = match self.nonfinite {
            NonfiniteBehavior::IEEE754 => (0, trailing, quiet | integer_bit),
            NonfiniteBehavior::NanOnly => (trailing, 0, 0),
            NonfiniteBehavior::NanNegativeZero => (0, 0, 0),
        };
        if self.explicit_integer_bit && !matches!(self.nonfinite, NonfiniteBehavior::IEEE754) {
            return Some("EXPLICIT_INTEGER_BIT is false in a format without infinities");
        }
        if self.nan_significand_base != base {
            return Some("NAN_SIGNIFICAND_BASE is 2^(PRECISION - 1) - 1 for NanOnly, and otherwise 0");
        }
        if self.nan_payload_mask != mask {
            return Some("NAN_PAYLOAD_MASK is 2^(PRECISION - 1) - 1 for IEEE754, and otherwise 0");
        }
        if self.qnan_significand != quiet {
            return Some(
                "QNAN_SIGNIFICAND is 2^(PRECISION - 2) for IEEE754, with 2^(PRECISION - 1) if the integer bit is \
                 explicit, and otherwise 0",
            );
        }
        None
    }
}

#[cfg(test)]
mod tests {
    use super::*;
    use crate::ieee::{BFloatS, Double, Float8E5M2S, SingleS};
    use crate::ieee::{
        DoubleS, Float8E4M3B11FNUZS, Float8E4M3FNS, Float8E4M3FNUZS, Float8E4M3S, Float8E5M2FNUZS, FloatTF32S, HalfS,
        IeeeFlags, QuadS, TinyBefore, X87DoubleExtendedS,
    };
    use crate::ppc::{FallbackExtendedS, FallbackS};

    #[test]
    fn the_built_in_formats_are_lawful() {
        let all = [
            Constants::of::<HalfS>(),
            Constants::of::<SingleS>(),
            Constants::of::<DoubleS>(),
            Constants::of::<QuadS>(),
            Constants::of::<BFloatS>(),
            Constants::of::<Float8E5M2S>(),
            Constants::of::<Float8E4M3FNS>(),
            Constants::of::<Float8E4M3FNUZS>(),
            Constants::of::<Float8E4M3S>(),
            Constants::of::<Float8E5M2FNUZS>(),
            Constants::of::<Float8E4M3B11FNUZS>(),
            Constants::of::<FloatTF32S>(),
            Constants::of::<X87DoubleExtendedS>(),
            Constants::of::<FallbackS<Double>>(),
            Constants::of::<FallbackExtendedS<Double>>(),
            Constants::of::<IeeeFlags<TinyBefore<DoubleS>>>(),
        ];
        assert!(all.iter().all(|constants| constants.fault().is_none()));
    }

    /// The format `S` with a change.
    fn fault<S: Semantics>(change: impl FnOnce(&mut Constants)) -> Option<&'static str> {
        let mut constants = Constants::of::<S>();
        change(&mut constants);
        constants.fault()
    }

    #[test]
    fn each_clause_is_named() {
        macro_rules! faults {
            ($($format:ty: $constant:ident = $value:expr, $text:literal;)*) => {$(
                let text = fault::<$format>(|constants| constants.$constant = $value);
                assert!(text.is_some_and(|text| text.starts_with($text)), "{text:?}, not {}", $text);
            )*};
        }
        type Wide = FallbackS<Double>;
        faults! {
            HalfS: precision = 2, "PRECISION is at least 3";
            HalfS: precision = 126, "PRECISION is at most 125";
            HalfS: min_exp = -(1 << 20) - 1, "MIN_EXP is at least";
            HalfS: min_exp = 0, "MIN_EXP is at most -1";
            HalfS: max_exp = 10, "MAX_EXP is at least PRECISION";
            HalfS: max_exp = (1 << 20) + 1, "MAX_EXP is at most";
            Wide: exp_bits = 1, "EXP_BITS is 0 in a format without bits";
            Wide: ieee_min_exp = 1, "IEEE_MIN_EXP is 0 in a format without bits";
            Wide: ieee_max_exp = 1, "IEEE_MAX_EXP is 0 in a format without bits";
            Wide: explicit_integer_bit = true, "EXPLICIT_INTEGER_BIT is false in a format without bits";
            HalfS: exp_bits = 0, "EXP_BITS is at least 1";
            HalfS: bits = 129, "BITS is at most 128";
            HalfS: bits = 17, "BITS is EXP_BITS + PRECISION";
            HalfS: ieee_min_exp = -13, "IEEE_MIN_EXP is 2 - 2^(EXP_BITS - 1)";
            HalfS: ieee_max_exp = 16, "IEEE_MAX_EXP is 1 - IEEE_MIN_EXP";
            HalfS: max_exp = 16, "MAX_EXP is IEEE_MAX_EXP";
            Float8E4M3FNS: max_exp = 7, "MAX_EXP is IEEE_MAX_EXP";
            HalfS: nan_significand_base = 1, "NAN_SIGNIFICAND_BASE";
            Float8E4M3FNS: nan_significand_base = 0, "NAN_SIGNIFICAND_BASE";
            HalfS: nan_payload_mask = 0, "NAN_PAYLOAD_MASK";
            Float8E4M3FNUZS: nan_payload_mask = 1, "NAN_PAYLOAD_MASK";
            HalfS: qnan_significand = 1, "QNAN_SIGNIFICAND";
            X87DoubleExtendedS: qnan_significand = 1 << 62, "QNAN_SIGNIFICAND";
        }
        let text = fault::<HalfS>(|constants| (constants.bits, constants.exp_bits) = (34, 23));
        assert!(text.is_some_and(|text| text.starts_with("EXP_BITS is at most 22")), "{text:?}");
        let text = fault::<Float8E4M3FNS>(|constants| {
            (constants.bits, constants.explicit_integer_bit) = (9, true);
        });
        assert!(text.is_some_and(|text| text.starts_with("EXPLICIT_INTEGER_BIT")), "{text:?}");
    }
}
