//! What the sources of `check_vectors` take of the library: the same of the crate, at the library's paths.

pub mod rustc_apfloat {
    pub use ::rustc_apfloat::{Category, ExpInt, Float, FloatConvert, Round, Status, StatusAnd};

    /// The crate's statuses have the methods of this trait of the library themselves.
    pub trait Flags {}

    /// Up to how many digits the library has `mul_add_r`; the crate has it in every format.
    pub const FUSED_LIMIT: usize = 63;

    pub mod ieee {
        pub use ::rustc_apfloat::ieee::Semantics as Flagged;
        pub use ::rustc_apfloat::ieee::*;
    }

    pub mod ppc {
        use rustc_apfloat::{ieee::Double, ppc};

        pub use rustc_apfloat::ppc::DoubleDouble;

        pub type FallbackS = ppc::FallbackS<Double>;
        pub type FallbackExtendedS = ppc::FallbackExtendedS<Double>;
    }

    pub mod double_double_operations {
        use rustc_apfloat::ieee::{IeeeFloat, Semantics};
        use rustc_apfloat::more::PairMore;
        use rustc_apfloat::ppc::DoubleDouble;
        use rustc_apfloat::{Float, Round, StatusAnd};

        pub fn pair_to_format<S: Semantics>(x: DoubleDouble, round: Round) -> StatusAnd<IeeeFloat<S>> {
            x.to_format(round)
        }

        pub fn pair_from_format<S: Semantics>(x: IeeeFloat<S>, round: Round) -> StatusAnd<DoubleDouble> {
            DoubleDouble::from_format(x, round)
        }

        pub fn pair_mul_add(x: DoubleDouble, y: DoubleDouble, z: DoubleDouble) -> StatusAnd<DoubleDouble> {
            x.mul_add(y, z)
        }

        pub fn pair_mul_add_r(
            x: DoubleDouble,
            y: DoubleDouble,
            z: DoubleDouble,
            round: Round,
        ) -> StatusAnd<DoubleDouble> {
            x.mul_add_r(y, z, round)
        }
    }
}

pub mod apfloat_decimals {
    use rustc_apfloat::ieee::{IeeeFloat, Semantics};
    use rustc_apfloat::more::{FloatMore, IeeeMore};
    use rustc_apfloat::{Float, ParseError, Round, StatusAnd};

    pub use rustc_apfloat::Decimal;

    pub fn read_decimal<S: Semantics>(text: &str, round: Round) -> Result<StatusAnd<IeeeFloat<S>>, ParseError> {
        IeeeFloat::from_str_r(text, round)
    }

    pub fn shortest<S: Semantics>(x: IeeeFloat<S>) -> Option<Decimal> {
        x.shortest()
    }

    pub fn exact<S: Semantics>(x: IeeeFloat<S>) -> Option<Decimal> {
        x.exact_decimal()
    }

    pub fn rounded<S: Semantics>(x: IeeeFloat<S>, count: u32, round: Round) -> Option<(Decimal, bool)> {
        x.rounded_decimal(count, round)
    }
}

pub mod apfloat_digits {
    pub use rustc_apfloat::decimal_digits as decimal;
    pub use rustc_apfloat::hex_digits as hexadecimal;

    pub mod of_double_doubles {
        use rustc_apfloat::more::FloatMore;
        use rustc_apfloat::ppc::DoubleDouble;
        use rustc_apfloat::{Decimal, Float, ParseError, Round, StatusAnd};

        pub fn read_decimal_pair(text: &str, round: Round) -> Result<StatusAnd<DoubleDouble>, ParseError> {
            DoubleDouble::from_str_r(text, round)
        }

        pub fn shortest_of_pair(x: DoubleDouble) -> Option<Decimal> {
            x.shortest()
        }
    }
}

pub mod ieee_operations {
    pub use rustc_apfloat::augmented;
    pub use rustc_apfloat::comparisons::*;
}

pub use ::rustc_apfloat::machines as apfloat_machines;
pub use ::rustc_apfloat::odd as round_to_odd;

/// Formats by their words.
pub mod formats_at_run_time {
    use rustc_apfloat::ieee::*;
    use rustc_apfloat::more::FloatMore;
    use rustc_apfloat::ppc::DoubleDouble;
    use rustc_apfloat::{Float, Round, StatusAnd};

    pub use rustc_apfloat::run_time::{Format as BuiltInFormat, InFormat};

    pub trait InFlaggedFormat {
        type Output;

        fn in_flagged_format<S: Semantics>(self) -> Self::Output;
    }

    /// Types with square roots.
    pub trait ValueType: FloatMore {}

    impl<F: FloatMore> ValueType for F {}

    #[derive(Clone, Copy)]
    pub enum BuiltInKind {
        OfFormat(BuiltInFormat),
    }

    impl BuiltInKind {
        pub fn named(word: &str) -> Option<BuiltInKind> {
            word.parse().ok().map(BuiltInKind::OfFormat)
        }

        pub fn format(self) -> Option<BuiltInFormat> {
            let BuiltInKind::OfFormat(format) = self;
            Some(format)
        }
    }

    macro_rules! ieee_formats {
        ($($name:ident $format:ident,)*) => {
            /// The formats whose calls can raise the flags of IEEE 754.
            #[derive(Clone, Copy)]
            pub enum IeeeFormat {
                $($name,)*
            }

            impl IeeeFormat {
                pub fn of(kind: BuiltInKind) -> Option<IeeeFormat> {
                    match kind {
                        $(BuiltInKind::OfFormat(BuiltInFormat::$name) => Some(IeeeFormat::$name),)*
                        _ => None,
                    }
                }
            }

            impl FlaggedFormat {
                pub fn run<C: InFlaggedFormat>(self, call: C) -> C::Output {
                    match self {
                        FlaggedFormat::BuiltIn(format) => format.run(Plainly(call)),
                        $(
                            FlaggedFormat::AfterRounding(IeeeFormat::$name) => {
                                call.in_flagged_format::<IeeeFlags<$format>>()
                            }
                            FlaggedFormat::BeforeRounding(IeeeFormat::$name) => {
                                call.in_flagged_format::<IeeeFlags<TinyBefore<$format>>>()
                            }
                        )*
                    }
                }
            }
        };
    }

    ieee_formats! {
        Half HalfS,
        Single SingleS,
        Double DoubleS,
        Quad QuadS,
        BFloat BFloatS,
        E5M2 Float8E5M2S,
        X87 X87DoubleExtendedS,
    }

    #[derive(Clone, Copy)]
    pub enum FlaggedFormat {
        BuiltIn(BuiltInFormat),
        AfterRounding(IeeeFormat),
        BeforeRounding(IeeeFormat),
    }

    struct Plainly<C>(C);

    impl<C: InFlaggedFormat> InFormat for Plainly<C> {
        type Output = C::Output;

        fn in_format<S: Semantics>(self) -> C::Output {
            self.0.in_flagged_format::<S>()
        }
    }

    pub fn mode_named(word: &str) -> Option<Round> {
        match word {
            "even" => Some(Round::NearestTiesToEven),
            "up" => Some(Round::TowardPositive),
            "down" => Some(Round::TowardNegative),
            "zero" => Some(Round::TowardZero),
            "away" => Some(Round::NearestTiesToAway),
            _ => None,
        }
    }

    /// Commands are made calls before they are checked.
    pub struct CommandKind;

    impl CommandKind {
        pub fn named(_: &str) -> Option<CommandKind> {
            None
        }
    }
}

/// The words of rows.
pub mod commands {
    use rustc_apfloat::Status;
    use std::io::{self, Write};

    pub fn number_of(word: &str) -> Option<u128> {
        if word.starts_with('+') { None } else { word.parse().ok() }
    }

    pub fn bits_of(word: &str, width: usize) -> Option<u128> {
        let digits = word.strip_prefix("0x").unwrap_or(word);
        if digits.len() > 32 || digits.starts_with('+') {
            return None;
        }
        u128::from_str_radix(digits, 16).ok().filter(|bits| width >= 128 || *bits < 1 << width)
    }

    pub fn write_status(status: Status, out: &mut impl Write) -> io::Result<()> {
        let names: Vec<&str> = status.iter_names().map(|(name, _)| name).collect();
        out.write_all(if names.is_empty() { "OK".to_owned() } else { names.join("|") }.as_bytes())
    }

    /// Commands are made calls before they are checked.
    pub fn agrees(_: &[&str], _: &str) -> bool {
        false
    }

    pub fn run(_: &[String], _: &mut Vec<u8>, _: &mut Vec<u8>) {}

    /// Formats for rows alone.
    pub mod custom_formats {
        use rustc_apfloat::ExpInt;
        use rustc_apfloat::ieee::{NonfiniteBehavior, Semantics};

        macro_rules! formats {
            ($($name:ident($bits:literal: $exp_bits:literal) { $($constant:ident: $type:ty = $value:expr;)* })*) => {$(
                pub struct $name;

                impl Semantics for $name {
                    const BITS: usize = $bits;
                    const EXP_BITS: usize = $exp_bits;
                    $(const $constant: $type = $value;)*
                }
            )*};
        }

        formats! {
            LeastS(0: 0) {
                PRECISION: usize = 3;
                MAX_EXP: ExpInt = 3;
                MIN_EXP: ExpInt = -1;
            }
            LeastFiniteS(0: 0) {
                PRECISION: usize = 3;
                NONFINITE_BEHAVIOR: NonfiniteBehavior = NonfiniteBehavior::NanOnly;
                MAX_EXP: ExpInt = 3;
                MIN_EXP: ExpInt = -1;
            }
            DeepS(0: 0) {
                PRECISION: usize = 3;
                MAX_EXP: ExpInt = 3;
                MIN_EXP: ExpInt = -1048576;
            }
            PreciseS(0: 0) {
                PRECISION: usize = 125;
                MAX_EXP: ExpInt = 125;
                MIN_EXP: ExpInt = -1;
            }
            VastS(0: 0) {
                PRECISION: usize = 125;
                MAX_EXP: ExpInt = 1048576;
                MIN_EXP: ExpInt = -1048576;
            }
            SevenS(7: 3) {
                MIN_EXP: ExpInt = -1;
            }
            BroadS(128: 21) {}
            WrittenBitS(14: 5) {
                PRECISION: usize = 8;
                QNAN_SIGNIFICAND: u128 = 3 << 6;
            }
            TenS(10: 5) {
                NONFINITE_BEHAVIOR: NonfiniteBehavior = NonfiniteBehavior::NanOnly;
            }
            FusedLimitS(72: 9) {}
            X87SingleS(40: 15) {
                PRECISION: usize = 24;
                QNAN_SIGNIFICAND: u128 = 3 << 22;
            }
            X87DoubleS(69: 15) {
                PRECISION: usize = 53;
                QNAN_SIGNIFICAND: u128 = 3 << 51;
            }
        }
    }
}
