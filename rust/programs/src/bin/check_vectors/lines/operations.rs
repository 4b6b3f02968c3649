//! The operations of IEEE 754-2019 that `Float` lacks, as rows name them.
//!
//! `calls` makes the call of such a row.

use crate::erased::apfloat_machines::MinimumRule;
use crate::erased::ieee_operations::{Extremum, OnNan, Predicate};
use crate::lines::form::Form;
use crate::lines::table::{found, words};

/// An operation of IEEE 754-2019.
#[derive(Clone, Copy)]
pub enum OperationCall {
    /// The result in another format (5.4.1, formatOf).
    InAnother(FormatOfCall),
    /// The result rounded to odd.
    Odd(OddCall),
    /// A comparison predicate (5.6.1, 5.11).
    Comparison(Predicate, OnNan),
    /// A call on two values without a status.
    Order(OrderCall),
    /// A minimum or a maximum (9.6); if true, of a NaN and a number the number.
    Extremum(Extremum, bool),
    /// A call on one value.
    OfOne(GeneralCall),
    /// The value times a power of two (5.3.3, scaleB).
    ScaleB,
    /// A value as an integer (5.8).
    ToInteger(ToIntegerCall),
    /// The decimal digits of a value (5.12.2).
    WriteDigits,
    /// How many decimal digits a value has.
    DigitCount,
    /// The hexadecimal digits of a value (5.12.3).
    WriteHex,
    /// A value rounded to a number of hexadecimal digits after the dot (5.12.3).
    WriteHexRounded,
    /// An augmented operation (9.5).
    Augmented(AugmentedCall),
    /// An operation on the payload of a NaN (9.7).
    OfPayload(PayloadCall),
    /// A conversion that saturates.
    Saturate(SaturateCall),
    /// A conversion rounded with random digits.
    ConvertStochastic,
    /// The same, where a NaN becomes the largest number.
    ConvertStochasticAll,
    /// A block of values with a common scale.
    OfBlock(BlockCall),
    /// An operation on flags (5.7.4).
    OfFlags(FlagsCall),
    /// On a machine, a minimum, if true, or a maximum by a rule.
    OnMachine(MinimumRule, bool),
}

/// An operation whose result is of another format.
#[derive(Clone, Copy)]
pub enum FormatOfCall {
    Add,
    Sub,
    Mul,
    Div,
    Sqrt,
    MulAdd,
}

/// An operation whose result is rounded to odd.
#[derive(Clone, Copy)]
pub enum OddCall {
    /// Arithmetic in a format, or with the result in another.
    Arithmetic(FormatOfCall),
    /// A value of another format.
    Convert,
    /// A result that was rounded to odd, rounded again to another format.
    Again,
    /// The value as an integral value.
    RoundToIntegral,
    FromU128,
    FromI128,
    ToU128,
    ToI128,
}

/// A call on a block, or on the values of a tensor.
#[derive(Clone, Copy)]
pub enum BlockCall {
    Quantize,
    Dequantize,
    QuantizeNvfp4,
    DequantizeNvfp4,
    TensorScale,
}

/// A call on two values in the total order (5.10).
#[derive(Clone, Copy)]
pub enum OrderCall {
    TotalOrder,
    TotalOrderMag,
    TotalCmp,
}

/// A call on one value.
#[derive(Clone, Copy)]
pub enum GeneralCall {
    LogB,
    IntegerLogB,
    RoundToIntegralIn,
    Class,
    Radix,
    IsCanonical,
    IsCanonicalEncoding,
}

/// A conversion to an integer, with INEXACT or without it.
#[derive(Clone, Copy)]
pub enum ToIntegerCall {
    Signed,
    SignedExact,
    Unsigned,
    UnsignedExact,
}

/// An operation with two results, which are together the exact one.
#[derive(Clone, Copy)]
pub enum AugmentedCall {
    Add,
    Subtract,
    Multiply,
}

/// An operation on the payload of a NaN.
#[derive(Clone, Copy)]
pub enum PayloadCall {
    Get,
    Set,
    SetSignaling,
}

/// What a conversion that saturates makes the largest number of its sign.
#[derive(Clone, Copy)]
pub enum SaturateCall {
    /// Numbers that overflow.
    Numbers,
    /// Infinities too.
    Infinities,
    /// NaNs too, with sign plus.
    All,
}

/// An operation on flags.
#[derive(Clone, Copy)]
pub enum FlagsCall {
    Lower,
    Raise,
    Test,
    SaveAll,
    TestSaved,
    Restore,
}

// The operations whose names end in `_to` and `_odd`.
words! { ARITHMETIC: FormatOfCall {
    "add" Add  "sub" Sub  "mul" Mul  "div" Div  "sqrt" Sqrt  "mul_add" MulAdd
} }

// The minima and maxima, whose names end in `_of`, or `_number_of` if they prefer a number to a NaN.
words! { EXTREMA: Extremum {
    "minimum" Minimum  "maximum" Maximum  "minimum_magnitude" MinimumMagnitude  "maximum_magnitude" MaximumMagnitude
} }

words! { ODD_CALLS: OddCall {
    "convert_odd" Convert  "round_to_odd_integral" RoundToIntegral  "from_u128_odd" FromU128
    "from_i128_odd" FromI128  "to_u128_odd" ToU128  "to_i128_odd" ToI128  "round_odd_to" Again
} }

words! { GENERAL_CALLS: GeneralCall {
    "log_b" LogB  "integer_log_b" IntegerLogB  "round_to_integral_in" RoundToIntegralIn  "class_of" Class
    "radix" Radix  "is_canonical" IsCanonical  "is_canonical_encoding" IsCanonicalEncoding
} }

words! { BLOCK_CALLS: BlockCall {
    "quantize_block" Quantize  "dequantize_block" Dequantize  "quantize_nvfp4_block" QuantizeNvfp4
    "dequantize_nvfp4_block" DequantizeNvfp4  "tensor_scale" TensorScale
} }

words! { FLAGS_CALLS: FlagsCall {
    "lower_flags" Lower  "raise_flags" Raise  "test_flags" Test  "save_all_flags" SaveAll
    "test_saved_flags" TestSaved  "restore_flags" Restore
} }

// All other operations by their names, but for comparison predicates, and minima and maxima on machines.
static OPERATIONS: &[(&str, OperationCall)] = &[
    ("total_order", OperationCall::Order(OrderCall::TotalOrder)),
    ("total_order_mag", OperationCall::Order(OrderCall::TotalOrderMag)),
    ("total_cmp", OperationCall::Order(OrderCall::TotalCmp)),
    ("scale_b", OperationCall::ScaleB),
    ("convert_to_signed", OperationCall::ToInteger(ToIntegerCall::Signed)),
    ("convert_to_signed_exact", OperationCall::ToInteger(ToIntegerCall::SignedExact)),
    ("convert_to_unsigned", OperationCall::ToInteger(ToIntegerCall::Unsigned)),
    ("convert_to_unsigned_exact", OperationCall::ToInteger(ToIntegerCall::UnsignedExact)),
    ("write_digits", OperationCall::WriteDigits),
    ("digit_count", OperationCall::DigitCount),
    ("write_hex", OperationCall::WriteHex),
    ("write_hex_rounded", OperationCall::WriteHexRounded),
    ("augmented_add", OperationCall::Augmented(AugmentedCall::Add)),
    ("augmented_subtract", OperationCall::Augmented(AugmentedCall::Subtract)),
    ("augmented_multiply", OperationCall::Augmented(AugmentedCall::Multiply)),
    ("get_payload", OperationCall::OfPayload(PayloadCall::Get)),
    ("set_payload", OperationCall::OfPayload(PayloadCall::Set)),
    ("set_payload_signaling", OperationCall::OfPayload(PayloadCall::SetSignaling)),
    ("convert_saturate", OperationCall::Saturate(SaturateCall::Numbers)),
    ("convert_saturate_finite", OperationCall::Saturate(SaturateCall::Infinities)),
    ("convert_saturate_all", OperationCall::Saturate(SaturateCall::All)),
    ("convert_stochastic", OperationCall::ConvertStochastic),
    ("convert_stochastic_all", OperationCall::ConvertStochasticAll),
];

// The predicates by the ends of their names.
words! { PREDICATES: Predicate {
    "equal" Equal  "not_equal" NotEqual  "greater" Greater  "greater_equal" GreaterEqual  "less" Less
    "less_equal" LessEqual  "not_greater" NotGreater  "less_unordered" LessUnordered  "not_less" NotLess
    "greater_unordered" GreaterUnordered  "unordered" Unordered  "ordered" Ordered
} }

// The rules of machines by the ends of the names of their minima and maxima.
words! { RULES: MinimumRule {
    "second" Second  "second_quietly" SecondQuietly  "first_nan" FirstNan  "number_2008" Number2008
    "number_2019" Number2019  "propagated" Propagated
} }

/// The arithmetic of this name, such as `add_to`.
fn arithmetic_named(name: &str) -> Option<OperationCall> {
    let (name, end) = name.rsplit_once('_')?;
    match (found(ARITHMETIC, name)?, end) {
        (call, "to") => Some(OperationCall::InAnother(call)),
        (call, "odd") => Some(OperationCall::Odd(OddCall::Arithmetic(call))),
        _ => None,
    }
}

/// The minimum or the maximum of this name, such as `minimum_number_of`.
fn extremum_named(name: &str) -> Option<OperationCall> {
    let which = name.strip_suffix("_of")?;
    match which.strip_suffix("_number") {
        Some(which) => Some(OperationCall::Extremum(found(EXTREMA, which)?, true)),
        None => Some(OperationCall::Extremum(found(EXTREMA, which)?, false)),
    }
}

/// The comparison predicate of this name, such as `compare_quiet_less`.
fn comparison_named(name: &str) -> Option<OperationCall> {
    let (on_nan, predicate) = name.strip_prefix("compare_")?.split_once('_')?;
    let on_nan = match on_nan {
        "quiet" => OnNan::Quiet,
        "signaling" => OnNan::Signaling,
        _ => return None,
    };
    Some(OperationCall::Comparison(found(PREDICATES, predicate)?, on_nan))
}

/// The minimum or the maximum on a machine of this name, such as `least_second`.
fn extremum_on_machine_named(name: &str) -> Option<OperationCall> {
    let (is_least, rule) = match name.split_once('_')? {
        ("least", rule) => (true, rule),
        ("greatest", rule) => (false, rule),
        _ => return None,
    };
    Some(OperationCall::OnMachine(found(RULES, rule)?, is_least))
}

impl OperationCall {
    /// The operation of this name.
    pub fn named(name: &str) -> Option<OperationCall> {
        found(OPERATIONS, name)
            .or_else(|| found(ODD_CALLS, name).map(OperationCall::Odd))
            .or_else(|| found(GENERAL_CALLS, name).map(OperationCall::OfOne))
            .or_else(|| found(BLOCK_CALLS, name).map(OperationCall::OfBlock))
            .or_else(|| found(FLAGS_CALLS, name).map(OperationCall::OfFlags))
            .or_else(|| arithmetic_named(name))
            .or_else(|| extremum_named(name))
            .or_else(|| comparison_named(name))
            .or_else(|| extremum_on_machine_named(name))
    }

    /// The form of its operands.
    pub fn form(self) -> Form {
        match self {
            OperationCall::InAnother(call) => call.form(),
            OperationCall::Odd(call) => call.form(),
            OperationCall::Comparison(_, _)
            | OperationCall::Order(_)
            | OperationCall::Extremum(_, _)
            | OperationCall::Augmented(_)
            | OperationCall::OnMachine(_, _) => Form::TwoValues,
            OperationCall::OfOne(_)
            | OperationCall::DigitCount
            | OperationCall::WriteHex
            | OperationCall::OfPayload(_)
            | OperationCall::Saturate(_) => Form::OneValue,
            OperationCall::ConvertStochastic | OperationCall::ConvertStochasticAll => Form::ValueAndRandom,
            OperationCall::OfBlock(_) => Form::Text,
            OperationCall::WriteHexRounded => Form::ValueAndPlaces,
            OperationCall::ScaleB => Form::ValueAndExponent,
            OperationCall::ToInteger(_) => Form::ValueAndWidth,
            OperationCall::WriteDigits => Form::ValueAndDigits,
            OperationCall::OfFlags(call) => call.form(),
        }
    }

    /// Whether it takes a rounding mode.
    pub fn takes_mode(self) -> bool {
        match self {
            OperationCall::InAnother(_)
            | OperationCall::ScaleB
            | OperationCall::ToInteger(_)
            | OperationCall::WriteDigits
            | OperationCall::WriteHexRounded
            | OperationCall::Saturate(_)
            | OperationCall::Odd(OddCall::Again) => true,
            OperationCall::OfBlock(call) => !matches!(call, BlockCall::TensorScale),
            OperationCall::OfOne(call) => {
                matches!(call, GeneralCall::LogB | GeneralCall::RoundToIntegralIn)
            }
            _ => false,
        }
    }

    /// Whether it is one on flags, which has no format.
    pub fn is_of_flags(self) -> bool {
        matches!(self, OperationCall::OfFlags(_))
    }
}

impl FormatOfCall {
    /// The form of its operands.
    fn form(self) -> Form {
        match self {
            FormatOfCall::Sqrt => Form::OneValue,
            FormatOfCall::MulAdd => Form::ThreeValues,
            _ => Form::TwoValues,
        }
    }
}

impl OddCall {
    /// The form of its operands.
    fn form(self) -> Form {
        match self {
            OddCall::Arithmetic(call) => call.form(),
            OddCall::Convert | OddCall::RoundToIntegral => Form::OneValue,
            OddCall::Again => Form::ValueAndStatus,
            OddCall::FromU128 => Form::Unsigned,
            OddCall::FromI128 => Form::Signed,
            OddCall::ToU128 | OddCall::ToI128 => Form::ValueAndWidth,
        }
    }
}

impl FlagsCall {
    /// The form of its operands.
    fn form(self) -> Form {
        match self {
            FlagsCall::SaveAll => Form::OneStatus,
            FlagsCall::Restore => Form::ThreeStatuses,
            _ => Form::TwoStatuses,
        }
    }
}
