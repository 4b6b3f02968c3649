//! The calls that rows can ask for, and their names.

use crate::lines::form::Form;
use crate::lines::operations::OperationCall;
use crate::lines::table::found;

/// A call, grouped by the operands that it takes.
#[derive(Clone, Copy)]
pub enum Call {
    /// No operand: a constant of the type.
    Constant(Constant),
    /// One value.
    OfOneValue(OneValueCall),
    /// One value, and whether it has a property.
    HasProperty(Property),
    /// Two values.
    OfTwoValues(TwoValuesCall),
    /// Two values; the result is assigned to the left one.
    Assigning(AssigningOperator),
    /// A value and an integer.
    OfValueAndInteger(IntegerCall),
    /// An integer, or the payload of a NaN.
    OfWord(WordCall),
    /// A text.
    OfText(TextCall),
    /// A decimal, or a value that is written as one.
    OfDecimal(DecimalCall),
    /// Values of a format; pairs do not have the call.
    OfFormat(FormatCall),
    /// A value of another type.
    Conversion(ConversionCall),
    /// An operation of IEEE 754-2019 that `Float` lacks; pairs do not have it.
    Operation(OperationCall),
}

/// A constant of a type.
#[derive(Clone, Copy)]
pub enum Constant {
    Bits,
    Precision,
    MaxExp,
    MinExp,
    Multiplies,
    Zero,
    Default,
    Infinity,
    Nan,
    Largest,
    Smallest,
    SmallestNormalized,
}

/// A call on one value.
#[derive(Clone, Copy)]
pub enum OneValueCall {
    RoundToIntegral,
    Sqrt,
    SqrtR,
    NextUp,
    NextDown,
    Neg,
    Abs,
    ThroughI128,
    ExactInverse,
    Frexp,
    FrexpR,
    Ilogb,
    ToBits,
    Category,
    Debug,
}

/// A property of a value.
#[derive(Clone, Copy)]
pub enum Property {
    Normal,
    Denormal,
    Integer,
    Negative,
    Finite,
    Infinite,
    Nan,
    Signaling,
    Zero,
    NonZero,
    FiniteNonZero,
    PosZero,
    NegZero,
    PosInfinity,
    NegInfinity,
    Smallest,
    SmallestNormalized,
    Largest,
}

/// A call on two values.
#[derive(Clone, Copy)]
pub enum TwoValuesCall {
    AddR,
    SubR,
    MulR,
    DivR,
    IeeeRem,
    CFmod,
    Add,
    Sub,
    Mul,
    Div,
    Rem,
    CopySign,
    Min,
    Max,
    Minimum,
    Maximum,
    Eq,
    BitwiseEq,
    PartialCmp,
    CmpAbsNormal,
}

/// An assigning operator.
#[derive(Clone, Copy)]
pub enum AssigningOperator {
    Add,
    Sub,
    Mul,
    Div,
    Rem,
}

/// A call on a value and an integer.
#[derive(Clone, Copy)]
pub enum IntegerCall {
    Scalbn,
    ScalbnR,
    ToU128,
    ToU128R,
    ToI128,
    ToI128R,
}

/// A call on an integer or a payload.
#[derive(Clone, Copy)]
pub enum WordCall {
    FromU128,
    FromU128R,
    FromI128,
    FromI128R,
    Qnan,
    Snan,
}

/// A call on a text.
#[derive(Clone, Copy)]
pub enum TextCall {
    FromStr,
    FromStrR,
}

/// A call of `apfloat_decimals`.
#[derive(Clone, Copy)]
pub enum DecimalCall {
    Read,
    Shortest,
    Rounded,
    Exact,
}

/// A call that only formats have.
#[derive(Clone, Copy)]
pub enum FormatCall {
    WideMulR,
    WideMulAddR,
    MulAdd,
    MulAddR,
    CFmodSteps,
}

/// A conversion from another type.
#[derive(Clone, Copy)]
pub enum ConversionCall {
    Convert,
    ConvertR,
    From,
}

// The calls by their names.
static CALLS: &[(&str, Call)] = &[
    ("BITS", Call::Constant(Constant::Bits)),
    ("PRECISION", Call::Constant(Constant::Precision)),
    ("MAX_EXP", Call::Constant(Constant::MaxExp)),
    ("MIN_EXP", Call::Constant(Constant::MinExp)),
    ("MULTIPLIES", Call::Constant(Constant::Multiplies)),
    ("zero", Call::Constant(Constant::Zero)),
    ("default", Call::Constant(Constant::Default)),
    ("infinity", Call::Constant(Constant::Infinity)),
    ("nan", Call::Constant(Constant::Nan)),
    ("largest", Call::Constant(Constant::Largest)),
    ("smallest", Call::Constant(Constant::Smallest)),
    ("smallest_normalized", Call::Constant(Constant::SmallestNormalized)),
    ("round_to_integral", Call::OfOneValue(OneValueCall::RoundToIntegral)),
    ("sqrt", Call::OfOneValue(OneValueCall::Sqrt)),
    ("sqrt_r", Call::OfOneValue(OneValueCall::SqrtR)),
    ("next_up", Call::OfOneValue(OneValueCall::NextUp)),
    ("next_down", Call::OfOneValue(OneValueCall::NextDown)),
    ("neg", Call::OfOneValue(OneValueCall::Neg)),
    ("abs", Call::OfOneValue(OneValueCall::Abs)),
    ("through_i128", Call::OfOneValue(OneValueCall::ThroughI128)),
    ("get_exact_inverse", Call::OfOneValue(OneValueCall::ExactInverse)),
    ("frexp", Call::OfOneValue(OneValueCall::Frexp)),
    ("frexp_r", Call::OfOneValue(OneValueCall::FrexpR)),
    ("ilogb", Call::OfOneValue(OneValueCall::Ilogb)),
    ("to_bits", Call::OfOneValue(OneValueCall::ToBits)),
    ("category", Call::OfOneValue(OneValueCall::Category)),
    ("debug", Call::OfOneValue(OneValueCall::Debug)),
    ("is_normal", Call::HasProperty(Property::Normal)),
    ("is_denormal", Call::HasProperty(Property::Denormal)),
    ("is_integer", Call::HasProperty(Property::Integer)),
    ("is_negative", Call::HasProperty(Property::Negative)),
    ("is_finite", Call::HasProperty(Property::Finite)),
    ("is_infinite", Call::HasProperty(Property::Infinite)),
    ("is_nan", Call::HasProperty(Property::Nan)),
    ("is_signaling", Call::HasProperty(Property::Signaling)),
    ("is_zero", Call::HasProperty(Property::Zero)),
    ("is_non_zero", Call::HasProperty(Property::NonZero)),
    ("is_finite_non_zero", Call::HasProperty(Property::FiniteNonZero)),
    ("is_pos_zero", Call::HasProperty(Property::PosZero)),
    ("is_neg_zero", Call::HasProperty(Property::NegZero)),
    ("is_pos_infinity", Call::HasProperty(Property::PosInfinity)),
    ("is_neg_infinity", Call::HasProperty(Property::NegInfinity)),
    ("is_smallest", Call::HasProperty(Property::Smallest)),
    ("is_smallest_normalized", Call::HasProperty(Property::SmallestNormalized)),
    ("is_largest", Call::HasProperty(Property::Largest)),
    ("add_r", Call::OfTwoValues(TwoValuesCall::AddR)),
    ("sub_r", Call::OfTwoValues(TwoValuesCall::SubR)),
    ("mul_r", Call::OfTwoValues(TwoValuesCall::MulR)),
    ("div_r", Call::OfTwoValues(TwoValuesCall::DivR)),
    ("ieee_rem", Call::OfTwoValues(TwoValuesCall::IeeeRem)),
    ("c_fmod", Call::OfTwoValues(TwoValuesCall::CFmod)),
    ("+", Call::OfTwoValues(TwoValuesCall::Add)),
    ("-", Call::OfTwoValues(TwoValuesCall::Sub)),
    ("*", Call::OfTwoValues(TwoValuesCall::Mul)),
    ("/", Call::OfTwoValues(TwoValuesCall::Div)),
    ("%", Call::OfTwoValues(TwoValuesCall::Rem)),
    ("copy_sign", Call::OfTwoValues(TwoValuesCall::CopySign)),
    ("min", Call::OfTwoValues(TwoValuesCall::Min)),
    ("max", Call::OfTwoValues(TwoValuesCall::Max)),
    ("minimum", Call::OfTwoValues(TwoValuesCall::Minimum)),
    ("maximum", Call::OfTwoValues(TwoValuesCall::Maximum)),
    ("eq", Call::OfTwoValues(TwoValuesCall::Eq)),
    ("bitwise_eq", Call::OfTwoValues(TwoValuesCall::BitwiseEq)),
    ("partial_cmp", Call::OfTwoValues(TwoValuesCall::PartialCmp)),
    ("cmp_abs_normal", Call::OfTwoValues(TwoValuesCall::CmpAbsNormal)),
    ("+=", Call::Assigning(AssigningOperator::Add)),
    ("-=", Call::Assigning(AssigningOperator::Sub)),
    ("*=", Call::Assigning(AssigningOperator::Mul)),
    ("/=", Call::Assigning(AssigningOperator::Div)),
    ("%=", Call::Assigning(AssigningOperator::Rem)),
    ("scalbn", Call::OfValueAndInteger(IntegerCall::Scalbn)),
    ("scalbn_r", Call::OfValueAndInteger(IntegerCall::ScalbnR)),
    ("to_u128", Call::OfValueAndInteger(IntegerCall::ToU128)),
    ("to_u128_r", Call::OfValueAndInteger(IntegerCall::ToU128R)),
    ("to_i128", Call::OfValueAndInteger(IntegerCall::ToI128)),
    ("to_i128_r", Call::OfValueAndInteger(IntegerCall::ToI128R)),
    ("from_u128", Call::OfWord(WordCall::FromU128)),
    ("from_u128_r", Call::OfWord(WordCall::FromU128R)),
    ("from_i128", Call::OfWord(WordCall::FromI128)),
    ("from_i128_r", Call::OfWord(WordCall::FromI128R)),
    ("qnan", Call::OfWord(WordCall::Qnan)),
    ("snan", Call::OfWord(WordCall::Snan)),
    ("from_str", Call::OfText(TextCall::FromStr)),
    ("from_str_r", Call::OfText(TextCall::FromStrR)),
    ("read_decimal", Call::OfDecimal(DecimalCall::Read)),
    ("shortest", Call::OfDecimal(DecimalCall::Shortest)),
    ("rounded", Call::OfDecimal(DecimalCall::Rounded)),
    ("exact", Call::OfDecimal(DecimalCall::Exact)),
    ("wide_mul_r", Call::OfFormat(FormatCall::WideMulR)),
    ("wide_mul_add_r", Call::OfFormat(FormatCall::WideMulAddR)),
    ("mul_add", Call::OfFormat(FormatCall::MulAdd)),
    ("mul_add_r", Call::OfFormat(FormatCall::MulAddR)),
    ("c_fmod_steps", Call::OfFormat(FormatCall::CFmodSteps)),
    ("convert", Call::Conversion(ConversionCall::Convert)),
    ("convert_r", Call::Conversion(ConversionCall::ConvertR)),
    ("from", Call::Conversion(ConversionCall::From)),
];

impl Call {
    /// The call of this name.
    pub fn named(name: &str) -> Option<Call> {
        match (found(CALLS, name), OperationCall::named(name)) {
            (Some(call), _) => Some(call),
            (None, Some(operation)) => Some(Call::Operation(operation)),
            (None, None) => None,
        }
    }

    /// The form of its operands.
    pub fn form(self) -> Form {
        match self {
            Call::Constant(_) => Form::Nothing,
            Call::OfOneValue(_) | Call::HasProperty(_) | Call::Conversion(_) => Form::OneValue,
            Call::OfTwoValues(_) | Call::Assigning(_) => Form::TwoValues,
            Call::OfValueAndInteger(call) => call.form(),
            Call::OfWord(call) => call.form(),
            Call::OfFormat(call) => call.form(),
            Call::OfText(_) => Form::Text,
            Call::OfDecimal(call) => call.form(),
            Call::Operation(call) => call.form(),
        }
    }
}

impl IntegerCall {
    /// The form of its operands.
    fn form(self) -> Form {
        match self {
            IntegerCall::Scalbn | IntegerCall::ScalbnR => Form::ValueAndExponent,
            _ => Form::ValueAndWidth,
        }
    }
}

impl WordCall {
    /// The form of its operand.
    fn form(self) -> Form {
        match self {
            WordCall::FromU128 | WordCall::FromU128R => Form::Unsigned,
            WordCall::FromI128 | WordCall::FromI128R => Form::Signed,
            WordCall::Qnan | WordCall::Snan => Form::Payload,
        }
    }
}

impl FormatCall {
    /// The form of its operands.
    fn form(self) -> Form {
        match self {
            FormatCall::WideMulAddR | FormatCall::MulAdd | FormatCall::MulAddR => Form::ThreeValues,
            FormatCall::WideMulR | FormatCall::CFmodSteps => Form::TwoValues,
        }
    }
}

impl DecimalCall {
    /// The form of its operands.
    fn form(self) -> Form {
        match self {
            DecimalCall::Read => Form::Text,
            DecimalCall::Rounded => Form::ValueAndCount,
            DecimalCall::Shortest | DecimalCall::Exact => Form::OneValue,
        }
    }
}
