//! The operations that are measured.

/// An operation.
#[derive(Clone, Copy)]
pub enum Operation {
    /// The sum of two numbers.
    Sum,
    /// The difference.
    Difference,
    /// The product.
    Product,
    /// The quotient.
    Quotient,
    /// The product of two numbers plus a third one.
    FusedSum,
    /// The remainder with the quotient rounded to the nearest integer.
    NearestRemainder,
    /// The remainder with the quotient truncated toward zero.
    TruncatedRemainder,
    /// The conversion to binary16.
    ToHalf,
    /// The conversion to binary32.
    ToSingle,
    /// The conversion to binary64.
    ToDouble,
    /// The conversion to a 64-bit integer, truncated toward zero.
    ToInteger,
    /// The conversion from a 128-bit integer.
    FromInteger,
    /// The reading of a text.
    Reading,
    /// From bits to a value, and back.
    Bits,
    /// The square root of a magnitude.
    SquareRoot,
    /// The product of two numbers in a format of any precision.
    WideProduct,
    /// The product of two numbers plus a third one in a format of any precision.
    WideFusedSum,
}

/// The operations that the Rust crate has too.
pub static OPERATIONS: [Operation; 14] = [
    Operation::Sum,
    Operation::Difference,
    Operation::Product,
    Operation::Quotient,
    Operation::FusedSum,
    Operation::NearestRemainder,
    Operation::TruncatedRemainder,
    Operation::ToHalf,
    Operation::ToSingle,
    Operation::ToDouble,
    Operation::ToInteger,
    Operation::FromInteger,
    Operation::Reading,
    Operation::Bits,
];

/// The operations that it does not have.
pub static FURTHER_OPERATIONS: [Operation; 3] =
    [Operation::SquareRoot, Operation::WideProduct, Operation::WideFusedSum];

impl Operation {
    /// The name of the operation in the output.
    pub fn name(self) -> &'static str {
        match self {
            Operation::Sum => "add",
            Operation::Difference => "sub",
            Operation::Product => "mul",
            Operation::Quotient => "div",
            Operation::FusedSum => "fma",
            Operation::NearestRemainder => "rem",
            Operation::TruncatedRemainder => "mod",
            Operation::ToHalf => "conv:half",
            Operation::ToSingle => "conv:single",
            Operation::ToDouble => "conv:double",
            Operation::ToInteger => "toint",
            Operation::FromInteger => "int",
            Operation::Reading => "parse",
            Operation::Bits => "bits",
            Operation::SquareRoot => "sqrt",
            Operation::WideProduct => "wide_mul",
            Operation::WideFusedSum => "wide_fma",
        }
    }

    /// Whether its result depends on a rounding mode.
    pub fn rounds(self) -> bool {
        !matches!(
            self,
            Operation::NearestRemainder | Operation::TruncatedRemainder | Operation::ToInteger | Operation::Bits
        )
    }
}
