//! What the sources of `check_vectors` call otherwise in the library: the same of the crate.

use crate::erased::formats_at_run_time::InFormat;
use crate::lines::{CallInFormat, FormatOfCall, Operand, Operands, RowFormat, value_of};
use rustc_apfloat::ieee::{IeeeFloat, Semantics};
use rustc_apfloat::more::IeeeMore;
use rustc_apfloat::{ExpInt, Float, FloatConvert, Round, StatusAnd};
use std::marker::PhantomData;

pub fn zero<F: Float>() -> F {
    F::ZERO
}

pub fn infinity<F: Float>() -> F {
    F::INFINITY
}

pub fn nan<F: Float>() -> F {
    F::NAN
}

pub fn smallest<F: Float>() -> F {
    F::SMALLEST
}

/// The crate has them in every format.
pub fn has_products<F: Float>() -> bool {
    true
}

pub fn wide_product<S: Semantics>(x: IeeeFloat<S>, y: IeeeFloat<S>, round: Round) -> StatusAnd<IeeeFloat<S>> {
    x.mul_r(y, round)
}

pub fn wide_fused_sum<S: Semantics>(
    x: IeeeFloat<S>,
    y: IeeeFloat<S>,
    z: IeeeFloat<S>,
    round: Round,
) -> StatusAnd<IeeeFloat<S>> {
    x.mul_add_r(y, z, round)
}

pub fn times_power<S: Semantics>(x: IeeeFloat<S>, power: ExpInt, round: Round) -> StatusAnd<IeeeFloat<S>> {
    x.scale_b(power, round)
}

pub fn remainder_in_steps<S: Semantics>(x: IeeeFloat<S>, y: IeeeFloat<S>) -> (StatusAnd<IeeeFloat<S>>, u32) {
    x.c_fmod_steps(y)
}

/// A value with its format: the crate has no such type, so it is an operand, which each call reads.
#[derive(Clone, Copy)]
pub struct AnyFloat {
    format: RowFormat,
    operand: Operand,
}

/// The value of an operand in a format, with that format.
pub fn any_value(format: RowFormat, operand: Operand) -> Option<AnyFloat> {
    format.run_plain(IsValue(operand)).then_some(AnyFloat { format, operand })
}

struct IsValue(Operand);

impl CallInFormat for IsValue {
    type Output = bool;

    fn made_in<S: Semantics>(self) -> bool {
        value_of::<IeeeFloat<S>>(self.0).is_some()
    }
}

impl AnyFloat {
    pub fn convert_to<T: Semantics>(self, round: Round, loses_info: &mut bool) -> StatusAnd<IeeeFloat<T>> {
        let conversion = Conversion { operand: self.operand, round, target: PhantomData };
        let (answer, is_lost) = match self.format {
            RowFormat::BuiltIn(format, _) => format.run(conversion),
            RowFormat::Other(format) => format.run(conversion),
        };
        *loses_info = is_lost;
        answer
    }

    /// An operation on this value and others of its format, with the result in another.
    fn in_another<T: Semantics>(
        self,
        call: FormatOfCall,
        others: [Option<AnyFloat>; 2],
        round: Round,
    ) -> StatusAnd<IeeeFloat<T>> {
        let RowFormat::BuiltIn(format, _) = self.format else { panic!("rows have these operands in built-in formats") };
        let [second, third] = others.map(|other| other.map_or(Operand::Nothing, |other| other.operand));
        let operands = Operands { first: self.operand, second, third };
        format.run(InAnother { call, operands, round, target: PhantomData })
    }
}

macro_rules! in_another {
    ($($name:ident: $call:ident($($other:ident),*);)*) => {
        impl AnyFloat {
            $(pub fn $name<T: Semantics>(self, $($other: AnyFloat,)* round: Round) -> StatusAnd<IeeeFloat<T>> {
                let mut others = [$(Some($other)),*].into_iter();
                self.in_another(FormatOfCall::$call, [others.next().flatten(), others.next().flatten()], round)
            })*
        }
    };
}

in_another! {
    add_to: Add(y);
    sub_to: Sub(y);
    mul_to: Mul(y);
    div_to: Div(y);
    sqrt_to: Sqrt();
    mul_add_to: MulAdd(y, z);
}

struct Conversion<T> {
    operand: Operand,
    round: Round,
    target: PhantomData<T>,
}

impl<T: Semantics> Conversion<T> {
    fn from<S: Semantics>(self) -> (StatusAnd<IeeeFloat<T>>, bool) {
        let x: IeeeFloat<S> = value_of(self.operand).unwrap();
        let mut loses_info = false;
        (x.convert_r(self.round, &mut loses_info), loses_info)
    }
}

impl<T: Semantics> InFormat for Conversion<T> {
    type Output = (StatusAnd<IeeeFloat<T>>, bool);

    fn in_format<S: Semantics>(self) -> Self::Output {
        self.from::<S>()
    }
}

impl<T: Semantics> CallInFormat for Conversion<T> {
    type Output = (StatusAnd<IeeeFloat<T>>, bool);

    fn made_in<S: Semantics>(self) -> Self::Output {
        // Values of a format that is not built in are converted to formats without the flags of IEEE 754 alone.
        if T::IEEE_FLAGS {
            unreachable!()
        }
        self.from::<S>()
    }
}

struct InAnother<T> {
    call: FormatOfCall,
    operands: Operands,
    round: Round,
    target: PhantomData<T>,
}

impl<T: Semantics> InFormat for InAnother<T> {
    type Output = StatusAnd<IeeeFloat<T>>;

    fn in_format<S: Semantics>(self) -> Self::Output {
        let value = |operand| value_of::<IeeeFloat<S>>(operand).unwrap();
        let Operands { first, second, third } = self.operands;
        let (x, round) = (value(first), self.round);
        match self.call {
            FormatOfCall::Add => x.add_to(value(second), round),
            FormatOfCall::Sub => x.sub_to(value(second), round),
            FormatOfCall::Mul => x.mul_to(value(second), round),
            FormatOfCall::Div => x.div_to(value(second), round),
            FormatOfCall::Sqrt => x.sqrt_to(round),
            FormatOfCall::MulAdd => x.mul_add_to(value(second), value(third), round),
        }
    }
}
