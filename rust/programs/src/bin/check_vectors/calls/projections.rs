//! Formats of IEEE P3109: conversions from and to formats, and calls on their values. Each pair of formats is code of
//! its own, so rows can name few others.

use crate::calls::storage::converted;
use crate::erased::formats_at_run_time::{BuiltInFormat, FlaggedFormat};
use crate::erased::p3109_formats::{Binary8P1UF, Binary8P3, Binary8P4, Binary8P5, Projected, Projection};
use crate::erased::rustc_apfloat::ieee::{DoubleS, Flagged, HalfS, IeeeFloat, Semantics, SingleS};
use crate::erased::rustc_apfloat::{Float, Round};
use crate::erased::small_formats::ConversionRound;
use crate::lines::{
    Answered, Call, CallFault, ConversionCall, OneValueCall, Operand, Request, RowAnswer, StorageName, TwoValuesCall,
    ValueField, mask, shown,
};

macro_rules! declared {
    ($($name:ident: $bits:literal, $precision:literal, $signed:literal, $extended:literal;)*) => {$(
        /// A format for rows alone.
        #[derive(Clone, Copy)]
        struct $name;

        impl Projection for $name {
            const BITS: usize = $bits;
            const PRECISION: usize = $precision;
            const SIGNED: bool = $signed;
            const EXTENDED: bool = $extended;
        }
    )*};
}

declared! {
    Binary3P1SF: 3, 1, true, false;
    Binary6P2UE: 6, 2, false, true;
    Binary8P4SF: 8, 4, true, false;
    Binary15P8SE: 15, 8, true, true;
}

/// A call in a format of P3109.
trait InProjection {
    /// Makes the call in the format `F`.
    fn in_projection<F: Projection>(self) -> Answered;
}

/// Makes a call in the format of this name.
fn run(name: StorageName, call: impl InProjection) -> Answered {
    match name.word {
        "binary8p3se" => call.in_projection::<Binary8P3>(),
        "binary8p4se" => call.in_projection::<Binary8P4>(),
        "binary8p5se" => call.in_projection::<Binary8P5>(),
        "binary8p1uf" => call.in_projection::<Binary8P1UF>(),
        "binary3p1sf" => call.in_projection::<Binary3P1SF>(),
        "binary6p2ue" => call.in_projection::<Binary6P2UE>(),
        "binary8p4sf" => call.in_projection::<Binary8P4SF>(),
        "binary15p8se" => call.in_projection::<Binary15P8SE>(),
        _ => Err(CallFault::Support),
    }
}

/// The lowest 16 bits.
fn code(bits: u128) -> u16 {
    (bits % 65536) as u16
}

/// What a conversion to such a format returns.
pub(crate) fn stored(source: BuiltInFormat, target: StorageName, bits: u128, mode: ConversionRound) -> Answered {
    let width = target.width;
    match source {
        BuiltInFormat::Half => run(target, Store { x: IeeeFloat::<HalfS>::from_bits(bits), mode, width }),
        BuiltInFormat::Single => run(target, Store { x: IeeeFloat::<SingleS>::from_bits(bits), mode, width }),
        _ => Err(CallFault::Support),
    }
}

/// A conversion to such a format.
struct Store<S: Semantics> {
    x: IeeeFloat<S>,
    mode: ConversionRound,
    width: usize,
}

impl<S: Semantics> InProjection for Store<S> {
    fn in_projection<F: Projection>(self) -> Answered {
        let mut loses_info = false;
        let answer = match self.mode {
            ConversionRound::Ieee(round) => Projected::<F>::from_value(self.x, round, &mut loses_info),
            mode => Projected::<F>::from_value_by(self.x, mode, &mut loses_info),
        };
        Ok(converted(u128::from(answer.value.to_bits()), self.width, answer.status, loses_info))
    }
}

/// What a conversion from such a format returns.
pub(crate) fn loaded(source: StorageName, target: FlaggedFormat, bits: u128, request: Request) -> Answered {
    let round = match request.call {
        Call::Conversion(ConversionCall::Convert) => Round::NearestTiesToEven,
        Call::Conversion(ConversionCall::ConvertR) => request.round,
        _ => return Err(CallFault::Support),
    };
    let load = Load { code: code(bits), round };
    match target {
        FlaggedFormat::BuiltIn(BuiltInFormat::Single) => run(source, LoadTo::<SingleS>(load, std::marker::PhantomData)),
        FlaggedFormat::BuiltIn(BuiltInFormat::Double) => run(source, LoadTo::<DoubleS>(load, std::marker::PhantomData)),
        _ => Err(CallFault::Support),
    }
}

/// A conversion from such a format.
struct Load {
    code: u16,
    round: Round,
}

/// The same, to the format `T`.
struct LoadTo<T>(Load, std::marker::PhantomData<T>);

impl<T: Flagged> InProjection for LoadTo<T> {
    fn in_projection<F: Projection>(self) -> Answered {
        let mut loses_info = false;
        let answer = Projected::<F>::from_bits(self.0.code).convert_r::<T>(self.0.round, &mut loses_info);
        Ok(converted(answer.value.to_bits(), T::BITS, answer.status, loses_info))
    }
}

/// What a call on values of such a format returns.
pub(crate) fn on_values(format: StorageName, request: Request) -> Answered {
    run(format, OnValues { request, width: format.width })
}

/// A call on values.
struct OnValues {
    request: Request,
    width: usize,
}

impl OnValues {
    /// An operand as a value.
    fn value<F: Projection>(&self, operand: Operand) -> Result<Projected<F>, CallFault> {
        match operand {
            Operand::Bits(bits) if bits <= mask(self.width) => Ok(Projected::from_bits(code(bits))),
            _ => Err(CallFault::Operand),
        }
    }
}

impl InProjection for OnValues {
    fn in_projection<F: Projection>(self) -> Answered {
        let x = self.value::<F>(self.request.operands.first)?;
        let bits = |value: Projected<F>| ValueField::Bits(u128::from(value.to_bits()), self.width);
        let field = match self.request.call {
            Call::OfOneValue(OneValueCall::NextUp) => bits(x.next_up()),
            Call::OfOneValue(OneValueCall::NextDown) => bits(x.next_down()),
            Call::OfOneValue(OneValueCall::Category) => ValueField::Text(shown(x.category())),
            Call::OfTwoValues(TwoValuesCall::PartialCmp) => {
                ValueField::Order(x.compare(self.value::<F>(self.request.operands.second)?))
            }
            _ => return Err(CallFault::Support),
        };
        Ok(RowAnswer::told(field))
    }
}
