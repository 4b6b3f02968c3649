//! The formats that rows can name, and calls in them.

use crate::erased::commands::custom_formats::{
    BroadS, DeepS, FusedLimitS, LeastFiniteS, LeastS, PreciseS, SevenS, TenS, VastS, WrittenBitS,
};
use crate::erased::formats_at_run_time::{
    BuiltInFormat, BuiltInKind, FlaggedFormat, IeeeFormat, InFlaggedFormat, InFormat,
};
use crate::erased::rustc_apfloat::ieee::{Flagged, HalfS, Semantics, TinyBefore};
use crate::erased::rustc_apfloat::ppc::{FallbackExtendedS, FallbackS};
use crate::lines::table::found;

/// A call that can be made in every format, with bits or without, under any rule of flags.
pub trait CallInFormat {
    /// What the call returns.
    type Output;

    /// Makes the call in the format `S`.
    fn made_in<S: Flagged>(self) -> Self::Output;
}

/// A call that is made in a format with bits.
struct WithBits<C>(C);

impl<C: CallInFormat> InFormat for WithBits<C> {
    type Output = C::Output;

    fn in_format<S: Semantics>(self) -> C::Output {
        self.0.made_in::<S>()
    }
}

impl<C: CallInFormat> InFlaggedFormat for WithBits<C> {
    type Output = C::Output;

    fn in_flagged_format<S: Flagged>(self) -> C::Output {
        self.0.made_in::<S>()
    }
}

/// A format that rows can name.
#[derive(Clone, Copy)]
pub enum RowFormat {
    /// A built-in format with bits, alone and with its rule of flags.
    BuiltIn(BuiltInFormat, FlaggedFormat),
    /// Another format.
    Other(OtherFormat),
}

/// A format that is not built in, or has no bits.
#[derive(Clone, Copy)]
pub enum OtherFormat {
    Fallback,
    FallbackExtended,
    Least,
    LeastFinite,
    Deep,
    Precise,
    Vast,
    Seven,
    Broad,
    WrittenBit,
    Ten,
    HalfTinyBefore,
    FusedLimit,
}

static OTHER_FORMATS: &[(&str, OtherFormat)] = &[
    ("fallback", OtherFormat::Fallback),
    ("fallbackext", OtherFormat::FallbackExtended),
    ("lim3", OtherFormat::Least),
    ("lim3nan", OtherFormat::LeastFinite),
    ("lim3deep", OtherFormat::Deep),
    ("lim125", OtherFormat::Precise),
    ("lim125deep", OtherFormat::Vast),
    ("seven", OtherFormat::Seven),
    ("wide128", OtherFormat::Broad),
    ("expl14", OtherFormat::WrittenBit),
    ("nan10", OtherFormat::Ten),
    ("halftbr", OtherFormat::HalfTinyBefore),
    ("fused63", OtherFormat::FusedLimit),
];

impl RowFormat {
    /// A built-in format with the flags of the built-in formats.
    pub fn plain(format: BuiltInFormat) -> RowFormat {
        RowFormat::BuiltIn(format, FlaggedFormat::BuiltIn(format))
    }

    /// The format of this word.
    pub fn named(word: &str) -> Option<RowFormat> {
        match found(OTHER_FORMATS, word) {
            Some(format) => Some(RowFormat::Other(format)),
            None => built_in_named(word),
        }
    }

    /// Whether the format has the rule of flags of the built-in formats.
    pub fn is_plain(self) -> bool {
        match self {
            RowFormat::BuiltIn(_, FlaggedFormat::BuiltIn(_)) | RowFormat::Other(_) => true,
            RowFormat::BuiltIn(_, _) => false,
        }
    }

    /// The width of the format in bits, if it has bits.
    pub fn width(self) -> Option<usize> {
        self.run_plain(Width)
    }

    /// Makes a call in the format, with the flags of the built-in formats.
    pub fn run_plain<C: CallInFormat>(self, call: C) -> C::Output {
        match self {
            RowFormat::BuiltIn(format, _) => format.run(WithBits(call)),
            RowFormat::Other(format) => format.run(call),
        }
    }

    /// Makes a call in the format.
    pub fn run<C: CallInFormat>(self, call: C) -> C::Output {
        match self {
            RowFormat::BuiltIn(_, format) => format.run(WithBits(call)),
            RowFormat::Other(format) => format.run(call),
        }
    }
}

/// The call that returns the width of a format in bits, if it has bits.
struct Width;

impl CallInFormat for Width {
    type Output = Option<usize>;

    fn made_in<S: Flagged>(self) -> Option<usize> {
        if S::PRECISION < S::BITS { Some(S::BITS) } else { None }
    }
}

/// The built-in format of this word, with the rule of flags after a `+`.
fn built_in_named(word: &str) -> Option<RowFormat> {
    let (name, rule) = word.split_once('+').unwrap_or((word, ""));
    let kind = BuiltInKind::named(name)?;
    let format = kind.format()?;
    match (rule, IeeeFormat::of(kind)) {
        ("", _) if name == word => Some(RowFormat::plain(format)),
        ("ieee", Some(ieee)) => Some(RowFormat::BuiltIn(format, FlaggedFormat::AfterRounding(ieee))),
        ("ieee+before", Some(ieee)) => Some(RowFormat::BuiltIn(format, FlaggedFormat::BeforeRounding(ieee))),
        _ => None,
    }
}

impl OtherFormat {
    /// Makes a call in the format.
    pub fn run<C: CallInFormat>(self, call: C) -> C::Output {
        match self {
            OtherFormat::Fallback => call.made_in::<FallbackS>(),
            OtherFormat::FallbackExtended => call.made_in::<FallbackExtendedS>(),
            OtherFormat::Least => call.made_in::<LeastS>(),
            OtherFormat::LeastFinite => call.made_in::<LeastFiniteS>(),
            OtherFormat::Deep => call.made_in::<DeepS>(),
            OtherFormat::Precise => call.made_in::<PreciseS>(),
            OtherFormat::Vast => call.made_in::<VastS>(),
            OtherFormat::Seven => call.made_in::<SevenS>(),
            OtherFormat::Broad => call.made_in::<BroadS>(),
            OtherFormat::WrittenBit => call.made_in::<WrittenBitS>(),
            OtherFormat::Ten => call.made_in::<TenS>(),
            OtherFormat::HalfTinyBefore => call.made_in::<TinyBefore<HalfS>>(),
            OtherFormat::FusedLimit => call.made_in::<FusedLimitS>(),
        }
    }
}
