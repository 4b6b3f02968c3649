//! Calls of the library beyond those of `Float`, with the types of this crate.

use crate::erased::{apfloat_base, apfloat_ieee};
use crate::ieee::{FlaggedS, IeeeFloat, Semantics};
use crate::status::{Status, StatusAnd, answered};

/// What the library takes in place of an argument of this crate.
pub(crate) trait Given {
    type Library;

    fn given(self) -> Self::Library;
}

/// What this crate returns in place of an answer of the library.
pub(crate) trait Returned {
    type Answer;

    fn returned(self) -> Self::Answer;
}

impl<S: Semantics> Given for IeeeFloat<S> {
    type Library = apfloat_ieee::IeeeFloat<FlaggedS<S>>;

    #[inline]
    fn given(self) -> Self::Library {
        self.inner()
    }
}

impl<S: Semantics> Returned for apfloat_ieee::IeeeFloat<FlaggedS<S>> {
    type Answer = IeeeFloat<S>;

    #[inline]
    fn returned(self) -> IeeeFloat<S> {
        IeeeFloat::of(self)
    }
}

impl Given for Status {
    type Library = apfloat_base::Status;

    #[inline]
    fn given(self) -> apfloat_base::Status {
        apfloat_base::Flags::from_bits_retain(self.bits())
    }
}

impl Returned for apfloat_base::Status {
    type Answer = Status;

    #[inline]
    fn returned(self) -> Status {
        self.into()
    }
}

impl<T: Given> Given for StatusAnd<T> {
    type Library = apfloat_base::StatusAnd<T::Library>;

    #[inline]
    fn given(self) -> Self::Library {
        self.status.given().and(self.value.given())
    }
}

impl<T: Returned> Returned for Option<T> {
    type Answer = Option<T::Answer>;

    #[inline]
    fn returned(self) -> Self::Answer {
        self.map(T::returned)
    }
}

impl<T: Returned> Returned for apfloat_base::StatusAnd<T> {
    type Answer = StatusAnd<T::Answer>;

    #[inline]
    fn returned(self) -> Self::Answer {
        answered(self).map(T::returned)
    }
}

/// Types that are the same in both.
macro_rules! same_types {
    ($($type:ty),* $(,)?) => {$(
        impl $crate::calls::Given for $type {
            type Library = Self;

            #[inline]
            fn given(self) -> Self {
                self
            }
        }

        impl $crate::calls::Returned for $type {
            type Answer = Self;

            #[inline]
            fn returned(self) -> Self {
                self
            }
        }
    )*};
}

same_types! { bool, i32, u16, u32, i128, u128, usize, crate::Round, core::cmp::Ordering }

/// Formats of the module `library`, the one of that name in the scope, whose trait has the same constants.
macro_rules! library_formats {
    ($Format:ident $constants:tt: $($name:ident)*) => {$(library_formats! { @ $Format $constants $name })*};
    (@ $Format:ident { $($constant:ident: $of:ty),* } $name:ident) => {
        impl $Format for $name {
            $(const $constant: $of = <$name as library::$Format>::$constant;)*
        }
    };
}

/// Functions of the module `library`, the one of that name in the scope: each with its formats, the target first if
/// there is one, and after `where` what is asserted of the arguments.
macro_rules! library_calls {
    ($(
        $(#[$attribute:meta])*
        fn $name:ident<$($format:ident),*>($($operand:ident: $of:ty),*) -> $returned:ty
        $(where $condition:expr => $words:literal)?;
    )*) => {$(
        $(#[$attribute])*
        #[inline]
        pub fn $name<$($format: Semantics),*>($($operand: $of),*) -> $returned {
            use $crate::calls::{Given as _, Returned as _};
            $(assert!($condition, $words);)?
            library::$name::<$($crate::ieee::FlaggedS<$format>),*>($($operand.given()),*).returned()
        }
    )*};
}
