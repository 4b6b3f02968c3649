//! `Status`, with the calls that `bitflags` 2 would give it, and a value with a status.

use crate::erased::apfloat_base;
use crate::erased::bitflags::Flags;
use core::fmt;
use core::ops::{BitAnd, BitAndAssign, BitOr, BitOrAssign, BitXor, BitXorAssign, Not, Sub, SubAssign};

/// The flags that an operation raises (IEEE 754-2019 7), as a set.
///
/// `OVERFLOW` and `UNDERFLOW` come with `INEXACT`.
#[must_use]
#[derive(Copy, Clone, PartialEq, Eq, PartialOrd, Ord)]
pub struct Status(u8);

impl Status {
    /// No flag.
    pub const OK: Self = Status(0x00);
    /// Invalid operation (7.2).
    pub const INVALID_OP: Self = Status(0x01);
    /// Division by zero (7.3).
    pub const DIV_BY_ZERO: Self = Status(0x02);
    /// Overflow (7.4).
    pub const OVERFLOW: Self = Status(0x04);
    /// Underflow (7.5).
    pub const UNDERFLOW: Self = Status(0x08);
    /// Inexact (7.6).
    pub const INEXACT: Self = Status(0x10);

    /// No flag.
    pub const fn empty() -> Self {
        Status(0)
    }

    /// All flags.
    pub const fn all() -> Self {
        Status(0x1f)
    }

    /// The bits of the set.
    pub const fn bits(&self) -> u8 {
        self.0
    }

    /// The set of these bits, if each is a flag's.
    pub const fn from_bits(bits: u8) -> Option<Self> {
        if bits & !Self::all().0 == 0 { Some(Status(bits)) } else { None }
    }

    /// The set of those of these bits that are flags'.
    pub const fn from_bits_truncate(bits: u8) -> Self {
        Status(bits & Self::all().0)
    }

    /// The set of these bits.
    pub const fn from_bits_retain(bits: u8) -> Self {
        Status(bits)
    }

    /// The flag of this name.
    pub fn from_name(name: &str) -> Option<Self> {
        if name == "OK" {
            return Some(Self::OK);
        }
        NAMES.iter().find(|(known, _)| *known == name).map(|(_, flag)| *flag)
    }

    /// Whether no flag is set.
    pub const fn is_empty(&self) -> bool {
        self.0 == 0
    }

    /// Whether all flags are set.
    pub const fn is_all(&self) -> bool {
        self.0 & Self::all().0 == Self::all().0
    }

    /// Whether a flag is in both sets.
    pub const fn intersects(&self, other: Self) -> bool {
        self.0 & other.0 != 0
    }

    /// Whether all flags of the other set are in this one.
    pub const fn contains(&self, other: Self) -> bool {
        self.0 & other.0 == other.0
    }

    /// Adds the flags of the other set.
    pub const fn insert(&mut self, other: Self) {
        self.0 |= other.0;
    }

    /// Takes out the flags of the other set.
    pub const fn remove(&mut self, other: Self) {
        self.0 &= !other.0;
    }

    /// Takes out the flags of the other set that are there, and adds those that are not.
    pub const fn toggle(&mut self, other: Self) {
        self.0 ^= other.0;
    }

    /// Adds or takes out the flags of the other set.
    pub const fn set(&mut self, other: Self, value: bool) {
        if value {
            self.insert(other);
        } else {
            self.remove(other);
        }
    }

    /// The flags that are in both sets.
    pub const fn intersection(self, other: Self) -> Self {
        Status(self.0 & other.0)
    }

    /// The flags that are in one of the sets.
    pub const fn union(self, other: Self) -> Self {
        Status(self.0 | other.0)
    }

    /// The flags that are not in the other set.
    pub const fn difference(self, other: Self) -> Self {
        Status(self.0 & !other.0)
    }

    /// The flags that are in only one of the sets.
    pub const fn symmetric_difference(self, other: Self) -> Self {
        Status(self.0 ^ other.0)
    }

    /// The flags that are not in the set.
    pub const fn complement(self) -> Self {
        Self::from_bits_truncate(!self.0)
    }

    /// Each flag of the set, and then its other bits, if there are any.
    pub const fn iter(&self) -> Iter {
        Iter { left: *self }
    }

    /// Each flag of the set, with its name.
    pub fn iter_names(&self) -> impl Iterator<Item = (&'static str, Self)> + use<> {
        let set = *self;
        NAMES.iter().copied().filter(move |(_, flag)| set.contains(*flag))
    }

    /// A value with this status.
    #[inline]
    pub fn and<T>(self, value: T) -> StatusAnd<T> {
        StatusAnd { status: self, value }
    }
}

const NAMES: [(&str, Status); 5] = [
    ("INVALID_OP", Status::INVALID_OP),
    ("DIV_BY_ZERO", Status::DIV_BY_ZERO),
    ("OVERFLOW", Status::OVERFLOW),
    ("UNDERFLOW", Status::UNDERFLOW),
    ("INEXACT", Status::INEXACT),
];

/// The flags of a set, one by one, and then its other bits.
#[derive(Clone, Debug)]
pub struct Iter {
    left: Status,
}

impl Iterator for Iter {
    type Item = Status;

    fn next(&mut self) -> Option<Status> {
        let first = self.left.iter_names().next().map_or(self.left, |(_, flag)| flag);
        self.left.remove(first);
        (!first.is_empty()).then_some(first)
    }
}

impl IntoIterator for Status {
    type Item = Status;
    type IntoIter = Iter;

    fn into_iter(self) -> Iter {
        self.iter()
    }
}

impl fmt::Debug for Status {
    /// `Status(OVERFLOW | INEXACT)`, `Status(0x0)`; with `#`, the flags have a line of their own.
    fn fmt(&self, f: &mut fmt::Formatter<'_>) -> fmt::Result {
        f.debug_tuple("Status").field(&Names(*self)).finish()
    }
}

/// The names of the flags of a set.
struct Names(Status);

impl fmt::Debug for Names {
    fn fmt(&self, f: &mut fmt::Formatter<'_>) -> fmt::Result {
        if self.0.is_empty() {
            f.write_str("0x0")?;
        }
        for (i, flag) in self.0.iter().enumerate() {
            f.write_str(if i == 0 { "" } else { " | " })?;
            match NAMES.iter().find(|(_, known)| *known == flag) {
                Some((name, _)) => f.write_str(name)?,
                None => write!(f, "{:#x}", flag.0)?,
            }
        }
        Ok(())
    }
}

macro_rules! set_operators {
    ($($trait:ident::$operator:ident, $assigning:ident::$assign:ident: $by:ident;)*) => {$(
        impl $trait for Status {
            type Output = Self;

            fn $operator(self, other: Self) -> Self {
                self.$by(other)
            }
        }

        impl $assigning for Status {
            fn $assign(&mut self, other: Self) {
                *self = self.$by(other);
            }
        }
    )*};
}

set_operators! {
    BitOr::bitor, BitOrAssign::bitor_assign: union;
    BitAnd::bitand, BitAndAssign::bitand_assign: intersection;
    BitXor::bitxor, BitXorAssign::bitxor_assign: symmetric_difference;
    Sub::sub, SubAssign::sub_assign: difference;
}

impl Not for Status {
    type Output = Self;

    fn not(self) -> Self {
        self.complement()
    }
}

macro_rules! numeric_formats {
    ($($trait:ident)*) => {$(
        impl fmt::$trait for Status {
            fn fmt(&self, f: &mut fmt::Formatter<'_>) -> fmt::Result {
                fmt::$trait::fmt(&self.0, f)
            }
        }
    )*};
}

numeric_formats! { Binary Octal LowerHex UpperHex }

impl Extend<Status> for Status {
    fn extend<T: IntoIterator<Item = Self>>(&mut self, sets: T) {
        for set in sets {
            self.insert(set);
        }
    }
}

impl FromIterator<Status> for Status {
    fn from_iter<T: IntoIterator<Item = Self>>(sets: T) -> Self {
        let mut all = Self::empty();
        all.extend(sets);
        all
    }
}

impl From<apfloat_base::Status> for Status {
    #[inline]
    fn from(status: apfloat_base::Status) -> Self {
        Status(status.bits())
    }
}

/// A value with the status of the operation that made it.
#[must_use]
#[derive(Copy, Clone, PartialEq, Eq, PartialOrd, Ord, Debug)]
pub struct StatusAnd<T> {
    /// The flags that the operation raised.
    pub status: Status,
    /// The result of the operation.
    pub value: T,
}

impl<T> StatusAnd<T> {
    /// The same status with the value that `f` returns.
    #[inline]
    pub fn map<F: FnOnce(T) -> U, U>(self, f: F) -> StatusAnd<U> {
        self.status.and(f(self.value))
    }
}

impl<T: fmt::Debug> StatusAnd<T> {
    /// The value of an operation that raised no flag.
    ///
    /// # Panics
    ///
    /// If it raised one.
    #[track_caller]
    pub fn unwrap(self) -> T {
        assert_eq!(self.status, Status::OK, "called `StatusAnd::unwrap()` on an error value. Value: {:?}", self.value);
        self.value
    }
}

/// The library's answer.
#[inline]
pub(crate) fn answered<T>(answer: apfloat_base::StatusAnd<T>) -> StatusAnd<T> {
    Status::from(answer.status).and(answer.value)
}

/// Sets a status variable to the status of an expression, or joins that status to it, and is the expression's value.
///
/// `unpack!(status =, e)` sets it, `unpack!(status |=, e)` joins.
#[macro_export]
macro_rules! unpack {
    ($status:ident |=, $e:expr) => {{
        let $crate::StatusAnd { status, value } = $e;
        $status |= status;
        value
    }};
    ($status:ident =, $e:expr) => {{
        let $crate::StatusAnd { status, value } = $e;
        $status = status;
        value
    }};
}
