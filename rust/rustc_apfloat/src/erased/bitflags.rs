//! What the library's crates use of the crate `bitflags`.

/// A flag of a set, with its name.
pub struct Flag<B: 'static> {
    pub name: &'static str,
    pub value: B,
}

impl<B: 'static> Flag<B> {
    pub fn name(&self) -> &'static str {
        self.name
    }

    pub fn value(&self) -> &B {
        &self.value
    }
}

/// A set of flags in the bits of an integer.
pub trait Flags: Copy + 'static {
    type Bits;

    fn flags<'a>() -> &'a [Flag<Self>];

    fn bits(&self) -> u8;

    fn from_bits_retain(bits: u8) -> Self;

    fn is_empty(&self) -> bool {
        self.bits() == 0
    }

    fn contains(&self, other: Self) -> bool {
        other.bits() & !self.bits() == 0
    }

    fn from_name(name: &str) -> Option<Self> {
        Self::flags().iter().find(|flag| flag.name == name).map(|flag| flag.value)
    }

    #[inline]
    fn union(self, other: Self) -> Self {
        Self::from_bits_retain(self.bits() | other.bits())
    }

    #[inline]
    fn intersection(self, other: Self) -> Self {
        Self::from_bits_retain(self.bits() & other.bits())
    }

    #[inline]
    fn difference(self, other: Self) -> Self {
        Self::from_bits_retain(self.bits() & !other.bits())
    }

    #[inline]
    fn intersects(&self, other: Self) -> bool {
        self.bits() & other.bits() != 0
    }
}

/// The constants of a set.
macro_rules! bitflag_items {
    (impl $name:ident: $bits:ty { $($(#[$attribute:meta])* const $flag:ident = $value:expr;)* }) => {
        impl $name {
            $($(#[$attribute])* pub const $flag: $name = $name($value);)*

            const FLAGS: &'static [$crate::erased::bitflags::Flag<$name>] = &[
                $($crate::erased::bitflags::Flag { name: stringify!($flag), value: $name::$flag },)*
            ];
        }
    };
}
pub(crate) use bitflag_items;
