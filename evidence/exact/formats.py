"""Formats: what a binary floating-point format is, and the formats that rows name."""

from dataclasses import dataclass, replace
from enum import Enum
from functools import cached_property


class NonFinite(Enum):
    """What a format has besides numbers."""

    IEEE754 = "infinities, and NaNs with payloads"
    NAN_ONLY = "no infinities, and one NaN of each sign"
    NAN_NEGATIVE_ZERO = "no infinities, no negative zero, and one NaN"


@dataclass(frozen=True)
class Format:
    """A binary format.

    Its quantum, 2^-scale, is its smallest positive value. Every number of the format is an
    integer count of quanta. With `ieee_flags` it raises OVERFLOW and UNDERFLOW by IEEE 754;
    otherwise it raises them as the Rust crate `rustc_apfloat` does.
    """

    name: str
    bits: int
    exponent_bits: int
    precision: int
    least_exponent: int
    greatest_exponent: int
    non_finite: NonFinite = NonFinite.IEEE754
    writes_integer_bit: bool = False
    tiny_before_rounding: bool = False
    ieee_flags: bool = False

    @cached_property
    def scale(self):
        """The quantum is 2^-scale."""
        return self.precision - 1 - self.least_exponent

    @cached_property
    def smallest_normalized(self):
        """The quanta of the smallest normal number."""
        return 1 << self.precision - 1

    @cached_property
    def largest(self):
        """The quanta of the largest number.

        Where there is one NaN of each sign, it takes the place of the greatest significand.
        """
        significand = (1 << self.precision) - 1
        if self.non_finite is NonFinite.NAN_ONLY:
            significand -= 1
        return significand << self.greatest_exponent - self.least_exponent

    @cached_property
    def has_infinity(self):
        """Whether the format has infinities."""
        return self.non_finite is NonFinite.IEEE754

    @cached_property
    def has_negative_zero(self):
        """Whether zeros and NaNs have a sign."""
        return self.non_finite is not NonFinite.NAN_NEGATIVE_ZERO

    @cached_property
    def payload_mask(self):
        """The digits of a NaN that can vary: those below the integer bit, or none."""
        return (1 << self.precision - 1) - 1 if self.has_infinity else 0

    @cached_property
    def quiet_bit(self):
        """The digit of a NaN's significand that makes it quiet, or 0."""
        return 1 << self.precision - 2 if self.has_infinity else 0

    @cached_property
    def quiet_digits(self):
        """The digits that all quiet NaNs have: also the integer bit where it is written."""
        return 3 << self.precision - 2 if self.writes_integer_bit else self.quiet_bit

    @cached_property
    def nan_base(self):
        """The significand of the one NaN of a format without infinities; otherwise 0."""
        if self.non_finite is NonFinite.NAN_ONLY:
            return (1 << self.precision - 1) - 1
        return 0

    @cached_property
    def greatest_field(self):
        """The greatest biased exponent."""
        return (1 << self.exponent_bits) - 1

    @cached_property
    def hexadecimal_digits(self):
        """How many hexadecimal digits the bits take."""
        return -(-self.bits // 4)


HALF = Format("half", 16, 5, 11, -14, 15)
SINGLE = Format("single", 32, 8, 24, -126, 127)
DOUBLE = Format("double", 64, 11, 53, -1022, 1023)
QUAD = Format("quad", 128, 15, 113, -16382, 16383)
BFLOAT = Format("bfloat", 16, 8, 8, -126, 127)
E5M2 = Format("e5m2", 8, 5, 3, -14, 15)
E4M3FN = Format("e4m3fn", 8, 4, 4, -6, 8, NonFinite.NAN_ONLY)
E4M3FNUZ = Format("e4m3fnuz", 8, 4, 4, -7, 7, NonFinite.NAN_NEGATIVE_ZERO)
E4M3 = Format("e4m3", 8, 4, 4, -6, 7)
E5M2FNUZ = Format("e5m2fnuz", 8, 5, 3, -15, 15, NonFinite.NAN_NEGATIVE_ZERO)
E4M3B11FNUZ = Format("e4m3b11fnuz", 8, 4, 4, -10, 4, NonFinite.NAN_NEGATIVE_ZERO)
TF32 = Format("tf32", 19, 8, 11, -126, 127)
X87 = Format("x87", 80, 15, 64, -16382, 16383, writes_integer_bit=True)

# The formats of the program `vectors`.
PROGRAM_FORMATS = (HALF, SINGLE, DOUBLE, QUAD, BFLOAT, E5M2, E4M3FN, E4M3FNUZ, X87)

# The formats of the other programs beside them.
LATER_FORMATS = (E4M3, E5M2FNUZ, E4M3B11FNUZ, TF32)

# What the precision control of an x87 rounds to. Rows write their values as bits of `x87`.
X87_SINGLE = Format("x87p24", 40, 15, 24, -16382, 16383, writes_integer_bit=True)
X87_DOUBLE = Format("x87p53", 69, 15, 53, -16382, 16383, writes_integer_bit=True)

# The wide formats of pairs of doubles. They have no bits.
FALLBACK = Format("fallback", 0, 0, 106, -969, 1023)
FALLBACK_EXTENDED = Format("fallbackext", 0, 0, 106, -1022, 1023)

# Formats as a user would declare them; most are at a limit of what a lawful format may have.
OWN_FORMATS = (
    Format("lim3", 0, 0, 3, -1, 3),
    Format("lim3nan", 0, 0, 3, -1, 3, NonFinite.NAN_ONLY),
    Format("lim3deep", 0, 0, 3, -(2**20), 3),
    Format("lim125", 0, 0, 125, -1, 125),
    Format("lim125deep", 0, 0, 125, -(2**20), 2**20),
    Format("seven", 7, 3, 4, -1, 4),
    Format("wide128", 128, 21, 107, 2 - 2**20, 2**20 - 1),
    Format("expl14", 14, 5, 8, -14, 15, writes_integer_bit=True),
    Format("nan10", 10, 5, 5, -14, 16, NonFinite.NAN_ONLY),
    Format("halftbr", 16, 5, 11, -14, 15, tiny_before_rounding=True),
    Format("fused63", 72, 9, 63, -254, 255),
)



def with_ieee_flags(known):
    """The same numbers with the flags of IEEE 754, tininess after or before rounding."""
    after = replace(known, name=f"{known.name}+ieee", ieee_flags=True)
    return after, replace(after, name=f"{after.name}+before", tiny_before_rounding=True)


_KNOWN = (*PROGRAM_FORMATS, *LATER_FORMATS, FALLBACK, FALLBACK_EXTENDED, *OWN_FORMATS)
_WITH_IEEE_FLAGS = [
    form for known in _KNOWN if not known.tiny_before_rounding for form in with_ieee_flags(known)
]

FORMATS = {known.name: known for known in (*_KNOWN, *_WITH_IEEE_FLAGS)}

FEWER_DIGITS = {
    known.name: known
    for base in (X87_SINGLE, X87_DOUBLE)
    for known in (base, *with_ieee_flags(base))
}
