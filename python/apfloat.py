"""Software floating point in any of fourteen formats, correctly rounded, with exact flags.

The arithmetic is that of the shared library libapfloat.so, in the folder of this file, or of the file that the
environment variable APFLOAT_LIBRARY names. `pip install ./python` builds and installs it with this module;
packaging/install makes one of the library for C, whose functions are proved.

A format makes values from texts, integers, Python's floats and values of other formats. A whole number below 10^16 is
shown in full, and any other number as the shortest decimal that its format reads as it:

>>> x = half('1.5')
>>> x
half('1.5')
>>> x + 1, x.hex(), half('0x1.8p0') == x
(half('2.5'), '0x1.8p+0', True)
>>> half(2049), half(0.1), quad('0.1'), quad(0.1)
(half('2048.0'), half('0.1'), quad('0.1'), quad('0.1000000000000000055511151231257827'))
>>> double(0.1).bits == double('1e-1').bits == 0x3fb999999999999a
True

Each operation rounds once, in the mode of the context, and adds its flags to those of the context:

>>> with Context(mode=UPWARD) as context:
...     third = single(1) / 3
>>> third
single('0.33333334')
>>> context.flags, context.inexact
(<Flags.INEXACT: 16>, True)
>>> with Context() as context:
...     half(1) / 0
half('inf')
>>> context.flags
<Flags.DIV_BY_ZERO: 2>

A format raises the flags of IEEE 754-2019 in every mode if it is written half.ieee, with tininess detected before
rounding if it is written half.ieee.before; e4m3, tf32, double_pair and the formats without infinities have no such
choice.

An array has values of one format and any number of axes. It is made of nested lists or of a numpy array, whose numbers
it rounds once each, and turned into a numpy array of the same numbers:

>>> single.array([[0.5, 3], [1e6, -7]]).to(half) + 1
half.array([['1.5', '4.0'], ['inf', '-6.0']])

Storage formats, of 4, 6 and 8 bits, have arrays alone, without operations:

>>> float4_e2m1fn.array(single.array([0.7, -5, 1000]))
float4_e2m1fn.array([0.5, -4.0, 6.0])

Both operands of an operation have the same format; integers and floats are converted to it if that is exact:

>>> half(1) + single(1)
Traceback (most recent call last):
...
TypeError: half and single: convert one of them
>>> half(1) + 0.1
Traceback (most recent call last):
...
ValueError: 0.1 is not a value of half

Comparisons are exact, with values of any format and with integers, floats and fractions, and equal ones have equal
hashes:

>>> half(1) == 1 == single(1), half('0.1') == 0.1, half('0.1') < 0.1, {0.5: 'a half'}[half(0.5)]
(True, False, True, 'a half')
"""

from __future__ import annotations

import array
import collections
import contextvars
import ctypes
import dataclasses
import decimal
import enum
import fractions
import functools
import itertools
import math
import operator
import os
import re
import struct
import sys
import types
from typing import (
    Any, Callable, Generic, Iterable, Iterator, NamedTuple, Self, Sequence, TypeVar, Union, cast, overload,
)

__version__ = '0.1.0'

__all__ = [
    'Array', 'Blocks', 'Context', 'DOWNWARD', 'Fate', 'Flags', 'Format', 'Machine', 'Mask', 'NEAREST_AWAY',
    'NEAREST_EVEN', 'Nvfp4Blocks', 'Refused', 'Report', 'Rounding', 'StorageFormat', 'StoredArray', 'TOWARD_ZERO',
    'UPWARD', 'Value',
    'bfloat', 'bfloat16', 'context', 'double', 'double_pair', 'e4m3', 'e4m3b11fnuz', 'e4m3fn', 'e4m3fnuz', 'e5m2',
    'e5m2fnuz',
    'float4_e2m1fn', 'float6_e2m3fn', 'float6_e3m2fn', 'float8_e3m4', 'float8_e4m3', 'float8_e4m3b11fnuz',
    'float8_e4m3fn', 'float8_e4m3fnuz', 'float8_e5m2', 'float8_e5m2fnuz', 'float8_e8m0fnu', 'finfo', 'half',
    'machine', 'made_by', 'mx', 'nvfp4', 'p3109', 'quad', 'report', 'single', 'tf32', 'ue4m3', 'x87',
]


class Rounding(enum.IntEnum):
    """The rounding modes of IEEE 754-2019 4.3."""

    NEAREST_EVEN = 0
    UPWARD = 1
    DOWNWARD = 2
    TOWARD_ZERO = 3
    NEAREST_AWAY = 4


NEAREST_EVEN = Rounding.NEAREST_EVEN
UPWARD = Rounding.UPWARD
DOWNWARD = Rounding.DOWNWARD
TOWARD_ZERO = Rounding.TOWARD_ZERO
NEAREST_AWAY = Rounding.NEAREST_AWAY


class Flags(enum.IntFlag):
    """The flags of IEEE 754-2019 7; OK is none of them."""

    OK = 0
    INVALID_OP = 1
    DIV_BY_ZERO = 2
    OVERFLOW = 4
    UNDERFLOW = 8
    INEXACT = 16


def _raised(flag: Flags) -> property:
    """Whether a flag was raised, as a property."""
    return property(lambda context: flag in context.flags, doc=f'Whether {flag.name} was raised.')


class Context:
    """A rounding mode, and the flags that operations raised in its `with` block.

    >>> with Context(mode=TOWARD_ZERO) as context:
    ...     half(65504) + half(65504)
    half('65504.0')
    >>> context.inexact, context.overflow
    (True, False)
    >>> context.clear_flags()
    >>> context
    Context(mode=TOWARD_ZERO, flags=OK)
    """

    mode: int
    flags: Flags

    def __init__(self, mode: int = NEAREST_EVEN) -> None:
        self.mode = Rounding(mode)
        self.flags = Flags.OK
        self._tokens: list[contextvars.Token[Context]] = []

    def __enter__(self) -> Self:
        self._tokens.append(_context.set(self))
        return self

    def __exit__(self, *_: object) -> None:
        _context.reset(self._tokens.pop())

    def __repr__(self) -> str:
        flags = '|'.join(str(flag.name) for flag in Flags if flag and flag in self.flags)
        return f'Context(mode={Rounding(self.mode).name}, flags={flags or "OK"})'

    def clear_flags(self) -> None:
        """Lowers all flags."""
        self.flags = Flags.OK

    invalid_op = _raised(Flags.INVALID_OP)
    div_by_zero = _raised(Flags.DIV_BY_ZERO)
    overflow = _raised(Flags.OVERFLOW)
    underflow = _raised(Flags.UNDERFLOW)
    inexact = _raised(Flags.INEXACT)


_context = contextvars.ContextVar('apfloat', default=Context())


def context() -> Context:
    """The context in force: that of the innermost `with` block, or the program's own."""
    return _context.get()


# ---- the shared library

class _Halves(ctypes.Structure):
    low: int
    high: int
    _fields_ = [('low', ctypes.c_uint64), ('high', ctypes.c_uint64)]


class _Answer(ctypes.Structure):
    bits: _Halves
    status: int
    number: int
    _fields_ = [('bits', _Halves), ('status', ctypes.c_uint32), ('number', ctypes.c_int32)]


class _P3109(ctypes.Structure):
    _fields_ = [(name, ctypes.c_uint32) for name in ('bits', 'precision', 'is_signed', 'is_extended')]


class _Text(ctypes.Structure):
    bytes: bytes
    length: int
    _fields_ = [('bytes', ctypes.c_char * 64), ('length', ctypes.c_uint32)]


# What a call on arrays counts.
_COUNTED = ('values', 'inexact', 'underflow', 'overflow', 'div_by_zero', 'invalid_op', 'nans')


class _ArrayAnswer(ctypes.Structure):
    status: int
    _fields_ = [(name, ctypes.c_uint64) for name in _COUNTED] + [
        ('status', ctypes.c_uint32), ('reserved', ctypes.c_uint32)]


def _parameters() -> dict[str, list[Any]]:
    """The types of the arguments of each function that is used, as apfloat.h declares them."""
    code, power, length, answer = ctypes.c_uint32, ctypes.c_int32, ctypes.c_size_t, ctypes.POINTER(_Answer)
    text = array = [ctypes.c_char_p, length]
    return {
        **dict.fromkeys(('add', 'sub', 'mul', 'div'), [code, code, _Halves, _Halves, answer]),
        'fma': [code, code, _Halves, _Halves, _Halves, answer],
        **dict.fromkeys(('sqrt', 'from_i128', 'round_to_integral', 'frexp', 'log_b', 'integral'),
                        [code, code, _Halves, answer]),
        **dict.fromkeys(('rem', 'mod', 'compare', 'copy_sign', 'min', 'max', 'minimum', 'maximum', 'total_order'),
                        [code, _Halves, _Halves, answer]),
        **dict.fromkeys(('ilogb', 'next_up', 'next_down', 'classify', 'is_negative'), [code, _Halves, answer]),
        **dict.fromkeys(('qnan', 'snan'), [code, code, _Halves, answer]),
        'convert': [code, code, code, _Halves, answer],
        'to_storage': [code, code, code, _Halves, answer],
        'from_storage': [code, code, code, code, answer],
        'storage_operation': [code, code, code, code, code, code, answer],
        'to_p3109': [code, code, _P3109, _Halves, answer],
        'to_p3109_by': [code, code, _P3109, code, code, _Halves, answer],
        'from_p3109': [_P3109, code, code, code, answer],
        'to_storage_by': [code, code, code, code, code, _Halves, answer],
        'convert_array_by': [code, code, code, code, *array * 3, ctypes.POINTER(_ArrayAnswer)],
        'to_i128': [code, code, _Halves, code, answer],
        **dict.fromkeys(('scalbn', 'scale_b'), [code, code, _Halves, power, answer]),
        **dict.fromkeys(('compare_predicate', 'extremum'), [code, code, code, _Halves, _Halves, answer]),
        'to_format': [code, code, code, code, _Halves, _Halves, _Halves, answer],
        'machine': [code, code, code, code, code, _Halves, _Halves, _Halves, answer],
        **dict.fromkeys(('parse', 'read_decimal'), [code, code, *text, answer]),
        'write_digits': [code, code, _Halves, *array, answer],
        'digit_count': [code, _Halves, answer],
        'write_hex_rounded': [code, code, code, _Halves, *array, answer],
        **dict.fromkeys(('pair_to_format', 'pair_from_format'), [code, code, _Halves, answer]),
        'pair_fma': [code, _Halves, _Halves, _Halves, answer],
        'pair_shortest': [_Halves, ctypes.POINTER(_Text)],
        'augmented': [code, code, _Halves, _Halves, ctypes.POINTER(_Halves), answer],
        'payload': [code, code, _Halves, answer],
        'to_text': [code, _Halves, ctypes.POINTER(_Text)],
        'error_text': [code, ctypes.POINTER(_Text)],
        'made_by': [],
        'convert_array': [code, code, code, *array * 2, ctypes.POINTER(_ArrayAnswer)],
        'convert_array_by_table': [code, code, code, *array * 3, ctypes.POINTER(_ArrayAnswer)],
        'map_array': [code, code, code, *array * 4, ctypes.POINTER(_ArrayAnswer)],
        'map_array_by_table': [code, code, code, *array * 5, ctypes.POINTER(_ArrayAnswer)],
        **dict.fromkeys(('sum', 'sum_abs', 'sum_square'), [code, code, *array, answer]),
        'dot': [code, code, *array * 2, answer],
        'dot_blocks': [code, code, *[code, code, length, *array * 2] * 2, answer],
        **dict.fromkeys(('quantize_blocks', 'dequantize_blocks', 'quantize_nvfp4', 'dequantize_nvfp4'),
                        [code, code, code, length, *array * 3, ctypes.POINTER(_ArrayAnswer)]),
        **dict.fromkeys(('pack_codes', 'unpack_codes'), [code, *array * 2]),
    }


def _library() -> ctypes.CDLL:
    """The shared library, each function with the types of its arguments."""
    name = {'darwin': 'libapfloat.dylib', 'win32': 'apfloat.dll'}.get(sys.platform, 'libapfloat.so')
    beside = os.path.join(os.path.dirname(os.path.abspath(__file__)), name)
    path = os.environ.get('APFLOAT_LIBRARY') or beside
    remedy = ('`pip install ./python`, in a checkout, builds the library and installs it with this module. Or set '
              'APFLOAT_LIBRARY to the file of a library that is built: packaging/install makes one.')
    try:
        library = ctypes.CDLL(path)
        for function, types in _parameters().items():
            getattr(library, 'apfloat_' + function).argtypes = types
            getattr(library, 'apfloat_' + function).restype = ctypes.c_uint32
    except (OSError, AttributeError) as error:
        raise ImportError(f'the shared library of apfloat is missing, or of another version: {error}\n{remedy}',
                          name='apfloat', path=path) from None
    return library


_functions = _library()

made_by = {1: 'rt', 2: 'rustc'}[_functions.apfloat_made_by()]
"""What made the library: `rt`, the toolchain that proves it, or `rustc`, of whose library no proof is claimed."""


def _error_text(code: int) -> str:
    """The library's text for one of its error codes."""
    text = _Text()
    if _functions.apfloat_error_text(code, ctypes.byref(text)):
        return f'code {code}'
    return text.bytes.decode()


class Refused(ValueError):
    """The library refused a call, with the error code `code` of apfloat.h.

    >>> half('one')
    Traceback (most recent call last):
    ...
    apfloat.Refused: the text was refused
    """

    def __init__(self, code: int, text: str | None = None) -> None:
        super().__init__(text or _error_text(code))
        self.code = code

    def __reduce__(self) -> tuple[Any, ...]:
        return Refused, (self.code, str(self))


def _halves(bits: int) -> _Halves:
    return _Halves(bits & (1 << 64) - 1, bits >> 64 & (1 << 64) - 1)


def _whole(halves: _Halves) -> int:
    return halves.high << 64 | halves.low


def _answered(name: str, *arguments: Any) -> _Answer:
    """The answer of a function of the library."""
    answer = _Answer()
    code = getattr(_functions, 'apfloat_' + name)(*arguments, ctypes.byref(answer))
    if code:
        raise Refused(code)
    return answer


def _call(name: str, *arguments: Any) -> _Answer:
    """The answer of a function of the library; its flags are added to those of the context."""
    answer = _answered(name, *arguments)
    context().flags |= Flags(answer.status)
    return answer


# ---- formats

# The bits of a code that name the format; those above choose its flags.
_FORMAT_BITS, _IEEE_FLAGS, _TINY_BEFORE_ROUNDING = 0xff, 0x100, 0x200
# The codes of the formats that have the choice.
_WITH_IEEE_FLAGS = {1, 2, 3, 4, 5, 6, 9}


class Format:
    """A format of values; calling it makes one.

    >>> half(1).bits
    15360
    >>> half.from_bits(0x3c01)
    half('1.001')
    """

    def __init__(self, name: str, code: int, width: int, precision: int, exponent_bits: int,
                 plain: Format | None = None) -> None:
        self.name, self.code, self.width = name, code, width
        self._precision, self._exponent_bits = precision, exponent_bits
        self._has_integer_bit = code & _FORMAT_BITS == 9
        # The bit of a value's sign; of a pair, that of its high double.
        self._sign_bit = 1 << (63 if code == 10 else width - 1)
        # The format itself, without a choice of flags.
        self._plain = plain or self

    def __repr__(self) -> str:
        return self.name

    def __reduce__(self) -> str:
        # The object's name in this module, for pickle and copy.
        return self.name

    @functools.lru_cache(maxsize=None)
    def _with_flags(self, name: str, bits: int) -> Format:
        return Format(f'{self.name}.{name}', self.code | bits, self.width, self._precision, self._exponent_bits,
                      self._plain)

    @property
    def ieee(self) -> Format:
        """The format with the flags of IEEE 754-2019 (7.4, 7.5), tininess detected after rounding.

        >>> with Context(mode=TOWARD_ZERO) as context:
        ...     half.ieee(65504) + 65504, half.ieee('1e-7')
        (half.ieee('65504.0'), half.ieee('6e-8'))
        >>> context
        Context(mode=TOWARD_ZERO, flags=OVERFLOW|UNDERFLOW|INEXACT)
        """
        if self.code not in _WITH_IEEE_FLAGS:
            raise ValueError(f'{self.name} has no choice of flags')
        return self._with_flags('ieee', _IEEE_FLAGS)

    @property
    def before(self) -> Format:
        """Of a format with the flags of IEEE 754-2019: with tininess detected before rounding.

        >>> below_one = half(1).next_down().next_down()
        >>> for format in half.ieee, half.ieee.before:
        ...     with Context() as context:
        ...         format('0x1.004p-14') * format(below_one)
        ...     context.underflow
        half.ieee('0.00006104')
        False
        half.ieee.before('0.00006104')
        True
        """
        if not self.code & _IEEE_FLAGS:
            raise ValueError(f'{self.name}: ieee has to come first')
        return self._with_flags('before', _TINY_BEFORE_ROUNDING)

    @overload
    def from_bits(self, bits: int) -> Value: ...

    @overload
    def from_bits(self, bits: Iterable[Any]) -> Array: ...

    def from_bits(self, bits: Any) -> Any:
        """The value with these bits; of nested lists or a numpy array of integers, the array with these bits. Bytes are
        those of the values, the lowest byte of each first.

        >>> half.from_bits([[0x3c00, 0x3c01], [0, 0x7c00]]), half.from_bits(bytes([0x00, 0x3c]))
        (half.array([['1.0', '1.001'], ['0.0', 'inf']]), half.array(['1.0']))
        """
        if not hasattr(bits, '__iter__') or getattr(bits, 'shape', None) == ():
            code = operator.index(bits)
            if not 0 <= code < 1 << self.width:
                raise ValueError(f'{self.name} has {self.width} bits')
            return Value(self, code)
        data, shape = _codes(self, bits)
        return Array(self, data, shape=shape)

    def from_pair(self, pair: Value) -> Value:
        """The exact sum of the parts of a pair of doubles, rounded once.

        >>> half.from_pair(double_pair(1) / 3), quad.from_pair(double_pair(1)).hex()
        (half('0.3333'), '0x1p+0')
        """
        if pair.format is not double_pair:
            raise ValueError(f'{pair.format.name} is no pair')
        return Value(self, _whole(_call('pair_to_format', self.code, context().mode, _halves(pair.bits)).bits))

    @property
    def largest(self) -> Value:
        """The largest number.

        >>> half.largest == 65504, e4m3fn.largest == 448, double_pair.largest.next_up()
        (True, True, double_pair('inf'))
        >>> half.smallest, half.smallest_normal, half.epsilon
        (half('6e-8'), half('0.00006104'), half('0.000977'))
        """
        if self is double_pair:
            # What overflows is an infinity in every mode.
            return self.from_bits(0x7c8ffffffffffffe << 64 | 0x7fefffffffffffff)
        with Context(mode=TOWARD_ZERO):
            return self.fromhex('0x1p99999')

    @property
    def smallest(self) -> Value:
        """The smallest number above zero."""
        return self(0).next_up()

    @property
    def smallest_normal(self) -> Value:
        """The smallest normal number."""
        return self.smallest.ldexp(self._precision - 1)

    @property
    def epsilon(self) -> Value:
        """The distance from 1 to the next number of so many digits, 2 to the power of 1 less their count."""
        return self(1).ldexp(1 - self._precision)

    def nan(self, payload: int = 0, negative: bool = False, signaling: bool = False) -> Value:
        """A NaN with a sign and a payload, of which the bits that the format has room for are taken.

        A signaling NaN whose payload would be 0 has the highest bit of a payload set. `e4m3fn` has only a quiet NaN of
        each sign, and the formats without -0 only one NaN.

        >>> half.nan(), half.nan(0x12, negative=True), half.nan(signaling=True), half.nan(signaling=True).is_nan
        (half('nan'), half('-nan(0x12)'), half('snan(0x100)'), True)
        """
        payload = operator.index(payload)
        if payload < 0:
            raise ValueError(f'{payload} is no payload of a NaN')
        answer = _call('snan' if signaling else 'qnan', self.code, bool(negative), _halves(payload))
        return Value(self, _whole(answer.bits))

    def fromhex(self, text: str) -> Value:
        """The value of a hexadecimal text, an infinity or a NaN, rounded once, like float.fromhex.

        The words `inf`, `infinity`, `nan` and `snan` may be in any case and have any sign (IEEE 754-2019 5.12.1).

        >>> single.fromhex('0x1.8p-1'), single.fromhex('-Infinity')
        (single('0.75'), single('-inf'))
        """
        return self._read('parse', text)

    def _read(self, name: str, text: str) -> Value:
        encoded = _spelled_for_c(text.strip()).encode()
        return Value(self, _whole(_call(name, self.code, context().mode, encoded, len(encoded)).bits))

    def _fromdecimal(self, text: str) -> Value:
        """The value of a decimal or of any text that `fromhex` reads, rounded once."""
        return self._read('read_decimal', text)

    def __call__(self, of: Any) -> Value:
        """The value of a text, an integer, a float, a fraction or a value, rounded once in the mode of the context.

        A text is a decimal, or what `fromhex` reads.
        """
        mode = context().mode
        if isinstance(of, Value):
            if of.format is self:
                return of
            answer = _call('convert', of.format.code, mode, self.code, _halves(of.bits))
        elif isinstance(of, str):
            if self is double_pair and ' + ' in of:
                high, low = of.split(' + ')
                return self.from_bits(double(high).bits | double(low).bits << 64)
            return self._fromdecimal(of)
        elif isinstance(of, int):
            if -1 << 127 <= of < 1 << 127:
                answer = _call('from_i128', self.code, mode, _halves(of))
            else:
                return self.fromhex(hex(of) + 'p0')
        elif isinstance(of, float):
            bits = int.from_bytes(struct.pack('<d', of), 'little')
            return self(double.from_bits(bits)) if self is not double_pair else self.from_bits(bits)
        elif isinstance(of, fractions.Fraction):
            return self.fromhex(_odd('-' if of < 0 else '', abs(of.numerator), of.denominator))
        else:
            number = _plain_number(of)
            if number is of:
                raise TypeError(f'{self} makes no value of {of!r}')
            return self(number)
        return Value(self, _whole(answer.bits))

    @property
    def _bytes(self) -> int:
        # Three bytes are four.
        return 4 if self.width == 19 else -(-self.width // 8)

    def _made(self, data: bytes, counts: dict[str, int], shape: tuple[int, ...]) -> Array:
        return Array(self, data, counts, shape)

    def _joined(self, values: Iterable[int]) -> bytes:
        """The bytes of values, given by their bits."""
        if self._bytes in _WORDS:
            return _packed(_WORDS[self._bytes], values)
        return b''.join(bits.to_bytes(self._bytes, 'little') for bits in values)

    def array(self, of: Any, saturate: bool | str = False) -> Array:
        """An array of what the format makes of each item of nested lists, or of a numpy array, in the same shape.

        >>> half.array([1, 0.5, '0.1']), half.array([[1, 2], [3, 4]]).shape
        (half.array(['1.0', '0.5', '0.1']), (2, 2))

        Each number is rounded once, in the mode of the context. The flags are added to those of the context, and the
        `counts` of the array say how many values raised each. With `saturate`, a number that overflows gives the
        largest one of its sign; with `saturate='finite'` an infinity does too, INEXACT, and with `saturate='all'` a
        NaN also gives the largest number, with INVALID_OP.

        >>> thirds = e4m3fn.array([1 / 3, 1000, -0.5], saturate=True)
        >>> thirds, thirds.counts['inexact'], thirds.counts['overflow']
        (e4m3fn.array(['0.34', '448.0', '-0.5']), 2, 1)
        >>> e4m3fn.array([float('-inf'), float('nan')], saturate='finite')
        e4m3fn.array(['-448.0', 'nan'])

        The elements of a numpy array are float16, float32, float64, a type of ml_dtypes or integers, and those of an
        `array.array` or a memoryview are numbers too. Those that are of the format are taken as they are, without
        counts. Integers are numbers, and bytes are refused: `from_bits` takes the bits of values.
        """
        given = _given(of, self)
        if given is None:
            shape, items = _nested(of)
            kinds = set(map(type, items))
            made = _of_items(items, kinds) if self is not double_pair else None
            if made is None or self is double and kinds > {float}:
                return self._counted(shape, items, saturate)
            given = made.reshape(shape)
            if kinds != {float}:
                return given.to(self, saturate)
        if isinstance(given, Array) and given.format is self and not _has_integers(of):
            return Array(self, given._data, shape=given.shape)
        return given.to(self, saturate)

    def _counted(self, shape: tuple[int, ...], items: list[Any], saturate: bool | str) -> Array:
        """The array of what the format makes of each item, with counts."""
        _saturation(saturate)
        counts = dict.fromkeys(_COUNTED, 0) | {'values': len(items)}
        values = []
        for item in items:
            with Context(context().mode) as made:
                value = self(item)
                if saturate and made.overflow:
                    is_negative = item.strip().startswith('-') if isinstance(item, str) else item < 0
                    value = -self.largest if is_negative else self.largest
            flags = made.flags
            if saturate in ('finite', 'all') and not made.overflow:
                value, flags = self._made_finite(item, value, flags, saturate == 'all')
            context().flags |= flags
            _count(counts, flags)
            counts['nans'] += value.is_nan
            values.append(value.bits)
        return Array(self, self._joined(values), counts, shape)


    def _made_finite(self, item: Any, value: Value, flags: Flags, nans: bool) -> tuple[Value, Flags]:
        """The largest value in place of an infinity and, if asked, of a NaN, with its flags."""
        with Context(context().mode):
            given = quad(item)
        if given.is_infinite:
            return -self.largest if given.is_negative else self.largest, Flags.INEXACT
        if given.is_nan and nans:
            return self.largest, Flags.INVALID_OP
        return value, flags


def _spelled_for_c(text: str) -> str:
    """The text as apfloat_parse reads it, which knows some spellings of infinities and NaNs alone."""
    word = re.fullmatch(r'(?ai)([+-]?)(?:(inf)(?:inity)?|(s?nan)([(]?(?:0x[0-9a-f]*|[0-9]*)[)]?))', text)
    if not word:
        return text
    sign, infinity, nan, payload = word.groups()
    return sign.strip('+') + (infinity or nan + payload).lower()


def _count(counts: dict[str, int], flags: Flags) -> None:
    """Counts each of the flags."""
    for flag in Flags:
        if flag and flag in flags:
            counts[str(flag.name).lower()] += 1


def _nested(of: Any) -> tuple[tuple[int, ...], list[Any]]:
    """The shape of nested sequences, and their items in order."""
    if isinstance(of, (list, tuple, range, array.array)) and set(map(type, of)) <= _SINGLE_ITEMS:
        return (len(of),), list(of)
    if isinstance(of, (str, Value)) or not hasattr(of, '__iter__') or getattr(of, 'shape', None) == ():
        return (), [of]
    parts = [_nested(each) for each in of]
    shapes = {shape for shape, _ in parts}
    if len(shapes) > 1:
        raise ValueError('the rows have different lengths')
    inner = shapes.pop() if shapes else ()
    return (len(parts), *inner), [item for _, items in parts for item in items]


def _packed(code: str, numbers: Iterable[Any]) -> bytes:
    """Numbers as the bytes of a code of struct, the lowest byte of each first."""
    made = array.array(code, numbers)
    if sys.byteorder == 'big':
        made.byteswap()
    return made.tobytes()


def _unpacked(code: str, data: bytes) -> array.array[Any]:
    """The numbers of such bytes."""
    made = array.array(code, data)
    if sys.byteorder == 'big':
        made.byteswap()
    return made


def _codes(format: Format | StorageFormat, of: Any) -> tuple[bytes, tuple[int, ...]]:
    """The bytes and the shape of what `from_bits` takes."""
    refused, length = f'{format} has {format.width} bits', format._bytes
    if isinstance(of, (bytes, bytearray, memoryview)):
        data = bytes(of)
        if len(data) % length:
            raise ValueError(f'{len(data)} bytes are no array of {format}, whose values take {length}')
        shape: tuple[int, ...] = (len(data) // length,)
        if isinstance(of, memoryview) and of.itemsize == length and of.format != 'c':
            shape = tuple(of.shape or ())
    elif hasattr(of, '__array_interface__') and of.dtype.kind in 'iu' and length in _WORDS:
        if of.size and (of.min() < 0 or int(of.max()) >> format.width):
            raise ValueError(refused)
        return of.astype(f'<u{length}').tobytes(), of.shape
    else:
        shape, items = _nested(of.tolist() if hasattr(of, '__array_interface__') else of)
        if length not in _WORDS:
            items = [operator.index(item) for item in items]
            if any(not 0 <= item < 1 << format.width for item in items):
                raise ValueError(refused)
            return b''.join(item.to_bytes(length, 'little') for item in items), shape
        try:
            data = _packed(_WORDS[length], items)
        except OverflowError:
            raise ValueError(refused) from None
    # Of a value's bytes, only the highest ones can have bits above those of the format.
    for place in range(format.width // 8, length):
        fitting = max(format.width - 8 * place, 0)
        if data[place::length].translate(None, bytes(range(1 << fitting))):
            raise ValueError(refused)
    return data, shape


class StorageFormat:
    """A format whose values are only stored and converted, in arrays of one value a byte.

    Operations on arrays are those of another format: `single` has all their numbers. `operate` is on codes.
    docs/FORMATS.md says what becomes of a number that a format does not have.

    >>> float6_e3m2fn, float6_e3m2fn.code, float6_e3m2fn.width
    (float6_e3m2fn, 34, 6)
    """

    # A value takes a byte.
    _bytes = 1

    def __init__(self, name: str, code: int, width: int, precision: int) -> None:
        self.name, self.code, self.width = name, code, width
        self._precision = precision

    @property
    def _plain(self) -> StorageFormat:
        return self

    def __repr__(self) -> str:
        return self.name

    def __reduce__(self) -> str:
        return self.name

    def _made(self, data: bytes, counts: dict[str, int], shape: tuple[int, ...]) -> StoredArray:
        return StoredArray(self, data, counts, shape)

    def from_bits(self, bits: Any) -> StoredArray:
        """The array with these bits, of nested lists or a numpy array of integers, or of bytes.

        >>> float4_e2m1fn.from_bits([[0, 1], [7, 15]])
        float4_e2m1fn.array([[0.0, 0.5], [6.0, -6.0]])
        """
        data, shape = _codes(self, bits if hasattr(bits, '__iter__') else [bits])
        return StoredArray(self, data, shape=shape)

    def array(self, of: Any, saturate: bool | str = False) -> StoredArray:
        """An array of the items of nested lists, an array or a numpy array, each rounded once, in the mode of the
        context.

        The items of lists are numbers that `quad` has: floats, integers, values. The flags are added to those of the
        context, and the `counts` of the array say how many values raised each. With `saturate`, a number that overflows
        gives the largest one of its sign, as in the formats without infinities in any case; with `saturate='finite'` an
        infinity does too, and with `saturate='all'` a NaN gives the largest number.

        >>> xs = float8_e3m4.array([[0.1, 1000], [-3, float('inf')]], saturate=True)
        >>> xs.bits if isinstance(xs.bits, list) else xs.bits.tolist()
        [[6, 111], [200, 112]]
        >>> xs.counts['inexact'], xs.counts['overflow']
        (2, 1)

        The elements of a type of ml_dtypes with the format's name are taken as they are. Integers are numbers, and
        bytes are refused: `from_bits` takes the bits of values.
        """
        given = self._numbers(of)
        made: StoredArray = given if isinstance(given, StoredArray) else given.to(self, saturate)
        return made

    def _numbers(self, of: Any) -> Any:
        """The numbers of an array of any kind; values of this format as they are."""
        given = _given(of, quad)
        if given is None:
            shape, items = _nested(of)
            made = _of_items(items, set(map(type, items)))
            given = _quads(of) if made is None else made.reshape(shape)
        if given is NotImplemented:
            raise TypeError(f'{self} makes arrays of numbers alone')
        return given.to(single) if isinstance(given, StoredArray) and given.format is not self else given

    def array_to_odd(self, of: Any) -> StoredArray:
        """The array of `array`, rounded to odd: a number between two neighbours becomes the one whose last digit is 1.

        >>> float4_e2m1fn.array_to_odd([1.1, 1.6, 2, 100])
        float4_e2m1fn.array([1.5, 1.5, 2.0, 6.0])
        """
        return self._by(_TO_ODD, of, 0, b'')

    def array_randomly(self, of: Any, randoms: Any, digits: int = 32) -> StoredArray:
        """The array of `array`, rounded with random digits: the lowest ones of a number of 32 bits for each item.

        A number becomes its upper neighbour, in magnitude, if its distance from the lower one, in parts of which there
        are 2^digits, and its random number reach 2^digits together. `randoms` are integers, in an array of any shape
        that has as many as there are items, or their bytes, four for each, the lowest first.

        >>> float4_e2m1fn.array_randomly([1.25] * 4, [0, 1, 2, 3], digits=2)
        float4_e2m1fn.array([1.0, 1.0, 1.5, 1.5])
        """
        if hasattr(randoms, '__array_interface__') and randoms.dtype.kind == 'u' and randoms.dtype.itemsize <= 4:
            randoms = randoms.astype('<u4').tobytes()
        elif not isinstance(randoms, (bytes, bytearray, memoryview)):
            numbers = randoms.reshape(-1).tolist() if hasattr(randoms, 'tolist') else _nested(randoms)[1]
            randoms = b''.join(operator.index(number).to_bytes(4, 'little') for number in numbers)
        return self._by(_RANDOM_DIGITS, of, digits, bytes(randoms))

    def _by(self, mode: int, of: Any, digits: int, randoms: bytes) -> StoredArray:
        given = self._numbers(of)
        given = given.to(single) if isinstance(given, StoredArray) else given
        data = bytes(given)
        made: StoredArray = _array_call('convert_array_by', given.format.code, mode, self.code, digits, randoms,
                                        len(randoms), data, len(data), of=self, shape=given.shape)
        return made

    def encode_to_odd(self, number: Any) -> int:
        """The code of a value, rounded to odd."""
        return self._encoded_by(_TO_ODD, number, 0, 0)

    def encode_randomly(self, number: Any, random: int, digits: int = 32) -> int:
        """The code of a value, rounded with the lowest digits of a random number of 32 bits.

        >>> [float4_e2m1fn.encode_randomly(1.25, random, digits=1) for random in (0, 1)]
        [2, 3]
        """
        return self._encoded_by(_RANDOM_DIGITS, number, digits, random)

    def _encoded_by(self, mode: int, number: Any, digits: int, random: int) -> int:
        x = _number(number)
        return _call('to_storage_by', x.format.code, mode, self.code, digits, random, _halves(x.bits)).bits.low

    def encode(self, number: Any, saturate: bool | str = False) -> int:
        """The code of a value, rounded once in the mode of the context; any other number has to be one of `quad`.

        >>> float4_e2m1fn.encode(0.7), float8_e3m4.encode(double(1000), saturate=True)
        (1, 111)
        """
        x, mode = _number(number), context().mode | _saturation(saturate)
        return _call('to_storage', x.format.code, mode, self.code, _halves(x.bits)).bits.low

    def decode(self, code: int, format: Format | None = None, saturate: bool | str = False) -> Value:
        """The value of a code in another format, or in `single`, rounded once in the mode of the context.

        >>> float4_e2m1fn.decode(1), float8_e8m0fnu.decode(255, half)
        (single('0.5'), half('nan'))
        """
        if not 0 <= operator.index(code) < 1 << self.width:
            raise ValueError(f'{self.name} has {self.width} bits')
        target, mode = single if format is None else format, context().mode | _saturation(saturate)
        return Value(target, _whole(_call('from_storage', self.code, mode, target.code, code).bits))

    def operate(self, operation: str, *codes: int) -> int:
        """add, sub, mul, div, fma, sqrt, minimum or maximum of the numbers of codes, as a code, rounded once in the
        mode of the context. The formats of 4 and 6 bits have these operations.

        >>> one, three = float4_e2m1fn.encode(1), float4_e2m1fn.encode(3)
        >>> float4_e2m1fn.decode(float4_e2m1fn.operate('div', one, three))
        single('0.5')
        """
        number, count = _STORED_OPERATIONS.get(operation, (0, 0))
        if count != len(codes):
            raise ValueError(f'{operation!r} is none of {", ".join(_STORED_OPERATIONS)}, or takes other operands')
        if any(not 0 <= operator.index(code) < 1 << self.width for code in codes):
            raise ValueError(f'{self.name} has {self.width} bits')
        return _call('storage_operation', self.code, context().mode, number, *(*codes, 0, 0)[:3]).bits.low


def _number(number: Any) -> Value:
    """A value, or any other number as one of `quad`, which has to have it."""
    x = number if isinstance(number, Value) else quad.from_bits(0)._converted(number)
    if x is NotImplemented:
        raise TypeError(f'{number!r} is no number')
    return cast(Value, x)


@dataclasses.dataclass(frozen=True)
class p3109:
    """A format of IEEE P3109: its width of 3 to 15 bits, its precision, whether it has a sign, and infinities.

    >>> form = p3109(8, 4)
    >>> form.encode(0.1), form.encode(300), form.decode(0x7e), form.decode(0x25, half)
    (37, 127, single('224.0'), half('0.10156'))
    """

    bits: int
    precision: int
    signed: bool = True
    extended: bool = True

    def __post_init__(self) -> None:
        if not 3 <= self.bits <= 15 or not 1 <= self.precision <= self.bits - bool(self.signed):
            raise ValueError(f'P3109 has no {self}')

    def encode(self, number: Any, saturate: bool | str = False) -> int:
        """The code of a value, rounded once in the mode of the context; any other number has to be one of `quad`.

        >>> p3109(8, 4).encode(300, saturate=True), p3109(8, 4).encode(float('-inf'), saturate='finite')
        (126, 254)
        """
        return self._encoded(context().mode | self._saturation(saturate), number)

    def encode_to_odd(self, number: Any, saturate: bool | str = False) -> int:
        """The code of a value, rounded to odd."""
        return self._encoded(_TO_ODD | self._saturation(saturate), number)

    def encode_randomly(self, number: Any, random: int, digits: int = 32, way: str = 'a',
                        saturate: bool | str = False) -> int:
        """The code of a value, rounded with the lowest digits of a random number of 32 bits, in the way a, b or c of
        P3109.

        >>> [p3109(8, 4).encode_randomly(1.03125, 1, 1, way) for way in 'abc']
        [64, 65, 64]
        """
        if way not in ('a', 'b', 'c'):
            raise ValueError(f'{way!r} is none of a, b and c')
        x, mode = _number(number), _RANDOM_DIGITS + 'abc'.index(way) | self._saturation(saturate)
        return _call('to_p3109_by', x.format.code, mode, self._constants(), digits, random, _halves(x.bits)).bits.low

    @staticmethod
    def _saturation(saturate: bool | str) -> int:
        if saturate == 'all':
            raise ValueError('NaNs of P3109 do not saturate')
        return _saturation(saturate)

    def decode(self, code: int, format: Format | None = None) -> Value:
        """The value of a code in another format, or in `single`, rounded once in the mode of the context."""
        if not 0 <= operator.index(code) < 1 << self.bits:
            raise ValueError(f'{self} has {self.bits} bits')
        target = single if format is None else format
        return Value(target, _whole(_call('from_p3109', self._constants(), context().mode, target.code, code).bits))

    def _encoded(self, mode: int, number: Any) -> int:
        x = _number(number)
        return _call('to_p3109', x.format.code, mode, self._constants(), _halves(x.bits)).bits.low

    def _constants(self) -> _P3109:
        return _P3109(self.bits, self.precision, self.signed, self.extended)


# ---- numpy

# The codes of struct for integers.
_INTEGER_CODES = frozenset('bBhHiIlLqQ')

# The elements of the types that numpy and ml_dtypes have for formats, by a format's code: numbers, or their bits.
_ELEMENTS = {1: 'f2', 2: 'f4', 3: 'f8', 5: 'u2', 6: 'u1', 7: 'u1', 8: 'u1', 16: 'u1', 17: 'u1', 18: 'u1'}


def _type_of_numbers(format: Format | StorageFormat) -> str:
    """The narrowest of float16, float32 and float64 that has every number of the format; float64 if none has."""
    if format in (double, quad, x87, double_pair):
        return 'float64'
    return 'float32' if format in (single, bfloat, tf32, float8_e8m0fnu) else 'float16'


def _format_of(dtype: Any) -> Format | None:
    """The format of the numbers of a type of numpy or ml_dtypes, if there is one here."""
    return {
        'float16': half, 'float32': single, 'float64': double, 'bfloat16': bfloat, 'float8_e5m2': e5m2,
        'float8_e4m3fn': e4m3fn, 'float8_e4m3fnuz': e4m3fnuz, 'float8_e4m3': e4m3,
        'float8_e5m2fnuz': e5m2fnuz, 'float8_e4m3b11fnuz': e4m3b11fnuz,
    }.get(dtype.name)


def _stored_of(dtype: Any) -> StorageFormat | None:
    """The storage format of the numbers of a type of ml_dtypes, if there is one here."""
    return {each.name: each for each in _STORED}.get(dtype.name)


def _given(of: Any, format: Format) -> Array | StoredArray | None:
    """The values of an array of any kind, in the format of its elements; None if it is no array."""
    if isinstance(of, (Array, StoredArray)):
        return of
    if hasattr(of, '__array_interface__'):
        stored = _stored_of(of.dtype)
        return StoredArray(stored, of.tobytes(), shape=of.shape) if stored else _of_numpy(of, format)
    if isinstance(of, array.array):
        of = memoryview(of)
    elif isinstance(of, (bytes, bytearray)) or isinstance(of, memoryview) and of.format in ('B', 'c'):
        raise TypeError(f'bytes are no numbers: from_bits takes the codes of {format}')
    if not isinstance(of, memoryview):
        return None
    code, shape = str(of.format), tuple(of.shape or ())
    source = {'e': half, 'f': single, 'd': double}.get(code)
    if source is None and code not in _INTEGER_CODES:
        raise TypeError(f'elements of the code {code!r} are no values of {format}')
    data = of.tobytes()
    if sys.byteorder == 'big':
        data = b''.join(data[at:at + of.itemsize][::-1] for at in range(0, len(data), of.itemsize))
    if source is None:
        return _of_integers(data, of.itemsize, code.islower(), shape)
    return Array(format if source is format._plain else source, data, shape=shape)


def _has_integers(of: Any) -> bool:
    """Whether the elements of an array of any kind are integers."""
    if hasattr(of, '__array_interface__'):
        return str(of.dtype.kind) in 'iu'
    code: Any = of.typecode if isinstance(of, array.array) else getattr(of, 'format', None)
    return isinstance(code, str) and code in _INTEGER_CODES


def _of_numpy(of: Any, format: Format) -> Array:
    """The values of a numpy array, in the format of its type, or the given one if its values are the same.

    Integers are values of `double`, or of `quad`, which has all of 64 bits.
    """
    if of.dtype.kind in 'iu':
        if of.dtype.itemsize < 8 or not of.size or -1 << 53 <= int(of.min()) and int(of.max()) <= 1 << 53:
            return Array(double, of.astype('<f8').tobytes(), shape=of.shape)
        return _of_integers(of.astype(of.dtype.newbyteorder('<')).tobytes(), 8, of.dtype.kind == 'i', of.shape)
    source = _format_of(of.dtype)
    if source is None:
        raise TypeError(f'elements of {of.dtype} are no values of {format}')
    elements = _ELEMENTS[source.code]
    data = (of.astype('<' + elements, copy=False) if elements[0] == 'f' else of).tobytes()
    return Array(format if source is format._plain else source, data, shape=of.shape)


def _of_integers(data: bytes, length: int, signed: bool, shape: tuple[int, ...]) -> Array:
    """Integers of so many bytes as values of `double` if it has all of them, and otherwise of `quad`."""
    if signed:
        # Moved up by half of their range, they have no sign.
        moved = bytearray(data)
        moved[length - 1::length] = data[length - 1::length].translate(bytes(byte ^ 0x80 for byte in range(256)))
        data = bytes(moved)
    if length < 8:
        return _from_low_words(data, length, 1 << 8 * length - 1 if signed else 0, shape)
    words = memoryview(data).cast('I')
    low, high = [_from_low_words(words[place::2].tobytes(), 4, moved_by, shape)
                 for place, moved_by in ((0, 0), (1, 1 << 31 if signed else 0))]
    with Context() as exact:
        made = high.fma(1 << 32, low)
    if not exact.inexact:
        return made
    with Context():
        return high.to(quad).fma(1 << 32, low.to(quad))


def _from_low_words(data: bytes, length: int, less: int, shape: tuple[int, ...]) -> Array:
    """Integers of at most 4 bytes without a sign, each less by so much, as values of `double`."""
    # These are the low digits of a double from 2^52 on.
    doubles = bytearray(double(1 << 52).bits.to_bytes(8, 'little') * (len(data) // length))
    for place in range(length):
        doubles[place::8] = data[place::length]
    with Context():
        return Array(double, bytes(doubles), shape=shape) - ((1 << 52) + less)


def _of_items(items: list[Any], kinds: set[type]) -> Array | None:
    """Floats and integers in a row, whose types are given, as values of `double` or `quad`, if these have them all."""
    if not kinds or not kinds <= {int, bool, float}:
        return None
    integers = items if float not in kinds else [item for item in items if type(item) is not float]
    if not integers or -1 << 53 <= min(integers) and max(integers) <= 1 << 53:
        return Array(double, _packed('d', items))
    if float in kinds or min(items) < -1 << 63 or max(items) >= 1 << 63:
        return None
    return _of_integers(_packed('q', items), 8, True, (len(items),))


def _plain_number(of: Any) -> Any:
    """A scalar of numpy as a value of its format or an integer, and anything else as it is."""
    if not hasattr(of, '__array_interface__') or of.shape != () or isinstance(of, float):
        return of
    if of.dtype.kind in 'iu':
        return int(of)
    format = _format_of(of.dtype)
    return of if format is None else _of_numpy(of, format)[()]


# ---- values

# What operations take besides values and arrays of the same format.
Number = Union['Value', int, float]
_Operand = TypeVar('_Operand')


class _Arithmetic(Generic[_Operand]):
    """What values and arrays of values have: each result is rounded once, in the mode of the context."""

    __slots__ = ()

    format: Format

    def _converted(self, other: Any) -> Any:
        """Another operand that is no value or array of the format, as one that is."""
        raise NotImplementedError

    def _computed(self, name: str, *operands: Any) -> Self:
        """The result of an operation on operands of this kind."""
        raise NotImplementedError

    def _floored(self, divisor: Any) -> Self:
        """What `%` gives for a divisor of this kind."""
        raise NotImplementedError

    def _operand(self, other: Any) -> Any:
        """Another operand in this one's format, as a value or an array like this one."""
        if isinstance(other, type(self)):
            if other.format is not self.format:
                raise TypeError(f'{self.format} and {other.format}: convert one of them')
            return other
        return self._converted(other)

    def _with(self, name: str, *others: Any) -> Self:
        """The result of an operation of this and of others."""
        operands = [self._operand(other) for other in others]
        for other, operand in zip(others, operands):
            if operand is NotImplemented:
                raise TypeError(f'{other!r} is no operand of {self.format}')
        return self._computed(name, self, *operands)

    def _left(self, name: str, other: Any) -> Self:
        """The result of an operator that has this on its left."""
        right = self._operand(other)
        if right is NotImplemented:
            return NotImplemented
        return self._computed(name, self, right)

    def _right(self, name: str, other: Any) -> Self:
        """The result of an operator that has this on its right, and neither a value nor an array on its left."""
        left = self._operand(other)
        if left is NotImplemented:
            return NotImplemented
        return self._computed(name, left, self)

    def __add__(self, other: _Operand) -> Self:
        return self._left('add', other)

    def __radd__(self, other: _Operand) -> Self:
        return self._right('add', other)

    def __sub__(self, other: _Operand) -> Self:
        return self._left('sub', other)

    def __rsub__(self, other: _Operand) -> Self:
        return self._right('sub', other)

    def __mul__(self, other: _Operand) -> Self:
        return self._left('mul', other)

    def __rmul__(self, other: _Operand) -> Self:
        return self._right('mul', other)

    def __truediv__(self, other: _Operand) -> Self:
        return self._left('div', other)

    def __rtruediv__(self, other: _Operand) -> Self:
        return self._right('div', other)

    def __mod__(self, other: _Operand) -> Self:
        """self less the divisor times the quotient rounded down, rounded once, with the sign of the divisor.

        This is the `%` of Python's floats and of numpy; `fmod` is the one with the sign of self.

        >>> double(-7) % 3, double(-7).fmod(3), half(7) % -3, half('-6e-8') % 1
        (double('2.0'), double('-1.0'), half('-2.0'), half('1.0'))
        """
        divisor = self._operand(other)
        if divisor is NotImplemented:
            return NotImplemented
        return self._floored(divisor)

    def __rmod__(self, other: _Operand) -> Self:
        left: Self = self._operand(other)
        if left is NotImplemented:
            return NotImplemented
        return left._floored(self)

    def fma(self, factor: _Operand, addend: _Operand) -> Self:
        """self * factor + addend, rounded once. Pairs of doubles do not have it, but `pair_fma`.

        >>> half.from_bits(0x3c01).fma(half.from_bits(0x3c01), half.from_bits(0xbc02))
        half('9.5e-7')
        >>> above = quad(1).next_up()
        >>> above * above, above.fma(above, -above * above).hex()
        (quad('1.0000000000000000000000000000000004'), '0x1p-224')
        """
        return self._with('fma', factor, addend)

    def sqrt(self) -> Self:
        """The square root, rounded once (IEEE 754-2019 5.4.1); of a value below zero a NaN.

        >>> double(2).sqrt(), quad(4).sqrt(), half('-0x0p0').sqrt()
        (double('1.4142135623730951'), quad('2.0'), half('-0.0'))
        >>> with Context() as context:
        ...     x87(-1).sqrt()
        x87('nan')
        >>> context.flags
        <Flags.INVALID_OP: 1>
        """
        return self._with('sqrt')

    def remainder(self, divisor: _Operand) -> Self:
        """self less the divisor times the integer nearest to the quotient, a tie going to the even one: exact.

        >>> double(5).remainder(3), double(5).fmod(3)
        (double('-1.0'), double('2.0'))
        """
        return self._with('rem', divisor)

    def fmod(self, divisor: _Operand) -> Self:
        """self less the divisor times the quotient truncated toward zero: exact, like math.fmod."""
        return self._with('mod', divisor)

    def copy_sign(self, sign: _Operand) -> Self:
        """self with the sign of another value, also of a zero or a NaN, like math.copysign (IEEE 754-2019 5.5.1).

        >>> half(1.5).copy_sign(-2), half('nan').copy_sign(half('-0.0')), half.array([1, -2]).copy_sign([-3, 3])
        (half('-1.5'), half('-nan'), half.array(['-1.0', '2.0']))
        """
        return self._with('copy_sign', sign)


# The predicates of IEEE 754-2019 (tables 5.1 to 5.3), in the order of their codes.
_PREDICATES = ('equal', 'not equal', 'greater', 'greater equal', 'less', 'less equal', 'not greater',
               'less unordered', 'not less', 'greater unordered', 'unordered', 'ordered')

# The minima and maxima of IEEE 754-2019 (9.6), in the order of their codes.
_EXTREMA = ('minimum', 'maximum', 'minimum magnitude', 'maximum magnitude')

# The operations whose result may be of another format, with how many operands they take, in the order of their codes.
_TO_FORMAT = {'add': 2, 'sub': 2, 'mul': 2, 'div': 2, 'fma': 3, 'sqrt': 1}

# The operations whose functions take no mode, since their results are exact.
_WITHOUT_MODE = ('rem', 'mod', 'copy_sign', 'min', 'max', 'minimum', 'maximum')


class Value(_Arithmetic[Number]):
    """A value of a format: its bits. Operations round once, in the mode of the context.

    >>> x = double('5e-324')
    >>> x / 2, x * 2 == x + x, -x < x
    (double('0.0'), True, True)
    >>> double('nan') == double('nan')
    False
    >>> import pickle
    >>> pickle.loads(pickle.dumps(x)) == eval(repr(x)) == x
    True
    """

    __slots__ = ('format', 'bits')

    format: Format
    bits: int

    def __init__(self, format: Format, bits: int) -> None:
        object.__setattr__(self, 'format', format)
        object.__setattr__(self, 'bits', bits)

    def __setattr__(self, name: str, value: Any) -> None:
        raise AttributeError('values do not change')

    def __reduce__(self) -> tuple[Any, ...]:
        return Value, (self.format, self.bits)

    def _converted(self, other: Any) -> Any:
        number = _plain_number(other)
        if number is other and not isinstance(other, (int, float)):
            return NotImplemented
        with Context() as exact:
            value = self.format(number)
        if exact.inexact:
            raise ValueError(f'{other} is not a value of {self.format}')
        return value

    def _computed(self, name: str, *operands: Any) -> Any:
        mode = () if name in _WITHOUT_MODE else (context().mode,)
        return self._made(name, *mode, *[_halves(operand.bits) for operand in operands])

    def _floored(self, divisor: Any) -> Any:
        rest = self.fmod(divisor)
        if rest.is_nan or rest.is_negative == divisor.is_negative:
            return rest
        return -rest if rest.is_zero else rest + divisor

    def _asked(self, name: str, *arguments: Any) -> _Answer:
        return _call(name, self.format.code, *arguments)

    def _made(self, name: str, *arguments: Any) -> Value:
        return Value(self.format, _whole(self._asked(name, *arguments).bits))

    def next_up(self) -> Value:
        """The least value above self.

        >>> half(1).next_up(), half(1).next_down()
        (half('1.001'), half('0.9995'))
        """
        return self._made('next_up', _halves(self.bits))

    def next_down(self) -> Value:
        """The greatest value below self."""
        return self._made('next_down', _halves(self.bits))

    def round_to_integral(self) -> Value:
        """The integral value that the mode picks.

        >>> half('0x1.4p1').round_to_integral()
        half('2.0')
        """
        return self._with('round_to_integral')

    def ldexp(self, power: int) -> Value:
        """self times 2 to the power of `power`, rounded once; it raises no flag.

        >>> half(3).ldexp(-1), half(3).frexp()
        (half('1.5'), (half('0.75'), 2))
        """
        try:
            power = operator.index(power)
        except TypeError:
            raise TypeError(f'ldexp takes an integer, and not {power!r}') from None
        clamped = max(-1 << 31, min(power, (1 << 31) - 1))
        return self._made('scalbn', context().mode, _halves(self.bits), clamped)

    def frexp(self) -> tuple[Value, int]:
        """A fraction of magnitude from 0.5 to below 1, and the power of two to multiply it by, like math.frexp."""
        answer = self._asked('frexp', context().mode, _halves(self.bits))
        return Value(self.format, _whole(answer.bits)), answer.number if self.is_finite else 0

    def _class(self) -> int:
        return self._asked('classify', _halves(self.bits)).number

    @property
    def is_nan(self) -> bool:
        """Whether it is a NaN."""
        return self._class() in (0, 1)

    @property
    def is_infinite(self) -> bool:
        """Whether it is an infinity."""
        return self._class() in (2, 9)

    @property
    def is_finite(self) -> bool:
        """Whether it is a number."""
        return self._class() not in (0, 1, 2, 9)

    @property
    def is_zero(self) -> bool:
        """Whether it is +0 or -0."""
        return self._class() in (5, 6)

    @property
    def is_negative(self) -> bool:
        """Whether it has a minus sign, also if it is a zero or a NaN (IEEE 754-2019 5.7.2, isSignMinus).

        >>> half('-0.0').is_negative, half('-nan').is_negative, half('nan').is_negative, e4m3fnuz('-nan').is_negative
        (True, True, False, False)
        """
        return self._asked('is_negative', _halves(self.bits)).number == 1

    def _beside(self, other: Number) -> Value:
        """Another operand, as a value of this format."""
        operand: Value = self._operand(other)
        if operand is NotImplemented:
            raise TypeError(f'{other!r} is no operand of {self.format}')
        return operand

    def holds(self, predicate: str, other: Number, signaling: bool = False) -> bool:
        """Whether a predicate holds of self and another value (IEEE 754-2019 5.6.1, 5.11).

        It is one of equal, not equal, greater, greater equal, less, less equal, not greater, less unordered, not less,
        greater unordered, unordered and ordered. INVALID_OP is raised for a signaling NaN, and, if asked, for any NaN.

        >>> half(1).holds('less', 2), half('nan').holds('less unordered', 1)
        (True, True)
        >>> with Context() as context:
        ...     half('nan').holds('less', 1), half('nan').holds('less', 1, signaling=True)
        (False, False)
        >>> context.invalid_op
        True
        """
        if predicate not in _PREDICATES:
            raise ValueError(f'{predicate!r} is no predicate: {", ".join(_PREDICATES)}')
        answer = self._asked('compare_predicate', _PREDICATES.index(predicate), int(signaling), _halves(self.bits),
                             _halves(self._beside(other).bits))
        return answer.number == 1

    def total_order(self, other: Number) -> int:
        """-1, 0 or 1: the place of self beside another value in the total order (IEEE 754-2019 5.10).

        >>> half('-0.0').total_order(0), half('nan').total_order(half('inf')), half('-nan').total_order(1)
        (-1, 1, -1)
        """
        return self._asked('total_order', _halves(self.bits), _halves(self._beside(other).bits)).number

    def extremum(self, which: str, other: Number, prefers_number: bool = False) -> Value:
        """The minimum, maximum, minimum magnitude or maximum magnitude, with its flag (IEEE 754-2019 9.6).

        Of a NaN and a number it is a quiet NaN, or, if asked, the number.

        >>> half(1).extremum('maximum magnitude', -2), half('nan').extremum('minimum', 1)
        (half('-2.0'), half('nan'))
        >>> half('nan').extremum('minimum', 1, prefers_number=True)
        half('1.0')
        """
        if which not in _EXTREMA:
            raise ValueError(f'{which!r} is none of {", ".join(_EXTREMA)}')
        return self._made('extremum', _EXTREMA.index(which), int(prefers_number), _halves(self.bits),
                          _halves(self._beside(other).bits))

    def log_b(self) -> Value:
        """The exponent of the highest binary digit, as a value (IEEE 754-2019 5.3.3, logB).

        >>> half(10).log_b(), half(0).log_b()
        (half('3.0'), half('-inf'))
        """
        return self._made('log_b', context().mode, _halves(self.bits))

    def scale_b(self, power: int) -> Value:
        """self times 2 to the power of `power`, rounded once, with its flags (IEEE 754-2019 5.3.3, scaleB).

        >>> half(3).scale_b(-25)
        half('1e-7')
        """
        try:
            power = operator.index(power)
        except TypeError:
            raise TypeError(f'scale_b takes an integer, and not {power!r}') from None
        clamped = max(-1 << 31, min(power, (1 << 31) - 1))
        return self._made('scale_b', context().mode, _halves(self.bits), clamped)

    def integral(self) -> Value:
        """The integral value that the mode picks, without INEXACT (IEEE 754-2019 5.9).

        >>> with Context() as context:
        ...     half(2.5).integral()
        half('2.0')
        >>> context.inexact
        False
        """
        return self._made('integral', context().mode, _halves(self.bits))

    def to_format(self, operation: str, target: Format, *others: Number) -> Value:
        """add, sub, mul, div, fma or sqrt of self and others, rounded once to another format (IEEE 754-2019 5.4.1).

        >>> double(1).to_format('add', single, double('0x1p-24') + double('0x1p-60'))
        single('1.0000001')
        """
        if _TO_FORMAT.get(operation) != len(others) + 1:
            raise ValueError(f'{operation!r} is none of {", ".join(_TO_FORMAT)}, or takes other operands')
        values = [self, *(self._beside(other) for other in others), self, self][:3]
        code = list(_TO_FORMAT).index(operation)
        answer = _call('to_format', code, self.format.code, context().mode, target.code,
                       *(_halves(value.bits) for value in values))
        return Value(target, _whole(answer.bits))

    def fmin(self, other: Number) -> Value:
        """The lesser of two values, a number rather than a NaN, like fmin() in C (IEEE 754-2008 5.3.1, minNum).

        It is self if the two are equal, as zeros of opposite signs are. Like `fmax`, `minimum` and `maximum`, it raises
        no flag, not even for a signaling NaN, which stays signaling.

        >>> half(1).fmin(2), half('nan').fmin(2), half('nan').minimum(2), half('0.0').minimum(half('-0.0'))
        (half('1.0'), half('2.0'), half('nan'), half('-0.0'))
        """
        return self._with('min', other)

    def fmax(self, other: Number) -> Value:
        """The greater of two values, a number rather than a NaN, like fmax() in C (maxNum)."""
        return self._with('max', other)

    def minimum(self, other: Number) -> Value:
        """The lesser of two values, or else the first NaN; -0 is below +0 (IEEE 754-2019 9.6, but without a flag)."""
        return self._with('minimum', other)

    def maximum(self, other: Number) -> Value:
        """The greater of two values, or else the first NaN; -0 is below +0 (IEEE 754-2019 9.6, but without a flag)."""
        return self._with('maximum', other)

    def __neg__(self) -> Value:
        """The value with the opposite sign, a NaN's too (IEEE 754-2019 5.5.1).

        >>> -half(1), -half('nan'), -double_pair(1), -(double_pair(1) / 3)
        (half('-1.0'), half('-nan'), double_pair('-1.0'), double_pair('-0.3333333333333333 + -1.8503717077085944e-17'))
        """
        if self.format in _WITHOUT_NEGATIVE_ZERO and (self.is_zero or self.is_nan):
            return self
        bits = self.bits ^ self.format._sign_bit
        if self.format is double_pair:
            # Only a low double that is a nonzero number has a sign that counts.
            low = double.from_bits(self.bits >> 64)
            if low.is_finite and not low.is_zero:
                bits ^= 1 << 127
        return Value(self.format, bits)

    def __pos__(self) -> Value:
        return self

    def __abs__(self) -> Value:
        """The value without its sign, a NaN's too (IEEE 754-2019 5.5.1).

        >>> abs(half('-1.5')), abs(half('-0.0')), abs(half('-nan'))
        (half('1.5'), half('0.0'), half('nan'))
        """
        return -self if self.bits & self.format._sign_bit else self

    def __bool__(self) -> bool:
        return not self.is_zero

    def _order(self, other: Any) -> int | None:
        """-1, 0 or 1 as self is less, equal or greater, 2 if one of them is a NaN; None if one is not a number."""
        if isinstance(other, Value) and other.format is self.format:
            return self._asked('compare', _halves(self.bits), _halves(other.bits)).number
        left, right = _exact_number(self), _exact_number(other)
        return None if right is None else _order(left, right)

    def _is(self, orders: tuple[int, ...], other: Any) -> bool:
        order = self._order(other)
        if order is None:
            return NotImplemented
        return order in orders

    def __eq__(self, other: object) -> bool:
        return self._is(_EQUAL, other)

    def __lt__(self, other: Number) -> bool:
        return self._is(_LESS, other)

    def __le__(self, other: Number) -> bool:
        return self._is(_LESS + _EQUAL, other)

    def __gt__(self, other: Number) -> bool:
        return self._is(_GREATER, other)

    def __ge__(self, other: Number) -> bool:
        return self._is(_GREATER + _EQUAL, other)

    def __hash__(self) -> int:
        return object.__hash__(self) if self.is_nan else hash(_exact_number(self))

    def __int__(self) -> int:
        """The integer of a number, truncated toward zero, like that of a float.

        >>> int(half('-2.5')), round(half('2.5')), math.floor(half('-2.5')), math.ceil(half('-2.5'))
        (-2, 2, -3, -2)
        """
        return int(self._fraction())

    __trunc__ = __int__

    def __floor__(self) -> int:
        return math.floor(self._fraction())

    def __ceil__(self) -> int:
        return math.ceil(self._fraction())

    def __round__(self) -> int:
        return round(self._fraction())

    def _fraction(self) -> fractions.Fraction:
        return fractions.Fraction(*self.as_integer_ratio())

    def __float__(self) -> float:
        """The value as a Python float, rounded once in the mode of the context.

        >>> float(quad(1) / 3)
        0.3333333333333333
        """
        high = self if self.format is double_pair else double(self)
        return float(struct.unpack('<d', struct.pack('<Q', high.bits & (1 << 64) - 1))[0])

    def _parts(self) -> list[Value]:
        """The high double of a pair, and the low one unless it is +0; any other value alone."""
        if self.format is not double_pair:
            return [self]
        high, low = double.from_bits(self.bits & (1 << 64) - 1), double.from_bits(self.bits >> 64)
        return [high, low] if low.bits else [high]

    def hex(self, places: int | None = None) -> str:
        """The value as a hexadecimal text that its format reads exactly, or rounded once to so many digits after the
        dot, at most 31, without the payload of a NaN.

        >>> single(1).hex(), half('-inf').hex(), half.from_bits(0x7e01).hex()
        ('0x1p+0', '-inf', 'nan(0x1)')
        >>> with Context() as context:
        ...     double(0.1).hex(3), context
        ('0x1.99ap-4', Context(mode=NEAREST_EVEN, flags=INEXACT))
        """
        if places is None:
            return ' + '.join(_hexadecimal(part) for part in self._parts())
        text = ctypes.create_string_buffer(_HEXADECIMAL_ROOM)
        answer = _call('write_hex_rounded', self.format.code, context().mode, operator.index(places),
                       _halves(self.bits), text, len(text))
        return text.raw[:_whole(answer.bits)].decode()

    def augmented_add(self, other: Value) -> tuple[Value, Value]:
        """The sum, rounded to nearest, ties toward zero, and what that leaves of it (IEEE 754-2019 9.5).

        >>> head, tail = double(1).augmented_add(double(2**-53))
        >>> head.hex(), tail.hex()
        ('0x1p+0', '0x1p-53')
        """
        return self._augmented(1, other)

    def augmented_subtract(self, other: Value) -> tuple[Value, Value]:
        """The difference and what its rounding leaves, as `augmented_add`."""
        return self._augmented(2, other)

    def augmented_multiply(self, other: Value) -> tuple[Value, Value]:
        """The product and what its rounding leaves, as `augmented_add`."""
        return self._augmented(3, other)

    def _augmented(self, operation: int, other: Value) -> tuple[Value, Value]:
        if other.format is not self.format:
            raise ValueError(f'{other.format.name} is not {self.format.name}')
        tail = _Halves()
        head = _call('augmented', operation, self.format.code, _halves(self.bits), _halves(other.bits),
                     ctypes.byref(tail))
        return Value(self.format, _whole(head.bits)), Value(self.format, _whole(tail))

    @property
    def payload(self) -> int:
        """The payload of a NaN, and -1 of any other value (IEEE 754-2019 9.7).

        >>> half('nan(0x12)').payload, half(1).payload
        (18, -1)
        """
        got = _answered('payload', 0, self.format.code, _halves(self.bits))
        return int(Value(self.format, _whole(got.bits)))

    def as_pair(self) -> Value:
        """The value as a pair of doubles, rounded once to 106 binary digits, and split.

        >>> quad('0.1').as_pair()
        double_pair('0.1 + -5.551115123125783e-18')
        """
        answer = _call('pair_from_format', self.format.code, context().mode, _halves(self.bits))
        return Value(double_pair, _whole(answer.bits))

    def pair_fma(self, factor: Value, addend: Value) -> Value:
        """self * factor + addend of pairs of doubles: their sums are first rounded to 106 binary digits, then the exact
        result is, once, and split.

        >>> double_pair(3).pair_fma(double_pair(1) / 3, double_pair(-1)).hex()
        '0x1p-107'
        """
        if any(value.format is not double_pair for value in (self, factor, addend)):
            raise ValueError('pair_fma takes pairs of doubles')
        operands = [_halves(value.bits) for value in (self, factor, addend)]
        return Value(double_pair, _whole(_call('pair_fma', context().mode, *operands).bits))

    def shortest_of_pair(self) -> str | None:
        """The shortest decimal that is read as a pair of doubles; None if no decimal is.

        >>> double_pair('0.1').shortest_of_pair()
        '0.1'
        """
        text = _Text()
        if self.format is not double_pair:
            raise ValueError(f'{self.format.name} is no pair')
        return None if _functions.apfloat_pair_shortest(_halves(self.bits), ctypes.byref(text)) else text.bytes.decode()

    def digits(self, count: int | None = None) -> tuple[str, int]:
        """The decimal digits of a number, all or rounded once to so many, and the exponent of ten of the first one.

        A zero, an infinity and a NaN have none.

        >>> half('0.1').digits(), quad('-1e-4900').digits(3), single(0).digits()
        (('999755859375', -2), ('100', -4900), ('', 0))
        """
        known, bits = self.format.code, _halves(self.bits)
        if count is None:
            count = _whole(_answered('digit_count', known, bits).bits)
        elif operator.index(count) < 1:
            raise ValueError(f'{count} digits')
        text = ctypes.create_string_buffer(count)
        answer = _call('write_digits', known, context().mode, bits, text, count)
        return text.raw[:_whole(answer.bits)].decode(), answer.number

    def as_integer_ratio(self) -> tuple[int, int]:
        """A number as a quotient of two integers in lowest terms.

        >>> half('0.1').as_integer_ratio()
        (819, 8192)
        """
        if self.is_nan:
            raise ValueError('a NaN is no number')
        if self.is_infinite:
            raise OverflowError('an infinity is no number')
        number = sum((_fraction_of(part) for part in self.hex().split(' + ')), fractions.Fraction())
        return number.as_integer_ratio()

    def _decimal(self) -> str:
        """The decimal of a value that is no pair."""
        text = _Text()
        code = _functions.apfloat_to_text(self.format.code, _halves(self.bits), ctypes.byref(text))
        if code:
            raise Refused(code)
        return text.bytes.decode()

    def __str__(self) -> str:
        """A whole number below 10^16 in full, and otherwise the shortest decimal that the format reads as the value.

        Of a pair of doubles, it is those of its parts.

        >>> str(half('1e-7')), str(half('-inf')), str(half.from_bits(0x7e01)), str(e4m3fn(448)), str(single(2**60))
        ('1e-7', '-inf', 'nan', '448.0', '1152921500000000000.0')
        >>> print(double_pair(1) / 3)
        0.3333333333333333 + 1.8503717077085944e-17
        """
        return ' + '.join(part._decimal() for part in self._parts())

    def _spelled(self) -> str | None:
        """A text that the format reads as exactly these bits, to nearest; None if there is none."""
        text = ' + '.join(_hexadecimal(part) if part.is_nan else part._decimal() for part in self._parts())
        with Context():
            return text if self.format(text).bits == self.bits else None

    def __repr__(self) -> str:
        """The format and a text that it reads as the value to nearest; a NaN has its sign and its payload.

        Bits that no text gives are shown as such.

        >>> half.from_bits(0x7e01), single('1e10'), double('-0'), half.ieee(1.5), x87.from_bits(1 << 63)
        (half('nan(0x1)'), single('10000000000.0'), double('-0.0'), half.ieee('1.5'), x87.from_bits(0x8000000000000000))
        """
        text = self._spelled()
        return f'{self.format}.from_bits({self.bits:#x})' if text is None else f'{self.format}({text!r})'

    def __format__(self, spec: str) -> str:
        """The text of str in the width that is asked for, or the value as Python's decimal.Decimal formats it exactly.

        It is the text of str without a precision and a type, and then a sign, a fill, an alignment and a width may be
        given.

        >>> f'{half("0.1")}|{half("0.1"):>8}|{half("-0.1"):*<8}|{half("1e-7"):+}|{half("-0.1"):08}'
        '0.1|     0.1|-0.1****|+1e-7|-00000.1'
        >>> f'{half("0.1"):.3e} {half("0.1"):.20f} {half("1.5")}, {quad.smallest:.3e} {-quad.largest:.3e}'
        '9.998e-2 0.09997558593750000000 1.5, 6.475e-4966 -1.190e+4932'
        """
        matched = _WIDTH.fullmatch(spec)
        if matched:
            return _aligned(str(self), *matched.groups(default=''))
        if self.is_nan or self.is_infinite:
            return format(decimal.Decimal(str(self)), spec)
        numerator, denominator = self.as_integer_ratio()
        places = denominator.bit_length() - 1
        # Python makes no text of an integer with so many digits as those of `quad`.
        size = decimal.Decimal(abs(numerator) * 5**places).scaleb(-places, decimal.Context(_MOST_DIGITS))
        return format(size.copy_negate() if self.is_negative else size, spec)


# The machines, the operations on values of a format with how many operands they take, and the rules of minima, each in
# the order of their codes, which begin at 1. A word may have spaces or hyphens in place of its underscores.
_MACHINES = ('x86', 'x87', 'arm', 'arm_default_nan', 'arm_alternate', 'risc_v', 'power', 's390x',
             'arm_alternate_default_nan', 'webassembly', 'ptx', 'mips_2008', 'loongarch', 'sparc', 'm68k')
_OF_MACHINES = {'add': 2, 'sub': 2, 'mul': 2, 'div': 2, 'remainder': 2, 'fmod': 2, 'fma': 3, 'sqrt': 1,
                'round_to_integral': 1, 'integral': 1}
_RULES = ('second', 'second_quietly', 'first_nan', 'number_2008', 'number_2019', 'propagated')
_CONVERT, _TO_U128, _TO_I128, _LEAST, _GREATEST = 11, 12, 13, 14, 15
_RANGE, _TO_ALTERNATIVE_HALF, _FROM_ALTERNATIVE_HALF = 18, 19, 20


def _with_underscores(words: str) -> str:
    return words.replace(' ', '_').replace('-', '_')


class Machine:
    """A processor, with what it delivers where IEEE 754 leaves a choice or is not followed (docs/MACHINES.md).

    Operations round in the mode of the context, and add the flags of IEEE 754 to its flags. Only formats with a choice
    of flags have them, as half does; what the machine does not have is refused.

    >>> x, y = half.from_bits(0x7e01), half.from_bits(0x7d02)
    >>> [hex(machine(name).delivers('add', x, y).bits) for name in ('x86', 'arm', 'risc_v')]
    ['0x7e01', '0x7f02', '0x7e00']
    >>> [machine(name).to_integer(half('nan'), 8) for name in ('x86', 'arm', 'risc_v')]
    [-128, 0, 127]
    >>> machine('x87').delivers('fma', x87(1), x87(1), x87(1))
    Traceback (most recent call last):
    ...
    apfloat.Refused: the machine does not have the operation
    """

    name: str

    def __init__(self, name: str) -> None:
        word = 'risc_v' if name == 'riscv' else _with_underscores(name)
        if word not in _MACHINES:
            raise ValueError(f'{name!r} is no machine: {", ".join(_MACHINES)}')
        self.name = word

    def __repr__(self) -> str:
        return f'machine({self.name!r})'

    def _answer(self, operation: int, to: int, *values: Value) -> _Answer:
        x, y, z = [*values, *values, *values][:3]
        if not x.format == y.format == z.format:
            raise TypeError(f'operands of {x.format}, {y.format} and {z.format}: convert them to one format')
        return _call('machine', _MACHINES.index(self.name) + 1, operation, x.format.code, context().mode, to,
                     _halves(x.bits), _halves(y.bits), _halves(z.bits))

    def delivers(self, operation: str, *values: Value) -> Value:
        """add, sub, mul, div, remainder, fmod, fma, sqrt, round_to_integral or integral (without INEXACT)."""
        if _OF_MACHINES.get(operation) != len(values):
            raise ValueError(f'{operation!r} is none of {", ".join(_OF_MACHINES)}, or takes other operands')
        answer = self._answer(list(_OF_MACHINES).index(operation) + 1, 0, *values)
        return Value(values[0].format, _whole(answer.bits))

    def convert(self, x: Value, to: Format) -> Value:
        """The value in another format.

        >>> hex(machine('arm').convert(single.from_bits(0xffc02000), half).bits)
        '0xfe01'
        """
        return Value(to, _whole(self._answer(_CONVERT, to.code, x).bits))

    def to_integer(self, x: Value, width: int, signed: bool = True) -> int:
        """The value as an integer of that many binary digits."""
        answer = self._answer(_TO_I128 if signed else _TO_U128, width, x)
        return _signed(answer.bits) if signed else _whole(answer.bits)

    def least(self, rule: str, x: Value, y: Value) -> Value:
        """The lesser of two values, by a rule.

        It is one of second, second_quietly, first_nan, number_2008, number_2019 and propagated.

        >>> machine('x86').least('second', half('0.0'), half('-0.0'))
        half('-0.0')
        >>> machine('arm').least('number_2008', half('nan'), half(1))
        half('1.0')
        """
        return self._extreme(_LEAST, rule, x, y)

    def greatest(self, rule: str, x: Value, y: Value) -> Value:
        """The greater of two values, by a rule."""
        return self._extreme(_GREATEST, rule, x, y)

    def vrange(self, immediate: int, x: Value, y: Value) -> Value:
        """What VRANGE of x86 gives for the lower four bits of its immediate operand.

        >>> machine('x86').vrange(0b1111, half(-2), half(1))
        half('-2.0')
        """
        return Value(x.format, _whole(self._answer(_RANGE, immediate, x, y).bits))

    def to_alternative_half(self, x: Value) -> int:
        """The bits of the value in Arm's alternative half precision (FPCR.AHP).

        >>> hex(machine('arm').to_alternative_half(single(131008)))
        '0x7fff'
        """
        return _whole(self._answer(_TO_ALTERNATIVE_HALF, 0, x).bits)

    def from_alternative_half(self, bits: int, to: Format) -> Value:
        """The value of these 16 bits.

        >>> machine('arm').from_alternative_half(0x7fff, single)
        single('131008.0')
        """
        halves = _halves(bits)
        answer = _call('machine', _MACHINES.index(self.name) + 1, _FROM_ALTERNATIVE_HALF, to.code, context().mode, 0,
                       halves, halves, halves)
        return Value(to, _whole(answer.bits))

    def _extreme(self, operation: int, rule: str, x: Value, y: Value) -> Value:
        word = _with_underscores(rule)
        if word not in _RULES:
            raise ValueError(f'{rule!r} is no rule: {", ".join(_RULES)}')
        return Value(x.format, _whole(self._answer(operation, _RULES.index(word) + 1, x, y).bits))


def machine(name: str) -> Machine:
    """The machine of a word.

    It is one of x86, x87, arm, arm_default_nan, arm_alternate, risc_v, power, s390x, arm_alternate_default_nan,
    webassembly, ptx, mips_2008, loongarch, sparc and m68k.
    """
    return Machine(name)


# A fill and an alignment, a sign, and a width after a 0 if zeros are to fill it.
_WIDTH = re.compile('(?:(.)?([<>=^]))?([-+ ]?)(0?)([0-9]*)', re.DOTALL)


def _aligned(text: str, fill: str, alignment: str, plus: str, zero: str, width: str) -> str:
    """The text of a number in a width, as Python's floats are aligned: to the right, if nothing else is asked for."""
    sign = '-' if text.startswith('-') else plus.replace('-', '')
    digits = text.removeprefix('-')
    if zero:
        fill, alignment = fill or '0', alignment or '='
    if alignment == '=':
        return sign + digits.rjust(int(width or 0) - len(sign), fill or ' ')
    return format(sign + digits, f'{fill}{alignment or ">"}{width}')


# ---- arrays

# The memory for a table of the results of an operation on values of 8 bits or of the conversion of values of 16, and
# from how many values on it is used.
_TABLE_BYTES = 1 << 19
_LEAST_BY_TABLE = 1 << 17
# The codes of operations on arrays.
_OPERATIONS = {'add': 1, 'sub': 2, 'mul': 3, 'div': 4, 'rem': 5, 'mod': 6, 'fma': 7, 'sqrt': 8}
# What is joined to the code of a mode.
_SATURATIONS = {False: 0, True: 0x100, 'finite': 0x300, 'all': 0x700}
# The modes of conversions into storage formats alone, and the codes of operations on these with their operands.
_TO_ODD, _RANDOM_DIGITS = 5, 6
_STORED_OPERATIONS = {'add': (1, 2), 'sub': (2, 2), 'mul': (3, 2), 'div': (4, 2), 'fma': (7, 3), 'sqrt': (8, 1),
                      'minimum': (14, 2), 'maximum': (15, 2)}
# The codes of struct for integers of as many bytes.
_WORDS = {1: 'B', 2: 'H', 4: 'I', 8: 'Q'}
# In what words an element of so many bytes is moved, and how many they are.
_WORDS_OF = {1: ('B', 1), 2: ('H', 1), 4: ('I', 1), 8: ('Q', 1), 10: ('H', 5), 16: ('Q', 2)}
# An array of more elements is shown with `...`.
_MOST_SHOWN = 1000


# The kind of an array's elements.
_Element = TypeVar('_Element')


class _Elements(Generic[_Element]):
    """Elements of some bytes each, one after another: along the last axis first, then along the one before it."""

    __slots__ = ('_stored', 'shape')

    # They are bytes until an element is assigned.
    _stored: bytes | bytearray
    shape: tuple[int, ...]

    @property
    def _data(self) -> bytes:
        """The bytes of the elements, which nothing changes."""
        if isinstance(self._stored, bytearray):
            self._stored = bytes(self._stored)
        return self._stored

    @property
    def _width(self) -> int:
        """How many bytes an element takes."""
        raise NotImplementedError

    def _like(self, data: bytes, shape: tuple[int, ...]) -> Self:
        """The same kind of array with other elements."""
        raise NotImplementedError

    def _element(self, data: bytes) -> _Element:
        """The element of these bytes."""
        raise NotImplementedError

    def _assignable(self, value: Any) -> Self:
        """What is assigned, as an array like this one."""
        raise NotImplementedError

    def _reshaped(self, data: bytes, shape: tuple[int, ...] | None) -> None:
        """Sets the elements, along one axis if no shape is given."""
        count = len(data) // self._width
        if shape is not None and math.prod(shape) != count:
            raise ValueError(f'{count} elements have no shape {shape}')
        self._stored, self.shape = data, (count,) if shape is None else tuple(shape)

    @property
    def ndim(self) -> int:
        """The number of axes."""
        return len(self.shape)

    @property
    def size(self) -> int:
        """The number of elements."""
        return math.prod(self.shape)

    def reshape(self, *shape: Any) -> Self:
        """The same elements in another shape; a length of -1 is the one that is left.

        >>> half.array(range(6)).reshape(2, -1)
        half.array([['0.0', '1.0', '2.0'], ['3.0', '4.0', '5.0']])
        """
        lengths = list(shape[0] if len(shape) == 1 and isinstance(shape[0], (tuple, list)) else shape)
        if -1 in lengths:
            others = math.prod(length for length in lengths if length != -1)
            lengths[lengths.index(-1)] = self.size // others if others else 0
        if any(length < 0 for length in lengths) or math.prod(lengths) != self.size:
            raise ValueError(f'{self.size} elements have no shape {tuple(shape)}')
        return self._like(self._data, tuple(lengths))

    @property
    def nbytes(self) -> int:
        """How many bytes the elements take."""
        return self.size * self._width

    @property
    def T(self) -> Self:
        """The array with its axes in the opposite order.

        >>> half.array([[1, 2, 3], [4, 5, 6]]).T
        half.array([['1.0', '4.0'], ['2.0', '5.0'], ['3.0', '6.0']])
        """
        return self.transpose()

    def transpose(self, *axes: Any) -> Self:
        """The array with its axes in this order, or in the opposite one if none is given.

        >>> half.array(range(6)).reshape(1, 2, 3).transpose(2, 0, 1).shape
        (3, 1, 2)
        """
        given = axes[0] if len(axes) == 1 and isinstance(axes[0], (tuple, list)) else axes
        order = [_axis(axis, self.ndim) for axis in given] or list(range(self.ndim))[::-1]
        if sorted(order) != list(range(self.ndim)):
            raise ValueError(f'{tuple(given)} is no order of {self.ndim} axes')
        strides = _strides(self.shape)
        selected = [(self.shape[axis], strides[axis]) for axis in order]
        return self._like(_gathered(self._data, self._width, 0, selected), tuple(length for length, _ in selected))

    def _moved(self, axis: int, to: int) -> Self:
        """The array with one axis at another place."""
        order = [other for other in range(self.ndim) if other != axis]
        order.insert(to, axis)
        return self if order == list(range(self.ndim)) else self.transpose(order)

    def _rows(self, axis: int | None) -> tuple[Self, tuple[int, ...]]:
        """The array in rows along an axis, and the shape of what there is one of for each row."""
        moved = self if axis is None else self._moved(_axis(axis, self.ndim), self.ndim - 1)
        shape = () if axis is None else moved.shape[:-1]
        length = self.size if axis is None else moved.shape[-1]
        return moved.reshape(math.prod(shape), length), shape

    def _last_rows(self) -> list[bytes]:
        """The bytes of the rows along the last axis."""
        data, length = self._data, self.shape[-1] * self._width
        return [data[place * length:(place + 1) * length] for place in range(math.prod(self.shape[:-1]))]

    def __len__(self) -> int:
        if not self.shape:
            raise TypeError('an array without axes has no length')
        return self.shape[0]

    def __iter__(self) -> Iterator[Any]:
        return map(self._element, self._items()) if self.ndim == 1 else (self[at] for at in range(len(self)))

    @overload
    def __getitem__(self, index: slice | list[Any] | Mask | types.EllipsisType | None) -> Self: ...

    @overload
    def __getitem__(self, index: int | tuple[Any, ...]) -> _Element | Self: ...

    def __getitem__(self, index: Any) -> Any:
        """An element or a part, by an integer or a slice for each axis, or by a mask of the same shape.

        As in numpy, `...` stands for all axes that are not named, and None for a new one of length 1. For one axis
        there may be a list of integers. A part is a copy.

        >>> xs = half.array([[1, 2, 3], [4, 5, 6]])
        >>> xs[1, 0], xs[0], xs[:, ::2]
        (half('4.0'), half.array(['1.0', '2.0', '3.0']), half.array([['1.0', '3.0'], ['4.0', '6.0']]))
        >>> xs[xs > 2], xs[:, [2, 0]]
        (half.array(['3.0', '4.0', '5.0', '6.0']), half.array([['3.0', '1.0'], ['6.0', '4.0']]))
        """
        mask = _mask_of(index)
        if mask is not None:
            return self._chosen(mask)
        index = index if isinstance(index, tuple) else (index,)
        place = _place_of_list(index)
        if place is not None:
            return self._taken(index, place)
        offset, axes = _selected(index, self.shape)
        data = _gathered(self._stored, self._width, offset, axes)
        if not axes and not any(each is Ellipsis for each in index):
            return self._element(data)
        return self._like(data, tuple(length for length, _ in axes))

    def _taken(self, index: tuple[Any, ...], place: int) -> Self:
        """The part that an index names which has a list at this place."""
        part: Any = self[(*index[:place], slice(None), *index[place + 1:])]
        axis = _axis_at(index, place, self.ndim)
        moved: Self = part._moved(axis, 0)
        row = math.prod(moved.shape[1:]) * self._width
        chosen = _places(index[place], moved.shape[0])
        data = b''.join([moved._data[at * row:(at + 1) * row] for at in chosen])
        return self._like(data, (len(chosen), *moved.shape[1:]))._moved(0, axis)

    def _chosen(self, mask: Mask) -> Self:
        code, count = _WORDS_OF[self._width]
        held = self._fitting(mask)
        if count > 1:
            held = bytes(itertools.chain.from_iterable(zip(*[held] * count)))
        chosen = array.array(code, itertools.compress(memoryview(self._data).cast(code), held))
        return self._like(chosen.tobytes(), (len(chosen) // count,))

    def _fitting(self, mask: Mask) -> bytes:
        """For each element, whether a mask has it."""
        if mask.shape != self.shape:
            raise IndexError(f'a mask of shape {mask.shape} does not fit an array of shape {self.shape}')
        return mask._data

    def __setitem__(self, index: Any, value: Any) -> None:
        """Assigns to an element or a part, which is named as for getting it. Other arrays keep what they have.

        What is assigned is stretched to the part, and has to be what an operand of the array has to be: nothing is
        rounded, and nothing is written if something is refused.

        >>> xs = half.array([[1, 2, 3], [4, 5, 6]])
        >>> xs[0, 0], xs[:, 1], xs[xs > 4] = 0.5, [7, 8], 0
        >>> xs
        half.array([['0.5', '0.0', '3.0'], ['4.0', '0.0', '0.0']])
        >>> xs[0, 0] = 0.1
        Traceback (most recent call last):
        ...
        ValueError: 0.1 is not a value of half
        """
        values = self._assignable(value)
        mask = _mask_of(index)
        if mask is not None:
            chosen = list(itertools.compress(range(self.size), self._fitting(mask)))
            self._assign(chosen, values._onto((len(chosen),)))
            return
        index = index if isinstance(index, tuple) else (index,)
        place = _place_of_list(index)
        if place is None:
            offset, axes = _selected(index, self.shape)
            shape = tuple(length for length, _ in axes)
            data, strides = values._onto(shape), [stride for _, stride in axes]
            _copied(self._width, shape, data, 0, _strides(shape), self._writable(), offset, strides)
            return
        # The places of the elements that a list names are a part of all places.
        places = _Places(self.shape)[index]
        self._assign(list(_unpacked('Q', places._data)), values._onto(places.shape))

    def _onto(self, shape: tuple[int, ...]) -> bytes:
        """The bytes of the elements, stretched to a shape."""
        if _common_shape(shape, self.shape) != shape:
            raise Refused(6, f'{_error_text(6)}: shapes {shape} and {self.shape}')
        return self._stretched(shape)._data

    def _writable(self) -> bytearray:
        if not isinstance(self._stored, bytearray):
            self._stored = bytearray(self._stored)
        return self._stored

    def _assign(self, places: list[int], data: bytes) -> None:
        """Writes elements to these places."""
        code, count = _WORDS_OF[self._width]
        target, source = memoryview(self._writable()).cast(code), memoryview(data).cast(code)
        for word in range(count):
            at = places if count == 1 else [place * count + word for place in places]
            collections.deque(map(target.__setitem__, at, source[word::count]), 0)

    def _items(self) -> Iterator[bytes]:
        """The bytes of each element."""
        return (self._data[at:at + self._width] for at in range(0, len(self._data), self._width))

    def _stretched(self, shape: tuple[int, ...]) -> Self:
        """The array in a shape that its own is stretched to, as numpy does it: axes of length 1 are repeated."""
        if shape == self.shape:
            return self
        own = (1,) * (len(shape) - self.ndim) + self.shape
        axes = [(length, stride if held == length else 0) for length, held, stride in zip(shape, own, _strides(own))]
        return self._like(_gathered(self._data, self._width, 0, axes), shape)

    def _shown(self, texts: Callable[[Self], list[Any]]) -> str:
        """The elements in brackets, with `...` in place of all but three at each end of a long axis of a long array."""
        if self.size <= _MOST_SHOWN:
            return repr(self._listed(texts(self)))
        ends = [list(range(3)) + list(range(length - 3, length)) if length > 6 else list(range(length))
                for length in self.shape]
        part: Any = self
        for axis, places in enumerate(ends):
            part = part[(slice(None),) * axis + (places,)]
        return _with_ellipses(_listed(iter(texts(part)), part.shape), [length > 6 for length in self.shape])

    def _listed(self, elements: Iterable[Any]) -> Any:
        """One thing for each element, as nested lists of the shape."""
        return _listed(iter(elements), self.shape)

    def tolist(self) -> Any:
        """The elements as nested lists of the shape; of an array without axes, the element."""
        return self._listed(map(self._element, self._items()))


class _Places(_Elements[int]):
    """The places of the elements of an array of some shape."""

    __slots__ = ()

    def __init__(self, shape: tuple[int, ...]) -> None:
        self._reshaped(_packed('Q', range(math.prod(shape))), shape)

    @property
    def _width(self) -> int:
        return 8

    def _like(self, data: bytes, shape: tuple[int, ...]) -> Self:
        made = object.__new__(type(self))
        made._reshaped(data, shape)
        return made


class Mask(_Elements[bool]):
    """Whether something holds for each element of an array: what a comparison of arrays gives.

    >>> xs = half.array([1, 2, 3])
    >>> xs > 1, (xs > 1).any(), (xs > 1).all(), ~(xs > 1) | (xs == 3)
    (Mask([False, True, True]), True, False, Mask([True, False, True]))
    """

    __slots__ = ()

    # As masks are compared element by element, they are no keys.
    __hash__ = None  # type: ignore[assignment]

    def __init__(self, of: Any) -> None:
        """A mask of nested lists, or of an array, of truth values."""
        if hasattr(of, '__array_interface__') and of.dtype == bool:
            self._reshaped(of.tobytes(), of.shape)
            return
        shape, items = _nested(of.tolist() if hasattr(of, 'tolist') else of)
        self._reshaped(bytes(map(bool, items)), getattr(of, 'shape', shape))

    @property
    def _width(self) -> int:
        return 1

    @classmethod
    def _of_bytes(cls, data: bytes, shape: tuple[int, ...]) -> Self:
        made = object.__new__(cls)
        made._reshaped(data, shape)
        return made

    def _like(self, data: bytes, shape: tuple[int, ...]) -> Self:
        return self._of_bytes(data, shape)

    def _element(self, data: bytes) -> bool:
        return data != b'\x00'

    def _assignable(self, value: Any) -> Self:
        made = value if isinstance(value, Mask) else Mask(value)
        return self._like(made._data, made.shape)

    @overload
    def any(self, axis: None = None, out: None = None) -> bool: ...

    @overload
    def any(self, axis: int, out: None = None) -> Any: ...

    def any(self, axis: int | None = None, out: None = None) -> Any:
        """Whether it holds for any element: of all, or nested lists along an axis. numpy passes `out`, as None."""
        return self._of_rows(lambda row: 1 in row, axis, out)

    @overload
    def all(self, axis: None = None, out: None = None) -> bool: ...

    @overload
    def all(self, axis: int, out: None = None) -> Any: ...

    def all(self, axis: int | None = None, out: None = None) -> Any:
        """Whether it holds for all elements, likewise."""
        return self._of_rows(lambda row: 0 not in row, axis, out)

    @overload
    def sum(self, axis: None = None, dtype: None = None, out: None = None) -> int: ...

    @overload
    def sum(self, axis: int, dtype: None = None, out: None = None) -> Any: ...

    def sum(self, axis: int | None = None, dtype: None = None, out: None = None) -> Any:
        """For how many elements it holds, likewise.

        >>> (half.array([[1, -2, 3], [4, 0, -6]]) > 0).sum(axis=1)
        [2, 1]
        """
        return self._of_rows(lambda row: row.count(1), axis, dtype, out)

    def _of_rows(self, what: Callable[[bytes], int], axis: int | None, *given: None) -> Any:
        """What is found of the bytes of each row along an axis."""
        _none_given(*given)
        rows, shape = self._rows(axis)
        return _listed(map(what, rows._last_rows()), shape)

    def __bool__(self) -> bool:
        if self.size != 1:
            raise ValueError(f'a mask of {self.size} elements is neither true nor false: use any() or all()')
        return 1 in self._data

    def _combined(self, other: Any, operation: Callable[[int, int], int], then: int = 0) -> Mask:
        """What an operation makes of the elements of two masks, each of them then joined to the same bit."""
        if isinstance(other, bool) or hasattr(other, '__array_interface__'):
            other = Mask(other)
        if not isinstance(other, Mask):
            return NotImplemented
        shape = _common_shape(self.shape, other.shape)
        left, right = [int.from_bytes(each._stretched(shape)._data, 'little') for each in (self, other)]
        size = math.prod(shape)
        made = operation(left, right) ^ int.from_bytes(bytes([then]) * size, 'little')
        return self._like(made.to_bytes(size, 'little'), shape)

    def __and__(self, other: Any) -> Mask:
        return self._combined(other, operator.and_)

    def __or__(self, other: Any) -> Mask:
        return self._combined(other, operator.or_)

    def __xor__(self, other: Any) -> Mask:
        return self._combined(other, operator.xor)

    __rand__, __ror__, __rxor__ = __and__, __or__, __xor__

    def __eq__(self, other: Any) -> Any:
        return self._combined(other, operator.xor, 1)

    def __ne__(self, other: Any) -> Any:
        return self._combined(other, operator.xor)

    def __invert__(self) -> Mask:
        return self ^ True

    def __array__(self, dtype: Any = None, copy: bool | None = None) -> Any:
        import numpy
        made = numpy.frombuffer(self._data, bool).reshape(self.shape)
        return made.astype(made.dtype if dtype is None else dtype, copy=bool(copy))

    def __repr__(self) -> str:
        return f'Mask({self._shown(lambda part: list(map(part._element, part._items())))})'


class _Numbers(_Elements[Value]):
    """What arrays of values and of those of storage formats have."""

    __slots__ = ()

    format: Any
    counts: Any

    def _exact(self) -> Array:
        """The same values in a format that has an order."""
        raise NotImplementedError

    @property
    def dtype(self) -> Any:
        """The format."""
        return self.format

    @overload
    def max(self, axis: None = None, out: None = None) -> Value: ...

    @overload
    def max(self, axis: int, out: None = None) -> Value | Self: ...

    def max(self, axis: int | None = None, out: None = None) -> Any:
        """The greatest value, of all or along an axis: the first NaN if there is one, and -0 is below +0.

        numpy passes `out`, as None.

        >>> xs = half.array([[1, -2, 3], [4, 0, -6]])
        >>> xs.max(), xs.min(axis=1), xs.argmax(), xs.argmin(axis=0)
        (half('4.0'), half.array(['-2.0', '-6.0']), 3, [0, 0, 1])
        """
        return self._extreme(True, axis, out)

    @overload
    def min(self, axis: None = None, out: None = None) -> Value: ...

    @overload
    def min(self, axis: int, out: None = None) -> Value | Self: ...

    def min(self, axis: int | None = None, out: None = None) -> Any:
        """The least value, of all or along an axis: the first NaN if there is one, and -0 is below +0."""
        return self._extreme(False, axis, out)

    def argmax(self, axis: int | None = None) -> Any:
        """The place of the greatest value: in the array as one row, or nested lists of the places along an axis."""
        return self._place_of_extreme(True, axis)

    def argmin(self, axis: int | None = None) -> Any:
        """The place of the least value: in the array as one row, or nested lists of the places along an axis."""
        return self._place_of_extreme(False, axis)

    def _places_of_extremes(self, greatest: bool, axis: int | None) -> tuple[Self, tuple[int, ...], list[int]]:
        rows, shape = self._rows(axis)
        if not rows.shape[1]:
            raise ValueError('no value is the greatest or the least of none')
        return rows, shape, _extremes(rows._exact(), greatest)

    def _extreme(self, greatest: bool, axis: int | None, out: None) -> Any:
        _none_given(out)
        rows, shape, places = self._places_of_extremes(greatest, axis)
        if not shape:
            return rows[0, places[0]]
        width, length = self._width, rows.shape[1]
        starts = ((row * length + place) * width for row, place in enumerate(places))
        return self._like(b''.join([rows._data[at:at + width] for at in starts]), shape)

    def _place_of_extreme(self, greatest: bool, axis: int | None) -> Any:
        _, shape, places = self._places_of_extremes(greatest, axis)
        return _listed(iter(places), shape)

    def numbers(self) -> memoryview:
        """The numbers as a view of a copy in memory, in the shape of the array: in C's float, or in its double if that
        is needed for the numbers of the format.

        >>> view = e4m3fn.array([[0.5, -1], [2, 448]]).numbers()
        >>> view.format, view.tolist()
        ('f', [[0.5, -1.0], [2.0, 448.0]])
        """
        target, code = (double, 'd') if _type_of_numbers(self.format._plain) == 'float64' else (single, 'f')
        data = self._exactly(target)._data
        if sys.byteorder == 'big':
            data = _unpacked(_WORDS[target._bytes], data).tobytes()
        view = memoryview(data)
        return view.cast(code, self.shape) if self.size and self.shape else view.cast(code)

    def _exactly(self, format: Any) -> Any:
        """The same values in another format, which has to have all of them."""
        raise NotImplementedError

    def __array__(self, dtype: Any = None, copy: bool | None = None) -> Any:
        raise NotImplementedError

    def __dlpack_device__(self) -> tuple[int, int]:
        """The processor's own memory, for DLPack."""
        return 1, 0

    def __dlpack__(self, *, stream: Any = None, max_version: Any = None, dl_device: Any = None,
                   copy: bool | None = None) -> Any:
        """The numbers for DLPack, as a copy that numpy makes: in the type in which numpy gets them."""
        if stream is not None or dl_device not in (None, (1, 0)):
            raise BufferError('the numbers are in the memory of the processor alone')
        if copy is False:
            raise BufferError(f'values of {self.format} become numbers by a copy')
        return self.__array__().__dlpack__()


# The functions of numpy behind its operators, with the methods of an array on their left, and of one on their right.
_OPERATORS_OF_NUMPY = {
    'add': ('__add__', '__radd__'), 'subtract': ('__sub__', '__rsub__'), 'multiply': ('__mul__', '__rmul__'),
    'divide': ('__truediv__', '__rtruediv__'), 'true_divide': ('__truediv__', '__rtruediv__'),
    'remainder': ('__mod__', '__rmod__'), 'matmul': ('__matmul__', '__rmatmul__'), 'equal': ('__eq__', '__eq__'),
    'not_equal': ('__ne__', '__ne__'), 'less': ('__lt__', '__gt__'), 'less_equal': ('__le__', '__ge__'),
    'greater': ('__gt__', '__lt__'), 'greater_equal': ('__ge__', '__le__'), 'negative': ('__neg__',),
    'positive': ('__pos__',), 'absolute': ('__abs__',),
}


class Array(_Numbers, _Arithmetic[Any]):
    """Values of one format in any number of axes. An operation makes a new array, of the results of its elements.

    Each element is rounded once, in the mode of the context, and its flags are added to those of the context. `counts`
    says how many values raised each flag, and how many results are NaNs. An operand may be a numpy array of the format,
    nested lists, or a value or a number, which is used for each element; axes of length 1 are stretched, as numpy does
    it.

    >>> xs = single.array([1, 2, 3])
    >>> thirds = xs / 3
    >>> thirds, thirds.counts['inexact'], thirds[0] == single(1) / 3
    (single.array(['0.33333334', '0.6666667', '1.0']), 2, True)
    >>> xs.fma(xs, -1).sqrt()
    single.array(['0.0', '1.7320508', '2.828427'])
    >>> -xs % 2, abs(-xs), xs == 2
    (single.array(['1.0', '0.0', '1.0']), single.array(['1.0', '2.0', '3.0']), Mask([False, True, False]))
    >>> xs + xs.reshape(3, 1)[:2]
    single.array([['2.0', '3.0', '4.0'], ['3.0', '4.0', '5.0']])
    """

    __slots__ = ('format', 'counts')

    format: Format
    counts: Any

    # As arrays are compared element by element, they are no keys.
    __hash__ = None  # type: ignore[assignment]

    def __init__(self, format: Format, data: bytes, counts: dict[str, int] | None = None,
                 shape: tuple[int, ...] | None = None) -> None:
        if len(data) % format._bytes:
            raise ValueError(f'{len(data)} bytes are no array of {format}, whose values take {format._bytes}')
        self.format, self.counts = format, counts
        self._reshaped(bytes(data), shape)

    def __reduce__(self) -> tuple[Any, ...]:
        return Array, (self.format, self._data, self.counts, self.shape)

    @property
    def _width(self) -> int:
        return self.format._bytes

    def _like(self, data: bytes, shape: tuple[int, ...]) -> Self:
        return type(self)(self.format, data, shape=shape)

    def _element(self, data: bytes) -> Value:
        return Value(self.format, int.from_bytes(data, 'little'))

    def _assignable(self, value: Any) -> Self:
        operand = self._operand(value)
        if operand is NotImplemented:
            raise TypeError(f'{value!r} is no value of {self.format}')
        return cast(Self, operand)

    def _exact(self) -> Array:
        if self.format._plain is not x87:
            return self
        with Context():
            return self.to(quad)

    def _patterns(self) -> list[int]:
        """The bits of each value."""
        if self._width in _WORDS:
            return list(_unpacked(_WORDS[self._width], self._data))
        return [int.from_bytes(item, 'little') for item in self._items()]

    @property
    def bits(self) -> Any:
        """The bits of the values, as a numpy array of integers without a sign.

        Without numpy, and in formats of more than 64 bits, they are nested lists. `from_bits` makes the array again.

        >>> xs = half.array([[1, 2], [3, 4]])
        >>> xs.bits.tolist() if hasattr(xs.bits, 'tolist') else xs.bits
        [[15360, 16384], [16896, 17408]]
        >>> (half.from_bits(xs.bits) == xs).all()
        True
        """
        try:
            import numpy
        except ImportError:
            return self._listed(self._patterns())
        if self._width > 8:
            return self._listed(self._patterns())
        return numpy.frombuffer(self._data, f'<u{self._width}').reshape(self.shape)

    def __bytes__(self) -> bytes:
        """The bytes of the values, the lowest byte of each first."""
        return self._data

    def __array__(self, dtype: Any = None, copy: bool | None = None) -> Any:
        """The values for numpy, in the shape of the array.

        They are the numbers, in the type asked for: a ValueError says how many of them it does not have, if there are
        such, and `astype` rounds them. The types of ml_dtypes are such types too, and with `object` the elements are
        values. Without a type it is the narrowest of float16, float32 and float64 that has all numbers of the format,
        and float64 for `quad`, `x87` and `double_pair`, which have more. The codes are `bits`.
        """
        import numpy
        wanted = numpy.dtype(_type_of_numbers(self.format._plain) if dtype is None else dtype)
        if wanted == object:
            made = numpy.empty(self.size, object)
            made[:] = list(map(self._element, self._items()))
            return made.reshape(self.shape)
        stored = _stored_of(wanted)
        if stored:
            return self._exactly(stored).__array__(wanted)
        exact = self._exactly(_named(wanted))
        if copy is False and exact is not self:
            raise ValueError(f'values of {self.format} become {wanted} by a copy')
        elements = _ELEMENTS[exact.format.code & _FORMAT_BITS]
        held = numpy.frombuffer(exact._data if copy is False else bytearray(exact._data), '<' + elements)
        held = held.reshape(self.shape)
        return held.astype(wanted, copy=False) if elements[0] == 'f' else held.view(wanted)

    def __array_ufunc__(self, function: Any, method: str, *operands: Any, **options: Any) -> Any:
        """Operators of numpy leave these arrays to this class, and its other functions get the numbers."""
        names = _OPERATORS_OF_NUMPY.get(function.__name__)
        if names and method == '__call__' and not options:
            place = 0 if isinstance(operands[0], Array) else 1
            return getattr(operands[place], names[place])(*operands[:place], *operands[place + 1:])
        if any(isinstance(each, Array) for each in options.get('out', ())):
            return NotImplemented
        import numpy
        numbers = [numpy.asarray(each) if isinstance(each, Array) else each for each in operands]
        return getattr(function, method)(*numbers, **options)

    def _exactly(self, format: Any) -> Any:
        """The same values in another format, which has to have all of them."""
        if format is self.format._plain:
            return self
        source = self
        if self.format is double_pair:
            parts = Array(double, self._data)
            lows: Mask = parts[1::2] != 0
            if lows.any():
                raise ValueError(f'{lows.sum()} of {self.size} values are no values of {format}')
            source = parts[::2].reshape(self.shape)
        with Context() as exact:
            made = source if source.format is format else source.to(format)
        lost = made.counts['inexact'] if made.counts else 0
        if isinstance(made, StoredArray):
            lost += made.counts['invalid_op']
        if lost:
            raise ValueError(f'{lost} of {self.size} values are no values of {format}')
        return made

    def __repr__(self) -> str:
        """The format and texts, or else bits, that it reads as these values to nearest."""
        made, listed = 'array', self._shown(lambda part: [element._spelled() for element in part.reshape(-1)])
        if 'None' in listed:
            made, listed = 'from_bits', self._shown(Array._patterns)
        # Nested lists don't say the lengths that come after a 0.
        shape = f'.reshape{self.shape}' if 0 in self.shape[:-1] else ''
        return f'{self.format}.{made}({listed}){shape}'

    def _converted(self, other: Any) -> Any:
        if hasattr(other, '__array_interface__') and other.shape != ():
            made = _of_numpy(other, self.format)
            if made.format is self.format:
                return made
            if not _has_integers(other):
                raise TypeError(f'elements of {other.dtype} are no values of {self.format}: convert one of them')
            return made._exactly(self.format)
        shape, items = _nested(other) if isinstance(other, (list, tuple)) else ((), [other])
        if len(items) > 1 and self.format is not double_pair:
            numbers = _of_items(items, set(map(type, items)))
            if numbers is not None:
                return numbers.reshape(shape)._exactly(self.format)
        values = [Value(self.format, 0)._operand(item) for item in items]
        if any(value is NotImplemented for value in values):
            return NotImplemented
        return self._like(self.format._joined([value.bits for value in values]), shape)

    def _computed(self, name: str, *operands: Any) -> Any:
        shape = _common_shape(*[operand.shape for operand in operands])
        if name == 'copy_sign':
            return self._with_signs(*[operand._stretched(shape) for operand in operands])
        data = [operand._stretched(shape)._data for operand in operands] + [b''] * (3 - len(operands))
        words = [word for each in data for word in (each, len(each))]
        by_table = self.format._bytes == 1 and len(operands) == 2 and len(data[0]) >= _LEAST_BY_TABLE
        return _array_call('map_array', self.format.code, context().mode, _OPERATIONS[name], *words, of=self.format,
                           shape=shape, by_table=by_table)

    def _floored(self, divisor: Any) -> Any:
        format, rest = self.format, self._computed('mod', self, divisor)
        divisor = divisor._stretched(rest.shape)
        if format._plain in (x87, double_pair):
            return self._floored_one_by_one(rest, divisor)
        place = (format._sign_bit.bit_length() - 1) // 8
        signs = [int.from_bytes(each._data[place::format._bytes], 'little') for each in (rest, divisor)]
        bit = format._sign_bit >> 8 * place
        if not (signs[0] ^ signs[1]) & int.from_bytes(bytes([bit]) * rest.size, 'little'):
            return rest
        # To a rest of the other sign the divisor is added. In all other places, 0 is added to 0.
        kept, rests, divisors = _in_lanes(format, _Lanes.parts_of_rests, rest._data, divisor._data)
        sums = Array(format, rests, shape=rest.shape) + Array(format, divisors, shape=rest.shape)
        made = int.from_bytes(kept, 'little') | int.from_bytes(sums._data, 'little')
        counts = {name: count + sums.counts[name] for name, count in rest.counts.items()} | {'values': rest.size}
        return Array(format, made.to_bytes(len(kept), 'little'), counts, rest.shape)

    def _floored_one_by_one(self, rest: Array, divisor: Array) -> Array:
        format, results, divisors = self.format, rest._patterns(), divisor._patterns()
        added = []
        for at, (left, right) in enumerate(zip(results, divisors)):
            if (left ^ right) & format._sign_bit:
                value = Value(format, left)
                if value.is_zero:
                    results[at] = (-value).bits
                elif not value.is_nan:
                    added.append(at)
        sums: Array = (format.from_bits([results[at] for at in added])
                       + format.from_bits([divisors[at] for at in added]))
        for at, bits in zip(added, sums._patterns()):
            results[at] = bits
        counts = {name: count + sums.counts[name] for name, count in rest.counts.items()} | {'values': rest.size}
        return Array(format, format._joined(results), counts, rest.shape)

    def __neg__(self) -> Array:
        if self.format in (*_WITHOUT_NEGATIVE_ZERO, double_pair):
            return self._mapped(operator.neg)
        number = int.from_bytes(self._data, 'little') ^ self._repeated(self.format._sign_bit)
        return self._like(number.to_bytes(len(self._data), 'little'), self.shape)

    def __pos__(self) -> Array:
        return self

    def __abs__(self) -> Array:
        if self.format in (*_WITHOUT_NEGATIVE_ZERO, double_pair):
            return self._mapped(abs)
        number = int.from_bytes(self._data, 'little') & self._repeated(self.format._sign_bit - 1)
        return self._like(number.to_bytes(len(self._data), 'little'), self.shape)

    def _repeated(self, bits: int) -> int:
        """These bits in each value."""
        return int.from_bytes(self.format._joined([bits]) * self.size, 'little')

    def _mapped(self, operation: Callable[[Value], Value]) -> Array:
        """What an operation that raises no flags makes of each value."""
        if self._width == 1:
            return self._like(self._data.translate(_table(operation, self.format)), self.shape)
        values = (operation(Value(self.format, bits)).bits for bits in self._patterns())
        return self._like(self.format._joined(values), self.shape)

    def _with_signs(self, values: Array, signs: Array) -> Array:
        """The values with the signs of another array of their shape."""
        format = self.format
        if format in _WITHOUT_NEGATIVE_ZERO:
            made, = _in_lanes(format, _Lanes.with_signs, values._data, signs._data)
            return values._like(made, values.shape)
        if format._plain in (x87, double_pair):
            # Some of their values are written with other bits.
            each = (Value(format, value).copy_sign(Value(format, sign)).bits
                    for value, sign in zip(values._patterns(), signs._patterns()))
            return values._like(format._joined(each), values.shape)
        kept, copied = [int.from_bytes(array._data, 'little') & values._repeated(bits)
                        for array, bits in ((values, format._sign_bit - 1), (signs, format._sign_bit))]
        return values._like((kept | copied).to_bytes(len(values._data), 'little'), values.shape)

    def _compared(self, orders: tuple[int, ...], other: Any) -> Mask:
        if hasattr(other, '__array_interface__') and other.shape != ():
            other = _of_numpy(other, self.format)
        elif isinstance(other, (list, tuple)):
            other = _quads(other)
        if isinstance(other, Array):
            shape = _common_shape(self.shape, other.shape)
            left, right = self._stretched(shape), other._stretched(shape)
            if double_pair in (left.format, right.format):
                return Mask._of_bytes(bytes(order in orders for order in _orders(left, right)), shape)
            left, right = _alike(left, right)
            found = _in_lanes(left.format, functools.partial(_Lanes.compared, orders=orders), left._data, right._data)
            return Mask._of_bytes(_truths(left.format, *found), shape)
        number = _plain_number(other)
        if _exact_number(number) is None:
            return NotImplemented
        if self.format is double_pair:
            return Mask._of_bytes(bytes(order in orders for order in _orders(self, number)), self.shape)
        return Mask._of_bytes(self._exact()._beside(orders, _exact_number(number)), self.shape)

    def _beside(self, orders: tuple[int, ...], number: Any) -> bytes:
        """For each value, whether its order beside an exact number is one of these."""
        if self._width == 1:
            floats = _unpacked('d', _every(self.format._plain)._data)
            return self._data.translate(bytes(_order(each, number) in orders for each in floats))
        if number != number:
            return bytes([_UNORDERED in orders]) * self.size
        with Context(DOWNWARD):
            below = self.format(number)
        if below != number:
            # What is at or below the next value below is less, and all else is greater.
            orders = tuple(order for order in orders if order not in _EQUAL)
            if _LESS[0] in orders:
                orders += _EQUAL
        compared = functools.partial(_Lanes.compared_with, bits=below.bits, orders=orders)
        return _truths(self.format, *_in_lanes(self.format, compared, self._data))

    def __eq__(self, other: Any) -> Any:
        return self._compared(_EQUAL, other)

    def __ne__(self, other: Any) -> Any:
        return self._compared(_LESS + _GREATER + (_UNORDERED,), other)

    def __lt__(self, other: Any) -> Mask:
        return self._compared(_LESS, other)

    def __le__(self, other: Any) -> Mask:
        return self._compared(_LESS + _EQUAL, other)

    def __gt__(self, other: Any) -> Mask:
        return self._compared(_GREATER, other)

    def __ge__(self, other: Any) -> Mask:
        return self._compared(_GREATER + _EQUAL, other)

    @overload
    def to(self, format: Format, saturate: bool | str = False) -> Array: ...

    @overload
    def to(self, format: StorageFormat, saturate: bool | str = False) -> StoredArray: ...

    def to(self, format: Any, saturate: bool | str = False) -> Any:
        """The values in another format. With `saturate`, a number that overflows gives the largest one of its sign.
        With `saturate='finite'` an infinity does too, and with `saturate='all'` a NaN gives the largest one, as in
        `Format.array`.

        >>> xs = single.array([1, 1000, -1000])
        >>> xs.to(e4m3fn), xs.to(e4m3fn, saturate=True)
        (e4m3fn.array(['1.0', 'nan', '-nan']), e4m3fn.array(['1.0', '448.0', '-448.0']))
        >>> xs.to(e4m3fn, saturate=True).counts['overflow']
        2
        """
        return _converted_to(self, format, saturate)

    def astype(self, of: Any, saturate: bool | str = False) -> Any:
        """The values in another format, as `to` makes them; for a type of numpy, as a numpy array of that type.

        >>> xs = double.array([0.1, 448])
        >>> xs.astype(e4m3fn), xs.astype(e4m3fn).counts['inexact']
        (e4m3fn.array(['0.1', '448.0']), 1)
        """
        if isinstance(of, (Format, StorageFormat)):
            return self.to(of, saturate)
        import numpy
        dtype = numpy.dtype(of)
        return numpy.asarray(self.to(_stored_of(dtype) or _named(dtype), saturate), of)

    @overload
    def sum(self, axis: None = None, dtype: None = None, out: None = None) -> Value: ...

    @overload
    def sum(self, axis: int, dtype: None = None, out: None = None) -> Value | Self: ...

    def sum(self, axis: int | None = None, dtype: None = None, out: None = None) -> Any:
        """The sum of the values, of all or along an axis: the exact sum, rounded once, whatever their order.

        That of none is 0. `double_pair` has no such sums. numpy passes `dtype` and `out`, as None.

        >>> xs = half.array([[65504, 1, -65504], [0.5, 0.25, 8]])
        >>> xs.sum(), xs.sum(axis=1), xs.sum_square(axis=0)[2]
        (half('9.75'), half.array(['1.0', '8.75']), half('inf'))
        """
        return self._summed('sum', axis, dtype, out)

    def sum_abs(self, axis: int | None = None) -> Any:
        """The sum of the magnitudes of the values, likewise."""
        return self._summed('sum_abs', axis)

    def sum_square(self, axis: int | None = None) -> Any:
        """The sum of the squares of the values, likewise: no square is rounded."""
        return self._summed('sum_square', axis)

    @overload
    def mean(self, axis: None = None, dtype: None = None, out: None = None) -> Value: ...

    @overload
    def mean(self, axis: int, dtype: None = None, out: None = None) -> Value | Self: ...

    def mean(self, axis: int | None = None, dtype: None = None, out: None = None) -> Any:
        """The mean of the values, of all or along an axis: the exact mean, rounded once. There is none of no values.

        >>> half.array([65504, 65504, 65472]).mean(), float(e4m3fn.array([0.5, -1, 2, 3, -4, 0.25]).mean())
        (half('65504.0'), 0.125)
        """
        _none_given(dtype, out)
        rows, shape = self._rows(axis)
        if not rows.shape[1]:
            raise ValueError('no values have no mean')
        return self._shaped([row._mean().bits for row in rows], shape)

    def _mean(self) -> Value:
        """The mean of the values along the only axis."""
        with Context(context().mode) as exact:
            wide = self if self.format.width >= 64 else self.to(double)
            total = wide.sum()
        if exact.inexact:
            return self.format(sum((value._fraction() for value in self), fractions.Fraction()) / self.size)
        return total.to_format('div', self.format, self.size) if total.is_finite else self.sum()

    def dot(self, other: Any) -> Any:
        """The product of two arrays, as `@` makes it."""
        return self @ other

    def __matmul__(self, other: Any) -> Any:
        """The products of rows and columns: the exact sum of the products of their elements, rounded once.

        >>> xs = single.array([[1, 2], [3, 4]])
        >>> xs @ xs, [1, -1] @ xs, xs[0] @ xs[1]
        (single.array([['7.0', '10.0'], ['15.0', '22.0']]), single.array(['-2.0', '-2.0']), single('11.0'))
        """
        right = self._operand(other)
        return right if right is NotImplemented else self._times(right)

    def __rmatmul__(self, other: Any) -> Any:
        left = self._operand(other)
        return left if left is NotImplemented else left._times(self)

    def _times(self, right: Array) -> Any:
        if not (1 <= self.ndim <= 2 and 1 <= right.ndim <= 2 and self.shape[-1] == right.shape[0]):
            raise ValueError(f'arrays of the shapes {self.shape} and {right.shape} have no product')
        return self._reduced('dot', itertools.product(self._last_rows(), right.T._last_rows()),
                             self.shape[:-1] + right.shape[1:])

    def _summed(self, name: str, axis: int | None, *given: None) -> Any:
        _none_given(*given)
        rows, shape = self._rows(axis)
        return self._reduced(name, ((row,) for row in rows._last_rows()), shape)

    def _reduced(self, name: str, operands: Iterable[tuple[bytes, ...]], shape: tuple[int, ...]) -> Any:
        """What the function of the library makes of each group of operands."""
        mode, code = context().mode, self.format.code
        return self._shaped([_whole(_call(name, code, mode, *(word for row in rows for word in (row, len(row)))).bits)
                             for rows in operands], shape)

    def _shaped(self, bits: list[int], shape: tuple[int, ...]) -> Any:
        """The values of these bits in a shape, and the value alone if there are no axes."""
        return self._like(self.format._joined(bits), shape) if shape else Value(self.format, bits[0])


class StoredArray(_Numbers):
    """Values of a storage format in any number of axes. Its elements are given as values of `single`.

    >>> xs = float4_e2m1fn.array([[1, 0.7], [-5, 1000]])
    >>> xs, xs[0, 0], xs.to(half) + 1
    (float4_e2m1fn.array([[1.0, 0.5], [-4.0, 6.0]]), single('1.0'), half.array([['2.0', '1.5'], ['-3.0', '7.0']]))
    """

    __slots__ = ('format', 'counts')

    format: StorageFormat
    counts: Any

    def __init__(self, format: StorageFormat, data: bytes, counts: dict[str, int] | None = None,
                 shape: tuple[int, ...] | None = None) -> None:
        # The bits above those of the format are ignored.
        mask = (1 << format.width) - 1
        self.format, self.counts = format, counts
        self._reshaped(data.translate(bytes(code & mask for code in range(256))) if mask < 255 else bytes(data), shape)

    def __reduce__(self) -> tuple[Any, ...]:
        return StoredArray, (self.format, self._data, self.counts, self.shape)

    @property
    def _width(self) -> int:
        return 1

    def _like(self, data: bytes, shape: tuple[int, ...]) -> Self:
        return type(self)(self.format, data, shape=shape)

    def _assignable(self, value: Any) -> Self:
        return cast(Self, self.format.array(value) if isinstance(value, StoredArray) and value.format is self.format
                    else _held_exactly(value, self.format))

    def _exact(self) -> Array:
        with Context():
            return self.to(single)

    def _exactly(self, format: Any) -> Any:
        return self._exact()._exactly(format)

    def _element(self, data: bytes) -> Value:
        with Context():
            return single.from_bits(int.from_bytes(StoredArray(self.format, data).to(single)._data, 'little'))

    @property
    def bits(self) -> Any:
        """The bits of the values, as a numpy array of uint8; without numpy, as nested lists."""
        try:
            import numpy
        except ImportError:
            return self._listed(self._data)
        return numpy.frombuffer(self._data, 'u1').reshape(self.shape)

    def __bytes__(self) -> bytes:
        """The bits of the values, one value a byte."""
        return self._data

    def __array__(self, dtype: Any = None, copy: bool | None = None) -> Any:
        """The values for numpy, in the shape of the array.

        With the type of ml_dtypes that has the format's name they are its elements, and otherwise the numbers, as those
        of an `Array`. The codes are `bits`.
        """
        import numpy
        wanted = numpy.dtype(_type_of_numbers(self.format) if dtype is None else dtype)
        if wanted.name == self.format.name:
            return numpy.frombuffer(bytearray(self._data), 'u1').reshape(self.shape).view(wanted)
        if copy is False:
            raise ValueError(f'values of {self.format} become {wanted} by a copy')
        with Context():
            numbers = self.to(single)
        return numpy.asarray(numbers, wanted)

    def __repr__(self) -> str:
        """The format and numbers, or else bits, that it makes these values of."""
        made, listed = 'array', self._shown(lambda part: list(_unpacked('f', part._exact()._data)))
        if 'nan' in listed or 'inf' in listed:
            made, listed = 'from_bits', self._shown(lambda part: list(part._data))
        shape = f'.reshape{self.shape}' if 0 in self.shape[:-1] else ''
        return f'{self.format}.{made}({listed}){shape}'

    def to(self, format: Format, saturate: bool | str = False) -> Array:
        """The values in another format, rounded once. `single` has each number of a storage format.

        >>> float8_e8m0fnu.from_bits([0, 127, 254, 255]).to(bfloat)
        bfloat.array(['5.9e-39', '1.0', '1.7e38', 'nan'])
        """
        made: Array = _converted_to(self, format, saturate)
        return made

    def astype(self, of: Any, saturate: bool | str = False) -> Any:
        """The values in another format, as `to` makes them; for a type of numpy, as a numpy array of that type."""
        if isinstance(of, Format):
            return self.to(of, saturate)
        import numpy
        return numpy.asarray(self.to(_named(numpy.dtype(of)), saturate), of)


def _converted_to(values: Any, format: Any, saturate: bool | str) -> Any:
    """The values of an array in another format, of which one may be a storage format."""
    if not isinstance(format, (Format, StorageFormat)):
        raise TypeError(f'{format!r} is no format')
    mode = context().mode | _saturation(saturate)
    data = bytes(values)
    by_table = values.format._bytes == 2 and format._bytes <= 4 and values.size >= _LEAST_BY_TABLE
    return _array_call('convert_array', values.format.code, mode, format.code, data, len(data), of=format,
                       shape=values.shape, by_table=by_table)


def _saturation(saturate: bool | str) -> int:
    """What joins the code of a mode to ask for it."""
    if isinstance(saturate, str) and saturate not in _SATURATIONS:
        raise ValueError(f"saturate is {saturate!r}, and not False, True, 'finite' or 'all'")
    return _SATURATIONS[saturate if isinstance(saturate, str) else bool(saturate)]


def _quads(of: Any) -> Any:
    """Nested lists of numbers as values of `quad`, which has all floats and values of most formats, or of `double`."""
    shape, items = _nested(of)
    numbers = _of_items(items, set(map(type, items)))
    if numbers is not None:
        return numbers.reshape(shape)
    if any(_exact_number(_plain_number(item)) is None for item in items):
        return NotImplemented
    with Context() as exact:
        made = quad.array(items).reshape(shape)
    if exact.inexact:
        raise ValueError(f'not all of {of} are values of {quad}')
    return made


def _held_exactly(of: Any, format: StorageFormat) -> StoredArray:
    """Numbers in a storage format, which has to have all of them."""
    with Context():
        made = format.array(of)
    lost = made.counts['inexact'] + made.counts['invalid_op'] if made.counts else 0
    if lost:
        raise ValueError(f'{lost} of {made.size} values are no values of {format}')
    return made


def _named(dtype: Any) -> Format:
    """The format of the numbers of a numpy type."""
    format = _format_of(dtype)
    if format is None:
        raise TypeError(f'{dtype} is the type of no format: float16, float32, float64 and those of ml_dtypes are, and '
                        'the bits of an array are its `bits`')
    return format


def _array_call(name: str, *arguments: Any, of: Any, shape: tuple[int, ...], by_table: bool = False) -> Any:
    length = math.prod(shape) * of._bytes
    lent: tuple[Any, ...] = ()
    if by_table:
        name += '_by_table'
        lent = ctypes.create_string_buffer(_TABLE_BYTES), _TABLE_BYTES
    room, answer = ctypes.create_string_buffer(max(length, 1)), _ArrayAnswer()
    code = getattr(_functions, 'apfloat_' + name)(*arguments, room, length, *lent, ctypes.byref(answer))
    if code:
        raise Refused(code)
    context().flags |= Flags(answer.status)
    return of._made(room.raw[:length], {name: getattr(answer, name) for name in _COUNTED}, shape)


class finfo:
    """The limits of a format, of an array's or of one that a name of ml_dtypes names, as `numpy.finfo` calls them.

    They are values of the format, and of `single` those of a storage format. `eps` is the distance from 1 to the next
    number of as many digits, `resolution` the power of ten at or above it that is nearest.

    >>> finfo(float4_e2m1fn).max, finfo('float8_e5m2').eps, finfo(half).resolution
    (single('6.0'), e5m2('0.25'), half('0.001'))
    >>> finfo(half)
    finfo(half, bits=16, eps=0.000977, max=65504.0, min=-65504.0, smallest_normal=0.00006104, smallest_subnormal=6e-8)
    """

    dtype: Any
    bits: int
    eps: Value
    max: Value
    min: Value
    smallest_normal: Value
    smallest_subnormal: Value
    tiny: Value
    resolution: Value

    def __init__(self, of: Any) -> None:
        named = globals().get(of) if isinstance(of, str) else getattr(of, 'format', of)
        if not isinstance(named, (Format, StorageFormat)):
            raise TypeError(f'{of!r} is no format')
        self.dtype, self.bits = named, named.width
        precision = named._precision
        self.resolution = (named if isinstance(named, Format) else single)(f'1e-{int((precision - 1) * math.log10(2))}')
        if isinstance(named, Format):
            self.eps, self.max, self.min = named.epsilon, named.largest, -named.largest
            self.smallest_normal, self.smallest_subnormal = named.smallest_normal, named.smallest
        else:
            self.eps = single(1).ldexp(1 - precision)
            every = named.from_bits(range(1 << named.width))
            numbers = [value for value in every if value.is_finite]
            self.max, self.min = max(numbers), min(numbers)
            # Without a zero, the smallest number is a power of two, as all are.
            self.smallest_subnormal = min(value for value in numbers if value > 0)
            self.smallest_normal = self.smallest_subnormal.ldexp(precision - 1)
        self.tiny = self.smallest_normal

    def __repr__(self) -> str:
        names = 'eps', 'max', 'min', 'smallest_normal', 'smallest_subnormal'
        return f'finfo({self.dtype}, bits={self.bits}, {", ".join(f"{name}={getattr(self, name)}" for name in names)})'


# ---- blocks with a common scale

class Blocks:
    """An array in blocks of elements with a common scale, as `mx.quantize` makes it.

    `scales` are values of `float8_e8m0fnu`, one for each block, and `codes` values of the element format. `shape` is
    that of the array; along `axis`, where the blocks lie, `codes` may be longer, by the zeros that fill the last block.
    `counts` says how many roundings raised each flag, and how many values are in blocks whose scale is a NaN.
    """

    __slots__ = ('scales', 'codes', 'block', 'counts', 'axis', 'shape')

    scales: StoredArray
    codes: Array | StoredArray
    block: int
    counts: dict[str, int]
    axis: int
    shape: tuple[int, ...]

    def __init__(self, scales: StoredArray, codes: Array | StoredArray, block: int, counts: dict[str, int],
                 axis: int = -1, shape: tuple[int, ...] | None = None) -> None:
        self.scales, self.codes, self.block, self.counts = scales, codes, block, counts
        self.axis, self.shape = axis, codes.shape if shape is None else shape

    def __repr__(self) -> str:
        axis = '' if self.axis in (-1, len(self.shape) - 1) else f' along axis {self.axis}'
        return f'<{self.codes.format} of shape {self.shape} in blocks of {self.block}{axis}>'

    def dequantize(self, format: Format | None = None) -> Array:
        """The values, each the product of an element and its scale, rounded once to the format, `single` if none is
        given."""
        made = self._dequantized(format)
        if made.shape != self.shape:
            part = made[tuple(slice(length) for length in self.shape)]
            made = Array(made.format, bytes(cast(Array, part)), made.counts, self.shape)
        return made

    def _dequantized(self, format: Format | None) -> Array:
        return mx.dequantize(self.scales, self.codes, self.block, format, self.axis)

    def dot(self, other: Blocks, format: Format | None = None) -> Any:
        """The dot products of the vectors in blocks of both: the exact sums of the products of their elements, each
        times its scales, rounded once to the format, `single` if none is given, in the mode of the context. Blocks of
        both may differ. The other axes of both are those of the result.

        >>> xs, ys = mx.quantize([[3.0, 1e4], [0.5, 2]], 'e2m1', block=2), nvfp4.quantize([6.0, 3], tensor=1, pad=True)
        >>> xs.dot(ys), mx.quantize([1, 2, 3], block=2, pad=True).dot(mx.quantize([4, 5, 6], block=3), half)
        (single.array(['24576.0', '9.0']), half('32.0'))
        """
        target, mode = single if format is None else format, context().mode
        (left, rows), (right, columns) = self._vectors(), other._vectors()
        made = [_whole(_call('dot_blocks', target.code, mode, *x, *y).bits) for x in left for y in right]
        shape = rows + columns
        return Array(target, target._joined(made), None, shape) if shape else Value(target, made[0])

    def _vectors(self) -> tuple[list[tuple[Any, ...]], tuple[int, ...]]:
        """What the library is told of each vector, without what fills its last block, and the shape of the others."""
        last = len(self.shape) - 1
        place = _axis(self.axis, last + 1)
        count = self.shape[place]
        # Blocks that a shorter length divides, with the same scale in several of them.
        length = math.gcd(self.block, count)
        scales, codes = self.scales._moved(place, last), self.codes._moved(place, last)
        vectors: list[tuple[Any, ...]] = []
        for by, row in zip(scales._last_rows(), codes._last_rows()):
            each = bytes(scale for scale in by for _ in range(self.block // length))[:count // length]
            vectors.append((*self._scaling(), length, each, len(each), row[:count], count))
        return vectors, codes.shape[:-1]

    def _scaling(self) -> tuple[int, int]:
        return self.codes.format.code, 0

    def packed(self) -> bytes:
        """The codes packed: of 4 bits two in a byte, of 6 bits four in three bytes, and those of 8 bits as they are."""
        return mx.pack(self.codes)


class mx:
    """The microscaling formats of the OCP: blocks of elements with one scale, a power of two.

    >>> made = mx.quantize(single.array([[1, -2.5, 0.3, 6], [1e6, 0, 7, -1e5]]), 'e2m1', block=2)
    >>> made.scales
    float8_e8m0fnu.array([[0.5, 1.0], [131072.0, 16384.0]])
    >>> made.codes
    float4_e2m1fn.array([[2.0, -4.0, 0.5, 6.0], [6.0, 0.0, 0.0, -6.0]])
    >>> made.dequantize()
    single.array([['1.0', '-2.0', '0.5', '6.0'], ['786432.0', '0.0', '0.0', '-98304.0']])
    """

    @staticmethod
    def quantize(of: Any, element: Any = 'e4m3', block: int = 32, axis: int = -1, pad: bool = False,
                 scale: str = 'floor') -> Blocks:
        """An array in blocks of so many values of an axis, the last one if no other is named, rounded in the mode of
        the context.

        The element format is `float8_e5m2`, `float8_e4m3fn`, `float6_e3m2fn`, `float6_e2m3fn` or `float4_e2m1fn`, or
        its name, which may be as short as 'e2m1'; here e4m3 is that of the OCP, `float8_e4m3fn`. The array is an
        `Array`, a numpy array, or nested lists of numbers, which are rounded to `double`. Flags are added to those of
        the context. A length that the blocks do not divide is refused; with `pad`, zeros fill the last block.

        `scale` is the rule by which the exponent of a scale follows from the greatest magnitude in the block: 'floor',
        its exponent less that of the largest element, as the OCP has it; 'ceil', the least with which no element is
        past the largest; or 'even', as 'floor' once the magnitude has only as many digits as elements.

        >>> mx.quantize([0.5] * 64, 'e4m3').scales
        float8_e8m0fnu.array([0.001953125, 0.001953125])
        >>> made = mx.quantize([[1.0, 8], [2, -16], [3, 32]], float4_e2m1fn, block=2, axis=0, pad=True)
        >>> made.scales, made.dequantize()[2]
        (float8_e8m0fnu.array([[0.5, 4.0], [0.5, 8.0]]), single.array(['3.0', '32.0']))
        >>> [mx.quantize([6.9, 7.0], 'e2m1', 1, scale=rule).dequantize().tolist() for rule in ('floor', 'ceil', 'even')]
        [[single('6.0'), single('6.0')], [single('6.0'), single('8.0')], [single('6.0'), single('8.0')]]
        """
        if scale not in _SCALE_RULES:
            raise ValueError(f'scale is {scale!r}, and none of {", ".join(map(repr, _SCALE_RULES))}')
        values, elements = _values_of(of), _element_of(element)
        made = functools.partial(_quantized, 'quantize_blocks', elements.code, _SCALE_RULES[scale])
        return Blocks(*_in_blocks(values, elements, float8_e8m0fnu, 255, block, axis, pad, made))

    @staticmethod
    def dequantize(scales: Any, codes: Any, block: int = 32, format: Format | None = None, axis: int = -1) -> Array:
        """The values of blocks along an axis: each code times the scale of its block, rounded once to the format,
        `single` if none is given, in the mode of the context.

        Scales are an array of `float8_e8m0fnu`, or their codes as bytes or a numpy array of uint8, in the order in
        which the blocks lie in the array, and codes an array of an element format.
        """
        if not isinstance(codes, (Array, StoredArray)) or codes.format not in _ELEMENT_FORMATS.values():
            formats = ', '.join(map(repr, _ELEMENT_FORMATS.values()))
            raise TypeError(f'codes are an array of an element format: {formats}')
        return _out_of_blocks('dequantize_blocks', codes.format.code, scales, float8_e8m0fnu, codes, block, format,
                              axis)

    @staticmethod
    def pack(codes: Any) -> bytes:
        """The codes of an array of an element format packed, as `Blocks.packed` says.

        >>> mx.pack(float4_e2m1fn.from_bits([1, 2, 3, 4])).hex()
        '2143'
        """
        return _repacked('pack_codes', codes.format, bytes(codes), codes.size * codes.format.width // 8)

    @staticmethod
    def unpack(packed: bytes, element: Any, shape: tuple[int, ...] | None = None) -> Array | StoredArray:
        """The array of an element format whose codes are packed in these bytes.

        >>> bytes(mx.unpack(bytes.fromhex('2143'), 'e2m1')).hex()
        '01020304'
        """
        elements = _element_of(element)
        count = len(packed) * 8 // elements.width
        data = _repacked('unpack_codes', elements, packed, count)
        made: Array | StoredArray = elements._made(data, None, (count,) if shape is None else shape)
        return made


class Nvfp4Blocks(Blocks):
    """An array in blocks of NVFP4, as `nvfp4.quantize` makes it: `Blocks` of 16 values of `float4_e2m1fn` whose scales
    are values of `e4m3fn`, with `tensor`, the scale of all, a value of `single`."""

    __slots__ = ('tensor',)

    scales: Any
    tensor: Value

    def _dequantized(self, format: Format | None) -> Array:
        return nvfp4.dequantize(self.scales, self.codes, self.tensor, format, self.axis)

    def _scaling(self) -> tuple[int, int]:
        return _NVFP4, self.tensor.bits


class nvfp4:
    """NVFP4: blocks of 16 elements of `float4_e2m1fn`, each with a scale of `e4m3fn`, and one of their tensor.

    >>> made = nvfp4.quantize(single.array([0.5, -1, 3, 24] * 4), tensor=1)
    >>> made.scales, made.codes[:4]
    (e4m3fn.array(['4.0']), float4_e2m1fn.array([0.0, -0.0, 1.0, 6.0]))
    >>> made.dequantize()[:4]
    single.array(['0.0', '-0.0', '4.0', '24.0'])
    """

    @staticmethod
    def tensor_scale(of: Any) -> Value:
        """The scale of a tensor: its greatest magnitude over 2688, rounded once to the nearest value of `single`, the
        largest one in place of what is past it, and 1 in place of 0.

        >>> nvfp4.tensor_scale([[1.0, -5376], [0, 3]]), nvfp4.tensor_scale([0.0])
        (single('2.0'), single('1.0'))
        """
        with Context():
            values = _values_of(of).to(quad)
            greatest = quad.from_bits(max((bits % (1 << 127) for bits in values._patterns()), default=0))
            if not greatest.is_finite:
                raise ValueError('a tensor with an infinity or a NaN has no scale')
            scale = greatest.to_format('div', single, 2688)
        return finfo(single).max if scale.is_infinite else scale or single(1)

    @staticmethod
    def quantize(of: Any, tensor: Any = None, axis: int = -1, pad: bool = False) -> Nvfp4Blocks:
        """An array in blocks along an axis, the last one if no other is named, rounded in the mode of the context, by
        the scale of their tensor, `tensor_scale` if none is given. What an array is, and what `pad` does, `mx.quantize`
        says."""
        values = _values_of(of)
        scale = nvfp4.tensor_scale(values) if tensor is None else _single_of(tensor)
        made = Nvfp4Blocks(*_in_blocks(values, float4_e2m1fn, e4m3fn, 127, _NVFP4_BLOCK, axis, pad,
                                       functools.partial(_quantized, 'quantize_nvfp4', scale.bits, 0)))
        made.tensor = scale
        return made

    @staticmethod
    def dequantize(scales: Any, codes: Any, tensor: Any, format: Format | None = None, axis: int = -1) -> Array:
        """The values of blocks along an axis: each code times the scale of its block and that of the tensor, rounded
        once to the format, `single` if none is given, in the mode of the context. Scales are an array of `e4m3fn`, or
        their codes as bytes or a numpy array of uint8, in the order in which the blocks lie in the array."""
        if not isinstance(codes, StoredArray) or codes.format is not float4_e2m1fn:
            raise TypeError(f'codes are an array of {float4_e2m1fn}')
        return _out_of_blocks('dequantize_nvfp4', _single_of(tensor).bits, scales, e4m3fn, codes, _NVFP4_BLOCK, format,
                              axis)


_NVFP4_BLOCK = 16
# The code of its blocks in the place of a format of elements.
_NVFP4 = 64


def _single_of(number: Any) -> Value:
    """A number as the value of `single` that it is."""
    with Context() as exact:
        made = single(number)
    if exact.inexact:
        raise ValueError(f'{number!r} is no value of {single}')
    return made


# What is joined to the code of a mode.
_SCALE_RULES = {'floor': 0, 'ceil': 0x1000, 'even': 0x2000}


def _element_of(of: Any) -> Any:
    """The element format that is given, or that has this name."""
    # The format of the OCP is meant by e4m3, as by its name.
    if of is e4m3:
        return e4m3fn
    for short, format in _ELEMENT_FORMATS.items():
        names = short, short + 'fn', format.name, 'float8_' + short, 'float8_' + format.name
        if of is format or isinstance(of, str) and of in names:
            return format
    raise ValueError(f'{of!r} is no element format: {", ".join(_ELEMENT_FORMATS)} are')


def _with_zeros(values: Array, count: int) -> Array:
    """An array with so many zeros at the end of each row."""
    *outer, length = values.shape
    width = values.format._bytes
    shape = (*outer, length + count)
    target = bytearray(math.prod(shape) * width)
    _copied(width, values.shape, values._data, 0, _strides(values.shape), target, 0, _strides(shape))
    return Array(values.format, bytes(target), shape=shape)


def _values_of(of: Any) -> Array:
    """An array of values of a format, of what blocks are made of."""
    if isinstance(of, Array):
        return of
    if isinstance(of, StoredArray):
        return of.to(single)
    if hasattr(of, '__array_interface__'):
        return _of_numpy(of, double)
    return double.array(of)


def _blocked(shape: tuple[int, ...], block: int) -> tuple[int, ...]:
    """The shape of the scales."""
    if not shape or block < 1 or shape[-1] % block:
        raise ValueError(f'shape {shape} is not in blocks of {block}: pad=True fills the last block of an axis')
    return (*shape[:-1], shape[-1] // block)


def _in_blocks(values: Array, elements: Any, scales: Any, nan: int, block: int, axis: int, pad: bool,
               quantized: Callable[[Array, int], tuple[bytes, bytes, dict[str, int]]]) -> tuple[Any, ...]:
    """What `Blocks` are made of: an array in blocks along an axis. `nan` is the code of the scale that is a NaN, and
    `quantized` makes scales and codes, with the counts, of an array in blocks along the last axis."""
    place = _axis(axis, values.ndim)
    given, moved = values.shape, values._moved(place, values.ndim - 1)
    lacking = -moved.shape[-1] % block if pad and block > 0 else 0
    if lacking:
        moved = _with_zeros(moved, lacking)
    shape = moved.shape
    blocks = _blocked(shape, block)
    made, codes, counts = quantized(moved, block)
    if lacking:
        # What fills the blocks is not counted: zeros, of which those with a NaN beside them count as NaNs.
        counts['values'] -= lacking * math.prod(shape[:-1])
        counts['nans'] -= lacking * made[blocks[-1] - 1::blocks[-1]].count(nan)
    last = values.ndim - 1
    return (scales._made(made, None, blocks)._moved(last, place),
            elements._made(codes, counts, shape)._moved(last, place), block, counts, place, given)


def _out_of_blocks(name: str, by: int, scales: Any, of_scales: Any, codes: Any, block: int, format: Format | None,
                   axis: int) -> Array:
    """The values of blocks along an axis, by a call whose first argument is `by`."""
    target = single if format is None else format
    place, last = _axis(axis, codes.ndim), codes.ndim - 1
    moved = codes._moved(place, last)
    blocks = _blocked(moved.shape, block)
    count, lying = math.prod(blocks), [*blocks[:-1]]
    lying.insert(place, blocks[-1])
    are_codes = isinstance(scales, (bytes, bytearray)) or getattr(scales, 'dtype', None) == 'uint8'
    held = of_scales.from_bits(scales) if are_codes else of_scales.array(scales)
    if held.size != count:
        raise ValueError(f'{held.size} scales for {count} blocks')
    each, data = bytes(held.reshape(lying)._moved(place, last)), bytes(moved)
    length = len(data) * target._bytes
    room = ctypes.create_string_buffer(max(length, 1))
    counts = _block_call(name, by, context().mode, target.code, block, each, count, data, len(data), room, length)
    made = target._made(room.raw[:length], counts, moved.shape)
    return made if place == last else Array(target, bytes(made._moved(last, place)), counts, codes.shape)


def _quantized(name: str, by: int, rule: int, values: Array, block: int) -> tuple[bytes, bytes, dict[str, int]]:
    """The scales and the codes of blocks, with the counts."""
    data, size = bytes(values), values.size
    count = size // block
    scales, codes = ctypes.create_string_buffer(max(count, 1)), ctypes.create_string_buffer(max(size, 1))
    mode = context().mode | rule
    counts = _block_call(name, values.format.code, mode, by, block, data, len(data), scales, count, codes, size)
    return scales.raw[:count], codes.raw[:size], counts


def _block_call(name: str, *arguments: Any) -> dict[str, int]:
    """The counts of a call on blocks, whose flags are added to those of the context."""
    answer = _ArrayAnswer()
    code = getattr(_functions, 'apfloat_' + name)(*arguments, ctypes.byref(answer))
    if code:
        raise Refused(code)
    context().flags |= Flags(answer.status)
    return {name: getattr(answer, name) for name in _COUNTED}


def _repacked(name: str, format: Any, data: bytes, length: int) -> bytes:
    """Codes packed, or taken out of bytes."""
    if format.width == 8:
        return data
    room = ctypes.create_string_buffer(max(length, 1))
    code = getattr(_functions, 'apfloat_' + name)(format.code, data, len(data), room, length)
    if code:
        raise Refused(code)
    return room.raw[:length]


# ---- what a conversion does

# The forms of blocks, by the names that programs have for them, with their elements.
_FORMS = {'mxfp8e5m2': 'e5m2', 'mxfp8e4m3': 'e4m3', 'mxfp6e3m2': 'e3m2', 'mxfp6e2m3': 'e2m3', 'mxfp4': 'e2m1'}
# Numbers are counted in units of 2^-1074, the smallest double, and errors in ulps in units of 2^-2200 of one.
_UNIT, _ULP_UNIT = 1074, 2200


class Fate(NamedTuple):
    """How many numbers there are, and of these how many are inexact, of the inexact ones become zero, and are past the
    largest value."""

    numbers: int = 0
    inexact: int = 0
    become_zero: int = 0
    past: int = 0


class Report:
    """What a conversion does to values, as `report` says it.

    `zeros`, `infinities` and `nans` count the values given, and `numbers` the others, of which `exact` stay the same,
    `inexact` become another number, `become_zero` of them zero, and `past` are past the largest value: their result is
    no number, or more than one ulp away. `counts` are those of the conversion. `max_error` and `max_ulps` are exact
    fractions, 0 if no number is moved, `max_error_of` and `max_ulps_of` the numbers that are moved so far, or None.
    `snr_db` is the ratio of signal to noise, an infinity without noise; `binades` has a `Fate` for each exponent.
    """

    numbers = zeros = infinities = nans = 0
    max_error_of: float | None = None
    max_ulps_of: float | None = None

    def __init__(self, name: str, counts: dict[str, int], moves: Iterable[tuple[float, float, int]],
                 precision: int) -> None:
        self.name, self.counts = name, counts
        signal = noise = error = ulps = 0
        fates: dict[int, list[int]] = {}
        for x, y, last in moves:
            if x == 0 or not math.isfinite(x):
                kind = 'zeros' if x == 0 else 'nans' if x != x else 'infinities'
                setattr(self, kind, getattr(self, kind) + 1)
                continue
            self.numbers += 1
            fate = fates.setdefault(math.frexp(x)[1] - 1, [0] * 4)
            fate[0] += 1
            if not math.isfinite(y):
                fate[3] += 1
                continue
            exact = _units(x)
            signal += exact * exact
            if x == y:
                continue
            moved = abs(exact - _units(y))
            noise += moved * moved
            if y:
                last = max(last, math.frexp(y)[1] - precision)
            in_ulps = moved << _ULP_UNIT - _UNIT - last
            if moved > error:
                error, self.max_error_of = moved, x
            if in_ulps > ulps:
                ulps, self.max_ulps_of = in_ulps, x
            if in_ulps >> _ULP_UNIT and in_ulps != 1 << _ULP_UNIT:
                fate[3] += 1
            else:
                fate[1] += 1
                fate[2] += y == 0
        self.max_error, self.max_ulps = fractions.Fraction(error, 1 << _UNIT), fractions.Fraction(ulps, 1 << _ULP_UNIT)
        self.binades = {exponent: Fate(*fates[exponent]) for exponent in sorted(fates, reverse=True)}
        _, self.inexact, self.become_zero, self.past = map(sum, zip(*self.binades.values(), Fate()))
        self.exact = self.numbers - self.inexact - self.past
        self.snr_db = 10 * (math.log10(signal) - math.log10(noise)) if noise else math.inf

    def __repr__(self) -> str:
        return (f'<{self.name}: {self.numbers} numbers, {self.exact} exact, {self.inexact} inexact, '
                f'{self.past} past the largest, {self.snr_db:.2f} dB>')

    def __str__(self) -> str:
        rows = [
            ('numbers', self.numbers), ('zeros', self.zeros), ('infinities', self.infinities), ('NaNs', self.nans),
            ('exact', self.exact), ('inexact', self.inexact), ('become zero', self.become_zero),
            ('past the largest', self.past), ('largest error', f'{float(self.max_error):.4g}'),
            ('  of the value', self.max_error_of), ('largest, in ulps', f'{float(self.max_ulps):.4g}'),
            ('  of the value', self.max_ulps_of), ('signal to noise', f'{self.snr_db:.2f} dB'),
        ]
        lines = [self.name, *(f'{label:18}{"-" if said is None else said!s:>24}' for label, said in rows)]
        most = max((fate.numbers for fate in self.binades.values()), default=1)
        for exponent, fate in self.binades.items():
            parts = (fate.inexact - fate.become_zero, 'inexact'), (fate.become_zero, 'zero'), (fate.past, 'past')
            said = ' '.join(f'{count} {part}' for count, part in parts if count) or 'exact'
            lines.append(f'2^{exponent:<6}{fate.numbers:12} {"#" * -(-fate.numbers * 20 // most):20}  {said}')
        return '\n'.join(lines)


def _units(x: float) -> int:
    """A number in units of the smallest double."""
    numerator, denominator = x.as_integer_ratio()
    return numerator << _UNIT + 1 - denominator.bit_length()


def report(of: Any, to: Any, round: int | None = None, saturate: bool | str = False, block: int = 32) -> Report:
    """What a conversion of an array or of numbers does, to a format, a storage format or blocks of 'mxfp4',
    'mxfp6e2m3', 'mxfp6e3m2', 'mxfp8e4m3' or 'mxfp8e5m2', in a mode, or that of the context. A rule of scales may stand
    after a `+`, as in 'mxfp4+ceil'; `mx.quantize` says what each means.

    All values have to be doubles; those of lists are rounded to `double`. What is measured is exact.

    >>> made = report(single.array([1, 1.0625, 1000, 2.0 ** -10, math.inf]), e4m3fn)
    >>> made
    <single to e4m3fn: 4 numbers, 1 exact, 2 inexact, 1 past the largest, 27.36 dB>
    >>> made.become_zero, made.counts['overflow'], float(made.max_error), float(made.max_ulps), made.binades[0]
    (1, 1, 0.0625, 0.5, Fate(numbers=2, inexact=1, become_zero=0, past=0))
    """
    values = _values_of(of).reshape(-1)
    given = values.numbers()
    with Context(context().mode if round is None else round):
        if isinstance(to, str):
            form, plus, rule = to.partition('+')
            if form not in _FORMS:
                raise ValueError(f'{to!r} is none of {", ".join(_FORMS)}')
            blocks = mx.quantize(values, _FORMS[form], block, scale=rule if plus else 'floor')
            format: Any = blocks.codes.format
            counts, scales = blocks.counts, [code - 127 for code in blocks.scales.bits for _ in range(block)]
        else:
            made = values.to(to, saturate)
            format, counts, scales = to, made.counts, [0] * values.size
    with Context():
        # An infinity may have become the largest number of a wider format.
        results = blocks.dequantize(double) if isinstance(to, str) else made.to(double, saturate=True)
        last = int(finfo(format).smallest_subnormal.log_b())
    moves = zip(given, results.numbers(), [last + scale for scale in scales])
    return Report(f'{values.format} to {to}', counts, moves, format._precision)


# ---- shapes

def _strides(shape: Sequence[int]) -> list[int]:
    """For each axis, how many elements its next index is away."""
    return [math.prod(shape[axis + 1:]) for axis in range(len(shape))]


def _common_shape(*shapes: tuple[int, ...]) -> tuple[int, ...]:
    """The shape that all of these are stretched to."""
    result = []
    for lengths in itertools.zip_longest(*[shape[::-1] for shape in shapes], fillvalue=1):
        others = set(lengths) - {1}
        if len(others) > 1:
            raise Refused(6, f'{_error_text(6)}: shapes {" and ".join(map(str, shapes))}')
        result.append(others.pop() if others else 1)
    return tuple(reversed(result))


def _selected(index: tuple[Any, ...], shape: tuple[int, ...]) -> tuple[int, list[tuple[int, int]]]:
    """Where the part of an array that an index names begins, and the length and the stride of each of its axes."""
    parts: list[Any] = list(index)
    if not any(part is Ellipsis for part in parts):
        parts.append(Ellipsis)
    named = sum(part is not None and part is not Ellipsis for part in parts)
    if named > len(shape):
        raise IndexError(f'{named} indices for {len(shape)} axes')
    rest = next(at for at, part in enumerate(parts) if part is Ellipsis)
    parts[rest:rest + 1] = [slice(None)] * (len(shape) - named)
    offset, axes = 0, []
    held = iter(zip(shape, _strides(shape)))
    for part in parts:
        if part is None:
            axes.append((1, 0))
            continue
        length, stride = next(held)
        chosen = range(length)[part]
        if isinstance(chosen, range):
            offset += chosen.start * stride if chosen else 0
            axes.append((len(chosen), chosen.step * stride))
        else:
            offset += chosen * stride
    return offset, axes


def _gathered(data: bytes | bytearray, width: int, offset: int, axes: list[tuple[int, int]]) -> bytes:
    """The bytes of the elements of axes of these lengths and strides, the last axis first, from an offset on."""
    count = 1
    for length, stride in reversed(axes):
        if length != 1 and stride != count:
            break
        count *= length
    else:
        return bytes(data[offset * width:(offset + count) * width])
    shape = tuple(length for length, _ in axes)
    target = bytearray(math.prod(shape) * width)
    _copied(width, shape, data, offset, [stride for _, stride in axes], target, 0, _strides(shape))
    return bytes(target)


def _copied(width: int, shape: tuple[int, ...], source: bytes | bytearray, start: int, strides: list[int],
            target: bytearray, place: int, steps: list[int]) -> None:
    """Copies elements of so many bytes between two buffers, in the order of a shape. Said of both are where the first
    one is, and for each axis how many elements its next index is away."""
    if 0 in shape:
        return
    # The longest axis is copied at once, each time.
    axes = sorted(zip(shape, strides, steps)) or [(1, 1, 1)]
    (length, stride, step), starts = axes[-1], [(start, place)]
    for others, outer, further in axes[:-1]:
        starts = [(at + n * outer, to + n * further) for at, to in starts for n in range(others)]
    code, count = _WORDS_OF[width]
    read, written = memoryview(source).cast(code), memoryview(target).cast(code)
    for word in range(count):
        for at, to in starts:
            if stride:
                taken = read[_span(at * count + word, length, stride * count)]
            else:
                taken = memoryview(read[at * count + word:at * count + word + 1].tobytes() * length).cast(code)
            written[_span(to * count + word, length, step * count)] = taken


def _span(first: int, length: int, stride: int) -> slice:
    """So many places from the first one on, each a stride from the one before it."""
    end = first + length * stride
    return slice(first, end if end >= 0 else None, stride)


def _none_given(*given: Any) -> None:
    """Refuses what functions of numpy are given and arrays lack."""
    if any(each is not None for each in given):
        raise TypeError('no dtype or out is taken: what is made of an array is new, and of a type that follows from it')


def _axis(axis: Any, ndim: int) -> int:
    """An axis by its number, which may be counted from the last one on, as -1."""
    number = operator.index(axis)
    if not -ndim <= number < ndim:
        raise ValueError(f'{number} is no axis of {ndim}')
    return number % ndim


def _mask_of(index: Any) -> Mask | None:
    """The mask that an index is, if it is one."""
    if isinstance(index, Mask):
        return index
    if hasattr(index, '__array_interface__') and index.dtype == bool and index.shape != ():
        return Mask(index)
    first = index
    while isinstance(first, list) and first:
        first = first[0]
    if not isinstance(first, bool) or first is index:
        return None
    if set(map(type, _nested(index)[1])) != {bool}:
        raise IndexError('a mask has truth values alone')
    return Mask(index)


def _place_of_list(index: tuple[Any, ...]) -> int | None:
    """Where an index for each axis has its list, if it has one."""
    places = [at for at, part in enumerate(index) if isinstance(part, (list, range))
              or hasattr(part, '__array_interface__') and part.shape != ()]
    if len(places) > 1:
        raise IndexError('only one axis takes a list of indices')
    return places[0] if places else None


def _places(of: Any, length: int) -> list[int]:
    """The places that a list of indices names on an axis of this length."""
    items = of.tolist() if hasattr(of, 'tolist') else list(of)
    if items and set(map(type, items)) == {bool}:
        if len(items) != length:
            raise IndexError(f'{len(items)} truth values for an axis of length {length}')
        return list(itertools.compress(range(length), items))
    if any(isinstance(item, (bool, list)) for item in items):
        raise IndexError('a list of indices has integers alone')
    chosen = [operator.index(item) for item in items]
    if chosen and not -length <= min(chosen) <= max(chosen) < length:
        wrong = next(at for at in chosen if not -length <= at < length)
        raise IndexError(f'{wrong} is no index of an axis of length {length}')
    return [at + length if at < 0 else at for at in chosen]


def _axis_at(index: tuple[Any, ...], place: int, ndim: int) -> int:
    """The axis of a part of an array that the index at this place chooses on."""
    named = sum(part is not None and part is not Ellipsis for part in index)
    return sum(ndim - named if part is Ellipsis else part is None or isinstance(part, slice) for part in index[:place])


def _listed(elements: Iterator[Any], shape: tuple[int, ...]) -> Any:
    """Elements as nested lists of a shape."""
    if not shape:
        return next(elements)
    if len(shape) == 1:
        return list(itertools.islice(elements, shape[0]))
    return [_listed(elements, shape[1:]) for _ in range(shape[0])]


def _with_ellipses(listed: Any, cuts: list[bool]) -> str:
    """Nested lists as a text, with `...` in the middle of those on the axes that are cut."""
    if not cuts:
        return repr(listed)
    parts = [_with_ellipses(part, cuts[1:]) for part in listed]
    if cuts[0]:
        parts.insert(3, '...')
    return f'[{", ".join(parts)}]'


# ---- all values of an array at once

# The values of so many bytes are taken at once, few enough for the cache of a processor.
_AT_ONCE = 1 << 15


class _Lanes:
    """Masks for so many values of a format in one integer, in which each value has the bits of its bytes.

    Python's operations on such an integer are operations on all of the values, as long as none carries into the next.
    What holds for a value is said by the bit of its sign.
    """

    def __init__(self, format: Format, count: int) -> None:
        ones = self.ones = int.from_bytes((1).to_bytes(format._bytes, 'little') * count, 'little')
        self.sign, self.rest = ones * format._sign_bit, ones * (format._sign_bit - 1)
        self.place = format._sign_bit.bit_length() - 1
        # The least NaN without its sign. The formats without -0 have their only NaN there.
        infinity = (1 << format._exponent_bits) - 1 << format._precision - 1
        self.least_nan = ones * (0x7f if format is e4m3fn else infinity + 1)
        self.has_negative_zero = format not in _WITHOUT_NEGATIVE_ZERO

    def nonzero(self, x: int) -> int:
        """Which values are not zero, with any sign."""
        return ((x & self.rest) + self.rest) & self.sign

    def nans(self, x: int) -> int:
        """Which values are NaNs."""
        if not self.has_negative_zero:
            return x & self.sign & ~self.nonzero(x)
        return ((x & self.rest | self.sign) - self.least_nan) & self.sign

    def spread(self, which: int) -> int:
        """All bits of some values."""
        return (which << 1) - (which >> self.place)

    def keys(self, x: int) -> int:
        """Integers without a sign that have the order of the values, in which zeros are equal."""
        sign, size = x & self.sign, x & self.rest
        return self.sign + size - ((size & sign - (sign >> self.place)) << 1)

    def at_least(self, x: int, y: int) -> int:
        """Which integers without a sign are at least those of the other ones."""
        return (x & ~y | ~(x ^ y) & ((x | self.sign) - (y & self.rest))) & self.sign

    def compared(self, x: int, y: int, orders: tuple[int, ...]) -> tuple[int, ...]:
        """The values that have one of these orders beside the other ones."""
        nans = self.nans(x) | self.nans(y)
        x, y = self.keys(x), self.keys(y)
        up, down = self.at_least(x, y), self.at_least(y, x)
        found = 0
        for order, holds in (_LESS[0], ~up), (_EQUAL[0], up & down), (_GREATER[0], ~down):
            if order in orders:
                found |= holds
        found &= self.sign & ~nans
        return (found | nans if _UNORDERED in orders else found,)

    def compared_with(self, x: int, bits: int, orders: tuple[int, ...]) -> tuple[int, ...]:
        """The values that have one of these orders beside the one with these bits."""
        return self.compared(x, self.ones * bits, orders)

    def ordered(self, x: int) -> tuple[int, ...]:
        """Which values are NaNs, and keys with -0 below +0."""
        return self.nans(x), self.keys(x) - ((x & self.sign) >> self.place)

    def parts_of_rests(self, x: int, y: int) -> tuple[int, ...]:
        """The rests that stay, and those to which the divisor is added, and these divisors: those of the other sign."""
        differs, nonzero = (x ^ y) & self.sign, self.nonzero(x)
        added = self.spread(differs & nonzero & ~self.nans(x))
        kept = x & ~added
        # A zero has the sign of the divisor.
        return kept ^ differs & ~nonzero if self.has_negative_zero else kept, x & added, y & added

    def with_signs(self, x: int, y: int) -> tuple[int, ...]:
        """The values with the signs of others; zeros and NaNs, which have none, as they are."""
        nonzero = self.nonzero(x)
        return (x & ~(self.sign & nonzero) | y & self.nonzero(y) & nonzero,)


_lanes = functools.lru_cache(maxsize=16)(_Lanes)


def _in_lanes(format: Format, operation: Callable[..., tuple[int, ...]], *arrays: bytes) -> list[bytes]:
    """What an operation of `_Lanes` makes of the values of arrays of one length."""
    made: list[list[bytes]] = []
    step = _AT_ONCE // format._bytes * format._bytes
    for at in range(0, len(arrays[0]) or 1, step):
        parts = [each[at:at + step] for each in arrays]
        length = len(parts[0])
        results = operation(_lanes(format._plain, length // format._bytes),
                            *[int.from_bytes(part, 'little') for part in parts])
        made.append([result.to_bytes(length, 'little') for result in results])
    return [b''.join(column) for column in zip(*made)]


def _truths(format: Format, signs: bytes) -> bytes:
    """A byte for each value that says whether the bit of its sign is set."""
    place = format._sign_bit.bit_length() - 1
    return signs[place // 8::format._bytes].translate(bytes([0]) + bytes([1]) * 255)


def _alike(left: Array, right: Array) -> tuple[Array, Array]:
    """The values of two arrays in one format that has them all."""
    plain = left.format._plain
    if plain is right.format._plain and plain is not x87:
        return left, right
    formats = {plain, right.format._plain}
    common = quad if formats & {quad, x87} else double if double in formats else single
    with Context():
        return left.to(common), right.to(common)


@functools.lru_cache(maxsize=None)
def _table(operation: Callable[[Value], Value], format: Format) -> bytes:
    """What an operation makes of each value of 8 bits."""
    return bytes(operation(Value(format, bits)).bits for bits in range(256))


@functools.lru_cache(maxsize=None)
def _every(format: Format) -> Array:
    """All values of a format of 8 bits, in `double`."""
    with Context():
        return format.from_bits(range(256)).to(double)


def _order(left: Any, right: Any) -> int:
    """The order of two numbers of Python."""
    if left != left or right != right:
        return _UNORDERED
    return int(left > right) - int(left < right)


def _extremes(rows: Array, greatest: bool) -> list[int]:
    """The place of the greatest or the least value in each row of an array, or of its first NaN."""
    count, length = rows.shape
    keys: Any
    if rows.format is double_pair:
        numbers = [(_exact_number(value), not value.is_negative) for value in rows.reshape(-1)]
        keys, nans = numbers, bytes(number != number for number, _ in numbers)
    else:
        found, ordered = _in_lanes(rows.format, _Lanes.ordered, rows._data)
        nans, (code, words) = _truths(rows.format, found), _WORDS_OF[rows._width]
        keys = _unpacked(code, ordered)
        if words == 2:
            keys = list(zip(keys[1::2], keys[::2]))
    picked, places = max if greatest else min, []
    for first in range(0, count * length, length):
        place = nans.find(1, first, first + length)
        if place < 0:
            place = keys.index(picked(keys[first:first + length]), first, first + length)
        places.append(place - first)
    return places


# ---- orders and texts

# What a comparison finds: less, equal, greater; the last is the order of a NaN and anything else.
_LESS, _EQUAL, _GREATER, _UNORDERED = (-1,), (0,), (1,), 2


def _orders(left: Array, right: Any) -> Iterable[int | None]:
    """The orders of the values of an array and those of another one of its shape, or a number, as `Value._order`."""
    numbers = map(right._element, right._items()) if isinstance(right, Array) else itertools.repeat(right)
    return (first._order(second) for first, second in zip(map(left._element, left._items()), numbers))


# No hexadecimal text that the library writes is longer.
_HEXADECIMAL_ROOM = 45
_HEXADECIMAL = re.compile('(-?)0x([01])(?:[.]([0-9a-f]+))?p([+-][0-9]+)')
# The values of `quad` have at most 11,563 decimal digits.
_MOST_DIGITS = 12_000


def _odd(sign: str, numerator: int, denominator: int) -> str:
    """A fraction as a hexadecimal text of 120 binary digits or more, rounded to odd."""
    shift = 120 - numerator.bit_length() + denominator.bit_length()
    odd, rest = divmod(numerator << max(shift, 0), denominator << max(-shift, 0))
    return f'{sign}{odd | (rest != 0):#x}p{-shift}'


def _signed(halves: _Halves) -> int:
    """The integer of 128 bits in two's complement."""
    return _whole(halves) - (halves.high >> 63 << 128)


def _fraction_of(text: str) -> fractions.Fraction:
    """The number of a hexadecimal text."""
    matched = _HEXADECIMAL.fullmatch(text)
    if not matched:
        return fractions.Fraction()
    sign, whole, fraction, exponent = matched.groups(default='')
    digits, power = int(sign + whole + fraction, 16), int(exponent) - 4 * len(fraction)
    return fractions.Fraction(digits << power) if power > 0 else fractions.Fraction(digits, 1 << -power)


def _exact_number(of: Any) -> Any:
    """What compares exactly with Python's numbers: a fraction, or a float that is an infinity or a NaN."""
    if isinstance(of, Value):
        return of._fraction() if of.is_finite else float(str(of))
    if isinstance(of, float):
        return fractions.Fraction(of) if math.isfinite(of) else of
    return of if isinstance(of, (int, fractions.Fraction)) else None


def _hexadecimal(value: Value) -> str:
    """The hexadecimal text of a value that is no pair."""
    format = value.format
    sign = '-' if value.bits >> (format.width - 1) and not (format in _WITHOUT_NEGATIVE_ZERO and value.is_nan) else ''
    kind = value._class()
    if kind in (0, 1):
        has_payloads = format not in (e4m3fn, *_WITHOUT_NEGATIVE_ZERO)
        payload = value.bits & (1 << format._precision - 2) - 1 if has_payloads else 0
        return sign + ('snan' if kind == 0 else 'nan') + (f'({payload:#x})' if payload else '')
    if kind in (2, 9):
        return sign + 'inf'
    if kind in (5, 6):
        return sign + '0x0p+0'
    exponent = value._asked('ilogb', _halves(value.bits)).number
    stored = format._precision - (not format._has_integer_bit)
    digits = value.bits & (1 << stored) - 1
    biased = value.bits >> stored & (1 << format._exponent_bits) - 1
    if biased and not format._has_integer_bit:
        digits |= 1 << stored
    fraction = digits << (format._precision - digits.bit_length()) & (1 << format._precision - 1) - 1
    places = -(-(format._precision - 1) // 4)
    text = f'{fraction << places * 4 - (format._precision - 1):0{places}x}'.rstrip('0')
    return f'{sign}0x1{"." + text if text else ""}p{exponent:+}'


half = Format('half', 1, 16, 11, 5)
single = Format('single', 2, 32, 24, 8)
double = Format('double', 3, 64, 53, 11)
quad = Format('quad', 4, 128, 113, 15)
bfloat = Format('bfloat', 5, 16, 8, 8)
e5m2 = Format('e5m2', 6, 8, 3, 5)
e4m3fn = Format('e4m3fn', 7, 8, 4, 4)
e4m3fnuz = Format('e4m3fnuz', 8, 8, 4, 4)
x87 = Format('x87', 9, 80, 64, 15)
double_pair = Format('double_pair', 10, 128, 106, 11)
e4m3 = Format('e4m3', 16, 8, 4, 4)
e5m2fnuz = Format('e5m2fnuz', 17, 8, 3, 5)
e4m3b11fnuz = Format('e4m3b11fnuz', 18, 8, 4, 4)
tf32 = Format('tf32', 19, 19, 11, 8)

# Storage formats have the names of ml_dtypes, which lacks the last one.
float4_e2m1fn = StorageFormat('float4_e2m1fn', 32, 4, 2)
float6_e2m3fn = StorageFormat('float6_e2m3fn', 33, 6, 4)
float6_e3m2fn = StorageFormat('float6_e3m2fn', 34, 6, 3)
float8_e3m4 = StorageFormat('float8_e3m4', 35, 8, 5)
float8_e8m0fnu = StorageFormat('float8_e8m0fnu', 48, 8, 1)
ue4m3 = StorageFormat('ue4m3', 49, 7, 4)
_STORED = (float4_e2m1fn, float6_e2m3fn, float6_e3m2fn, float8_e3m4, float8_e8m0fnu, ue4m3)

# The items that a list may have in place of a row.
_SINGLE_ITEMS = {int, bool, float, str, Value}

# The formats without -0, whose NaN is there.
_WITHOUT_NEGATIVE_ZERO = (e4m3fnuz, e5m2fnuz, e4m3b11fnuz)

# The formats of elements in blocks, by their shortest names.
_ELEMENT_FORMATS: dict[str, Any] = {
    'e5m2': e5m2, 'e4m3': e4m3fn, 'e3m2': float6_e3m2fn, 'e2m3': float6_e2m3fn, 'e2m1': float4_e2m1fn,
}

# The names that ml_dtypes has for these formats.
bfloat16, float8_e5m2, float8_e4m3fn, float8_e4m3fnuz = bfloat, e5m2, e4m3fn, e4m3fnuz
float8_e4m3, float8_e5m2fnuz, float8_e4m3b11fnuz = e4m3, e5m2fnuz, e4m3b11fnuz
