//! The checksums that the program `bench` of the repository prints, computed anew: each covers 1024 results and their
//! flags. The operands come from the same generator.

use rustc_apfloat::ieee::*;
use rustc_apfloat::more::FloatMore;
use rustc_apfloat::ppc::DoubleDouble;
use rustc_apfloat::{Float, FloatConvert, Round, Status, StatusAnd};

const MODES: [Round; 5] = [
    Round::NearestTiesToEven,
    Round::TowardPositive,
    Round::TowardNegative,
    Round::TowardZero,
    Round::NearestTiesToAway,
];

const COUNT: usize = 1024;

/// Marsaglia's 64-bit generator `xorshift64`.
struct Generator(u64);

impl Generator {
    fn new() -> Self {
        Generator(0x9e37_79b9_7f4a_7c15)
    }

    fn word(&mut self) -> u64 {
        self.0 ^= self.0 << 13;
        self.0 ^= self.0 >> 7;
        self.0 ^= self.0 << 17;
        self.0
    }

    fn wide_word(&mut self) -> u128 {
        let low = self.word();
        u128::from(self.word()) << 64 | u128::from(low)
    }

    fn exponent(&mut self, least: i32, greatest: i32) -> i32 {
        let count = u64::try_from(i64::from(greatest) - i64::from(least) + 1).unwrap();
        least + (self.word() % count) as i32
    }
}

/// Which numbers are drawn.
#[derive(Clone, Copy, PartialEq)]
enum Set {
    Normal,
    Denormal,
    Integer,
    IntegerDenormal,
}

/// How a format encodes numbers.
#[derive(Clone, Copy)]
struct Encoding {
    bits: usize,
    precision: i32,
    min_exp: i32,
    max_exp: i32,
    explicit: bool,
    all_ones_is_nan: bool,
}

impl Encoding {
    fn of<S: Semantics>() -> Self {
        Encoding {
            bits: S::BITS,
            precision: S::PRECISION as i32,
            min_exp: S::MIN_EXP,
            max_exp: S::MAX_EXP,
            explicit: S::EXPLICIT_INTEGER_BIT,
            all_ones_is_nan: S::NONFINITE_BEHAVIOR == NonfiniteBehavior::NanOnly,
        }
    }

    fn bits_of(self, negative: bool, biased: i32, digits: u128) -> u128 {
        let trailing = self.precision - 1;
        let ones = (1u128 << trailing) - 1;
        let mut significand = digits & ones;
        if self.all_ones_is_nan && biased == self.max_exp - self.min_exp + 1 && significand == ones {
            significand &= !1;
        }
        let mut below = trailing;
        if self.explicit {
            below = self.precision;
            significand |= u128::from(biased > 0) << trailing;
        }
        u128::from(negative) << (self.bits - 1) | (biased as u128) << below | significand
    }

    fn normal(self, negative: bool, exponent: i32, digits: u128) -> u128 {
        self.bits_of(negative, exponent.max(self.min_exp) - self.min_exp + 1, digits)
    }

    fn span(self) -> i32 {
        (self.precision / 2 + 2).min(self.max_exp / 2 - 1).max(1)
    }

    fn moderate(self, negative: bool, digits: u128, generator: &mut Generator) -> u128 {
        let exponent = generator.exponent(-self.span(), self.span());
        self.normal(negative, exponent, digits)
    }

    fn denormal(self, negative: bool, digits: u128, generator: &mut Generator) -> u128 {
        let length = generator.exponent(1, self.precision - 1);
        let ones = (1u128 << length) - 1;
        self.bits_of(negative, 0, digits & ones | 1 << (length - 1))
    }

    fn operand(self, set: Set, generator: &mut Generator) -> u128 {
        let head = generator.word();
        let digits = generator.wide_word();
        let negative = head >> 63 == 1;
        match (set, head >> 8 & 3) {
            (Set::Denormal, 0) | (Set::IntegerDenormal, 0 | 1) => self.denormal(negative, digits, generator),
            (Set::Denormal, 1) => {
                let greatest = (self.precision + 2).min(self.max_exp - self.min_exp);
                self.bits_of(negative, generator.exponent(1, greatest), digits)
            }
            (Set::Normal | Set::Denormal, _) => self.moderate(negative, digits, generator),
            (Set::Integer | Set::IntegerDenormal, _) => {
                let exponent = generator.exponent(-2, (self.max_exp - 1).min(62));
                self.normal(negative, exponent, digits)
            }
        }
    }

    fn pair(self, set: Set, generator: &mut Generator) -> u128 {
        let high = self.operand(set, generator);
        let head = generator.word();
        let digits = u128::from(generator.word());
        let field = (high >> 52 & 0x7ff) as i32 - (54 + (head % 11) as i32);
        let low = if field >= 1 { self.bits_of(head >> 63 == 1, field, digits) } else { 0 };
        low << 64 | high
    }

    fn text(self, set: Set, generator: &mut Generator) -> String {
        let head = generator.word();
        let most = (self.precision as u64).div_ceil(4) + 4;
        let count = generator.word() % most + 1;
        let mut text = String::from(if head >> 63 == 1 { "-0x1." } else { "0x1." });
        for _ in 0..count {
            text.push(char::from_digit((generator.word() % 16) as u32, 16).unwrap());
        }
        let exponent = if set == Set::Denormal && head >> 8 & 1 == 0 {
            generator.exponent(self.min_exp - self.precision, self.min_exp + self.precision - 1)
        } else {
            generator.exponent(-self.span(), self.span())
        };
        format!("{text}p{exponent}")
    }
}

/// A type that `bench` has.
trait Benched: Float {
    fn encoding() -> Encoding;

    fn is_pair() -> bool {
        false
    }

    fn sqrt_of(self, round: Round) -> StatusAnd<Self>;

    /// The checksum of conversions to the format of that name.
    fn converted(operands: &[[Self; 3]], to: &str, round: Round) -> u64;
}

impl<S: Semantics> Benched for IeeeFloat<S> {
    fn encoding() -> Encoding {
        Encoding::of::<S>()
    }

    fn sqrt_of(self, round: Round) -> StatusAnd<Self> {
        self.sqrt_r(round)
    }

    fn converted(operands: &[[Self; 3]], to: &str, round: Round) -> u64 {
        fn to_format<S: Semantics, T: Semantics>(x: IeeeFloat<S>, round: Round) -> (Status, u128) {
            let answer: StatusAnd<IeeeFloat<T>> = x.convert_r(round, &mut false);
            bits(answer)
        }
        sum(operands.iter().map(|x| match to {
            "half" => to_format::<S, HalfS>(x[0], round),
            "single" => to_format::<S, SingleS>(x[0], round),
            _ => to_format::<S, DoubleS>(x[0], round),
        }))
    }
}

impl Benched for DoubleDouble {
    fn encoding() -> Encoding {
        Encoding::of::<DoubleS>()
    }

    fn is_pair() -> bool {
        true
    }

    fn sqrt_of(self, round: Round) -> StatusAnd<Self> {
        self.sqrt_r(round)
    }

    fn converted(_: &[[Self; 3]], _: &str, _: Round) -> u64 {
        panic!("pairs do not convert")
    }
}

fn bits<F: Float>(answer: StatusAnd<F>) -> (Status, u128) {
    (answer.status, answer.value.to_bits())
}

fn sum(answers: impl Iterator<Item = (Status, u128)>) -> u64 {
    let with = |sum: u64, word: u64| ((u128::from(sum) * 31 + u128::from(word)) % ((1 << 61) - 1)) as u64;
    answers.fold(0, |sum, (status, bits)| with(with(with(sum, status.bits().into()), bits as u64), (bits >> 64) as u64))
}

fn drawn(encoding: Encoding, pairs: bool, set: Set) -> Vec<[u128; 3]> {
    let mut generator = Generator::new();
    let mut next = || {
        if pairs { encoding.pair(set, &mut generator) } else { encoding.operand(set, &mut generator) }
    };
    (0..COUNT).map(|_| [next(), next(), next()]).collect()
}

fn checksum<F: Benched>(operation: &str, set: Set, round: Round) -> u64 {
    let encoding = F::encoding();
    let set = match (operation, set) {
        ("toint", Set::Normal) => Set::Integer,
        ("toint", _) => Set::IntegerDenormal,
        _ => set,
    };
    let drawn = drawn(encoding, F::is_pair(), set);
    let operands: Vec<[F; 3]> = drawn.iter().map(|x| x.map(F::from_bits)).collect();
    let of = |call: fn([F; 3], Round) -> StatusAnd<F>| sum(operands.iter().map(|&x| bits(call(x, round))));
    match operation {
        "add" => of(|x, round| x[0].add_r(x[1], round)),
        "sub" => of(|x, round| x[0].sub_r(x[1], round)),
        "mul" | "wide_mul" => of(|x, round| x[0].mul_r(x[1], round)),
        "div" => of(|x, round| x[0].div_r(x[1], round)),
        "fma" | "wide_fma" => of(|x, round| x[0].mul_add_r(x[1], x[2], round)),
        "rem" => of(|x, _| x[0].ieee_rem(x[1])),
        "mod" => of(|x, _| x[0].c_fmod(x[1])),
        "sqrt" => of(|x, round| x[0].abs().sqrt_of(round)),
        "bits" => sum(drawn.iter().map(|x| (Status::OK, F::from_bits(x[0]).to_bits()))),
        "toint" => sum(operands.iter().map(|x| {
            let answer = x[0].to_i128_r(64, Round::TowardZero, &mut false);
            (answer.status, answer.value as u128)
        })),
        "int" => {
            let mut generator = Generator::new();
            sum((0..COUNT).map(|_| {
                let number = generator.wide_word();
                bits(F::from_u128_r(number >> (generator.word() % 128), round))
            }))
        }
        "parse" => {
            let mut generator = Generator::new();
            sum((0..COUNT).map(|_| {
                let text = encoding.text(set, &mut generator);
                bits(F::from_str_r(&text, round).unwrap())
            }))
        }
        _ => match operation.strip_prefix("conv:") {
            Some(format) => F::converted(&operands, format, round),
            None => panic!("no operation {operation}"),
        },
    }
}

/// Compares the lines of a type with what is computed, and gives how many checksums agree.
fn check<F: Benched>(name: &str) -> usize {
    let file = concat!(env!("CARGO_MANIFEST_DIR"), "/tests/checksums/expected");
    let text = std::fs::read_to_string(file).unwrap();
    let mut count = 0;
    for line in text.lines() {
        let words: Vec<&str> = line.split(' ').collect();
        let [of, operation, set, sums @ ..] = words.as_slice() else { continue };
        if *of != name {
            continue;
        }
        let set = if *set == "normal" { Set::Normal } else { Set::Denormal };
        for (expected, round) in sums.iter().zip(MODES) {
            let given = format!("{:016x}", checksum::<F>(operation, set, round));
            assert_eq!(given, *expected, "{line}, {round:?}");
            count += 1;
        }
    }
    count
}

macro_rules! checksums {
    ($($name:ident: $type:ty, $count:literal;)*) => {$(
        #[test]
        fn $name() {
            assert_eq!(check::<$type>(stringify!($name)), $count);
        }
    )*};
}

checksums! {
    half: Half, 138;
    single: Single, 138;
    double: Double, 138;
    quad: Quad, 118;
    bfloat: BFloat, 138;
    e5m2: Float8E5M2, 138;
    e4m3fn: Float8E4M3FN, 138;
    e4m3fnuz: Float8E4M3FNUZ, 138;
    x87: X87DoubleExtended, 128;
    dd: DoubleDouble, 78;
}
