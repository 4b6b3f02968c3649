//! What is measured of a conversion.

use crate::erased::exact_reductions::{ExactSum, NARROW_WORDS};
use crate::erased::rustc_apfloat::ieee::{Double, DoubleS, Quad};
use crate::erased::rustc_apfloat::{Category, Float, FloatConvert, Round, StatusAnd};
use crate::target::{Converted, Digits};

/// The least exponent of a double, and how many exponents there are.
const LEAST: i32 = -1074;
const BINADES: usize = 2098;

/// Errors are compared as quads, rounded to nearest, which keeps their order.
const NEAREST: Round = Round::NearestTiesToEven;

/// The largest error, and its number; none if there is none.
pub type Largest = Option<(Quad, Double)>;

/// How many values of each kind there are.
#[derive(Clone, Copy, Default)]
pub struct Kinds {
    pub numbers: u64,
    pub zeros: u64,
    pub infinities: u64,
    pub nans: u64,
}

/// How the numbers are distributed, by the exponents of their highest digits.
pub struct Binades([u64; BINADES]);

/// What became of the numbers of a binade.
#[derive(Clone, Copy, Default)]
pub struct Fate {
    /// Those whose results are other numbers, at most one unit in the last place away.
    pub inexact: u64,
    /// Those of them that became zeros.
    pub lost: u64,
    /// Those past the largest value: their results are no numbers, or farther away.
    pub past: u64,
}

/// What a conversion did.
pub struct Measures {
    pub results: Kinds,
    pub exact: u64,
    /// The fates of all numbers, and of those of each binade.
    pub all: Fate,
    pub fates: Vec<Fate>,
    /// The largest error of a number that stays one, and the number; none if all are exact.
    pub error: Largest,
    /// The largest such error in units in the last place of the result, and the number.
    pub ulps: Largest,
    signal: ExactSum<DoubleS, NARROW_WORDS>,
    noise: ExactSum<DoubleS, NARROW_WORDS>,
}

impl Kinds {
    pub fn count(&mut self, x: Double) {
        match x.category() {
            Category::Zero => self.zeros += 1,
            Category::Normal => self.numbers += 1,
            Category::Infinity => self.infinities += 1,
            Category::NaN => self.nans += 1,
        }
    }
}

/// The values in these bytes.
pub fn doubles(bytes: &[u8]) -> impl Iterator<Item = Double> {
    bytes.chunks_exact(8).map(|eight| {
        let bits = eight.iter().rev().fold(0, |bits, byte| bits << 8 | u128::from(*byte));
        Double::from_bits(bits)
    })
}

fn place(x: Double) -> usize {
    (x.ilogb() - LEAST) as usize
}

/// The exponent of a place.
pub fn exponent(place: usize) -> i32 {
    place as i32 + LEAST
}

impl Binades {
    pub fn new() -> Binades {
        Binades([0; BINADES])
    }

    pub fn count(&mut self, x: Double) {
        if x.category() == Category::Normal {
            self.0[place(x)] += 1;
        }
    }

    /// The binades that have numbers, the highest first, with how many.
    pub fn filled(&self) -> Vec<(usize, u64)> {
        self.0.iter().copied().enumerate().filter(|(_, count)| *count > 0).rev().collect()
    }
}

impl Measures {
    pub fn new() -> Measures {
        Measures {
            results: Kinds::default(),
            exact: 0,
            all: Fate::default(),
            fates: vec![Fate::default(); BINADES],
            error: None,
            ulps: None,
            signal: ExactSum::new(),
            noise: ExactSum::new(),
        }
    }

    /// Counts what became of some values; `together` of them have a scale in common.
    pub fn count(&mut self, digits: Digits, together: usize, values: &[u8], converted: &Converted) {
        for (i, (x, y)) in doubles(values).zip(doubles(&converted.results)).enumerate() {
            self.results.count(y);
            let scale = converted.scales.get(i / together).map_or(0, |code| i32::from(*code) - 127);
            if x.category() == Category::Normal {
                self.count_number(digits, scale, x, y);
            }
        }
    }

    fn count_number(&mut self, digits: Digits, scale: i32, x: Double, y: Double) {
        if !y.is_finite() {
            self.fate(x, |fate| fate.past += 1);
            return;
        }
        self.signal.add_product(x, x);
        if x == y {
            self.exact += 1;
            return;
        }
        // (x - y)^2 is exactly x * x - x * y - x * y + y * y.
        self.noise.add_product(x, x);
        self.noise.add_product(-x, y);
        self.noise.add_product(-x, y);
        self.noise.add_product(y, y);
        let error = quad(x).sub_r(quad(y), NEAREST).value.abs();
        let highest = if y.is_zero() { i32::MIN } else { y.ilogb() };
        let last = highest.max(digits.least_exponent + scale) - (digits.precision - 1);
        let ulps = error.scalbn_r(-last, NEAREST);
        keep(&mut self.error, error, x);
        keep(&mut self.ulps, ulps, x);
        self.fate(x, |fate| {
            if ulps > Quad::from_u128(1).value {
                fate.past += 1;
            } else {
                fate.inexact += 1;
                fate.lost += u64::from(y.is_zero());
            }
        });
    }

    fn fate(&mut self, x: Double, change: impl Fn(&mut Fate)) {
        change(&mut self.all);
        change(&mut self.fates[place(x)]);
    }

    /// The sum of the squares of the numbers that stay numbers, and that of their errors, each rounded once.
    pub fn powers(self) -> (Double, Double) {
        (self.signal.rounded(NEAREST).value, self.noise.rounded(NEAREST).value)
    }
}

fn quad(x: Double) -> Quad {
    let quad: StatusAnd<Quad> = x.convert_r(NEAREST, &mut false);
    quad.value
}

/// Keeps the larger of two errors, of equal ones the first.
fn keep(largest: &mut Largest, error: Quad, x: Double) {
    if largest.is_none_or(|(found, _)| error > found) {
        *largest = Some((error, x));
    }
}
