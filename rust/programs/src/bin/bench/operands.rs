//! Random operands.

use crate::encoding::Encoding;
use crate::generator::Generator;
use crate::operand_set::OperandSet;

/// The number of operands of each kind that are drawn.
const COUNT: usize = 1024;

/// The kinds of operands.
#[derive(Clone, Copy)]
pub enum Source {
    /// The bits of a number.
    Number(Encoding),
    /// The bits of a pair of numbers, with the high part in the lower half.
    Pair(Encoding),
}

impl Source {
    /// The bits of the next operand.
    fn operand(self, set: OperandSet, generator: &mut Generator) -> u128 {
        match self {
            Source::Number(encoding) => encoding.operand(set, generator),
            Source::Pair(encoding) => encoding.pair(set, generator),
        }
    }
}

/// The bits of the operands of calls with up to three operands.
pub fn drawn_bits(source: Source, set: OperandSet) -> Vec<[u128; 3]> {
    let mut generator = Generator::new();
    (0..COUNT).map(|_| [(); 3].map(|()| source.operand(set, &mut generator))).collect()
}

/// Integers of any width up to 128 bits.
pub fn drawn_integers() -> Vec<u128> {
    let mut generator = Generator::new();
    (0..COUNT).map(|_| generator.wide_word() >> (generator.word() % 128)).collect()
}

/// Hexadecimal texts of numbers, with up to a few more digits than a significand has.
pub fn drawn_texts(encoding: Encoding, set: OperandSet) -> Vec<String> {
    let mut generator = Generator::new();
    (0..COUNT).map(|_| drawn_text(encoding, set, &mut generator)).collect()
}

/// The next hexadecimal text.
fn drawn_text(encoding: Encoding, set: OperandSet, generator: &mut Generator) -> String {
    let head = generator.word();
    let count = generator.below(encoding.digits_of_texts()) + 1;
    let digits: String = (0..count).map(|_| format!("{:x}", generator.word() % 16)).collect();
    let sign = if head >> 63 == 1 { "-" } else { "" };
    let is_small = matches!(set, OperandSet::Denormal) && head >> 8 & 1 == 0;
    let exponent = encoding.exponent_of_text(is_small, generator);
    format!("{sign}0x1.{digits}p{exponent}")
}
