//! Sums of streams, in one pass over values; blocks are read into memory.

use crate::erased::apfloat_arrays::{Extended, number_of, width};
use crate::erased::exact_reductions::{
    BlockScaling, BlockVector, ExactSum, NARROW_WORDS, WIDE_WORDS, are_enough, dot_blocks_r,
};
use crate::erased::formats_at_run_time::InFormat;
use crate::erased::rustc_apfloat::ieee::{IeeeFloat, Semantics};
use crate::erased::rustc_apfloat::{Float, Round, Status, StatusAnd};
use crate::erased::small_formats::blocks::ElementFormat;
use crate::erased::small_formats::packing::{unpack_fours, unpack_sixes};
use crate::request::{Request, Stream, Terms, group};
use std::io::{self, ErrorKind, Read};

/// How many values are read at once.
const VALUES_AT_ONCE: usize = 1 << 15;

/// A result: its bits, in so many hexadecimal digits, and its flags.
pub struct Answer {
    pub bits: u128,
    pub digits: usize,
    pub status: Status,
}

/// Why there is no result.
pub enum Refusal {
    /// So many bytes stood after the last value or block.
    Uneven(usize),
    LengthsDiffer,
    Input(io::Error),
    Other(io::Error),
}

/// The sum of a stream, with the file of the other vector if it has one.
pub fn reduced<'a>(
    request: &Request,
    input: &'a mut dyn Read,
    other: Option<&'a mut dyn Read>,
) -> Result<Answer, Refusal> {
    let round = request.round;
    match (request.stream, other) {
        (Stream::Values(terms), other) => {
            let width = width(request.format, Extended::Packed);
            request.format.run(ValuesCall { terms, round, width, input, other })
        }
        (Stream::Blocks(element, length), Some(other)) => {
            let x = Blocks::read(element, length, input, Refusal::Input)?;
            let y = Blocks::read(element, length, other, Refusal::Other)?;
            request.format.run(BlocksCall { x: x.vector(), y: y.vector(), round })
        }
        (Stream::Blocks(..), None) => unreachable!("the words name a file"),
    }
}

fn answer<S: Semantics>(total: StatusAnd<IeeeFloat<S>>) -> Answer {
    Answer { bits: total.value.to_bits(), digits: S::BITS.div_ceil(4), status: total.status }
}

// ---- values

/// The call that adds what a stream of values gives, at the type of its format.
struct ValuesCall<'a> {
    terms: Terms,
    round: Round,
    width: usize,
    input: &'a mut dyn Read,
    other: Option<&'a mut dyn Read>,
}

impl InFormat for ValuesCall<'_> {
    type Output = Result<Answer, Refusal>;

    fn in_format<S: Semantics>(self) -> Self::Output {
        if are_enough::<S>(NARROW_WORDS) { self.sum::<S, NARROW_WORDS>() } else { self.sum::<S, WIDE_WORDS>() }
    }
}

impl ValuesCall<'_> {
    fn sum<S: Semantics, const WORDS: usize>(mut self) -> Result<Answer, Refusal> {
        let mut sum = ExactSum::<S, WORDS>::new();
        let mut buffer = vec![0; VALUES_AT_ONCE * self.width];
        let mut factors = buffer.clone();
        loop {
            let read = fill(self.input, &mut buffer).map_err(Refusal::Input)?;
            if let Some(other) = &mut self.other
                && fill(*other, &mut factors).map_err(Refusal::Other)? != read
            {
                return Err(Refusal::LengthsDiffer);
            }
            let whole = read - read % self.width;
            let value = |bytes: &[u8]| IeeeFloat::<S>::from_bits(number_of(bytes));
            for (x, y) in buffer[..whole].chunks(self.width).zip(factors.chunks(self.width)) {
                match self.terms {
                    Terms::Values => sum.add(value(x)),
                    Terms::Magnitudes => sum.add(value(x).abs()),
                    Terms::Squares => sum.add_product(value(x), value(x)),
                    Terms::Products => sum.add_product(value(x), value(y)),
                }
            }
            if whole < read {
                return Err(Refusal::Uneven(read - whole));
            }
            if read < buffer.len() {
                return Ok(answer(sum.rounded(self.round)));
            }
        }
    }
}

/// Reads until the buffer is full or the stream ends, and returns how many bytes.
fn fill(input: &mut dyn Read, buffer: &mut [u8]) -> io::Result<usize> {
    let mut filled = 0;
    while filled < buffer.len() {
        match input.read(&mut buffer[filled..]) {
            Ok(0) => break,
            Ok(more) => filled += more,
            Err(error) if error.kind() == ErrorKind::Interrupted => {}
            Err(error) => return Err(error),
        }
    }
    Ok(filled)
}

// ---- blocks

/// The blocks of a stream, with their codes one in a byte.
struct Blocks {
    element: ElementFormat,
    length: usize,
    scales: Vec<u8>,
    codes: Vec<u8>,
}

impl Blocks {
    fn read(
        element: ElementFormat,
        length: usize,
        input: &mut dyn Read,
        refusal: impl Fn(io::Error) -> Refusal,
    ) -> Result<Blocks, Refusal> {
        let mut bytes = Vec::new();
        input.read_to_end(&mut bytes).map_err(refusal)?;
        let size = 1 + length * element.bits() as usize / 8;
        let mut blocks = Blocks { element, length, scales: Vec::new(), codes: vec![0; bytes.len() / size * length] };
        if bytes.len() % size != 0 {
            return Err(Refusal::Uneven(bytes.len() % size));
        }
        for (block, codes) in bytes.chunks(size).zip(blocks.codes.chunks_mut(length)) {
            blocks.scales.push(block[0]);
            let packed = &block[1..];
            // The lengths fit together.
            let _ = match group(element) {
                2 => unpack_fours(packed, codes),
                4 => unpack_sixes(packed, codes),
                _ => {
                    codes.copy_from_slice(packed);
                    Ok(())
                }
            };
        }
        Ok(blocks)
    }

    fn vector(&self) -> BlockVector<'_> {
        let scaling = BlockScaling::Mx(self.element);
        BlockVector { scaling, length: self.length, scales: &self.scales, codes: &self.codes }
    }
}

/// The call that finds the dot product of two vectors in blocks.
struct BlocksCall<'a> {
    x: BlockVector<'a>,
    y: BlockVector<'a>,
    round: Round,
}

impl InFormat for BlocksCall<'_> {
    type Output = Result<Answer, Refusal>;

    fn in_format<S: Semantics>(self) -> Self::Output {
        dot_blocks_r::<S>(self.x, self.y, self.round).map(answer).map_err(|_| Refusal::LengthsDiffer)
    }
}
