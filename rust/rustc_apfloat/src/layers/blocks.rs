//! Blocks with a common scale: what is refused, and packed codes.

use super::same;
use crate::erased::apfloat_base::{Float, Round};
use crate::erased::apfloat_ieee::built_in_formats::Single;
use crate::erased::small_formats::blocks::{
    BlockError, ElementFormat, Nvfp4Error, dequantize_block, dequantize_nvfp4_block, quantize_block,
    quantize_nvfp4_block, tensor_scale,
};
use crate::erased::small_formats::packing::{PackingError, pack_fours, pack_sixes, unpack_fours, unpack_sixes};

const EVEN: Round = Round::NearestTiesToEven;

fn single(bits: u32) -> Single {
    Single::from_bits(u128::from(bits))
}

/// What is refused by name, with nothing written.
#[test]
fn refused() {
    let one = single(0x3f80_0000);
    let mut codes = [9u8; 2];
    let none: [Single; 0] = [];
    let answer = quantize_block(ElementFormat::E2M1FN, &none, EVEN, &mut codes);
    same(answer.err(), Some(BlockError::Empty), codes);
    let answer = quantize_block(ElementFormat::E2M1FN, &[one], EVEN, &mut codes);
    same(answer.err(), Some(BlockError::Lengths), codes);
    same(codes, [9, 9], "nothing is written");
    let mut values = [one; 2];
    let answer = dequantize_block(ElementFormat::E2M1FN, 127, &[1, 16], EVEN, &mut values);
    same(answer.err(), Some(BlockError::CodeTooWide), codes);
}

/// 7, 6, 5 and 0.25: with the scale 1 of the tensor, that of the block is 1.125, so 7 becomes 6.75.
#[test]
fn nvfp4_there_and_back() {
    let block = [0x40e0_0000, 0x40c0_0000, 0x40a0_0000, 0x3e80_0000].map(single);
    let one = single(0x3f80_0000);
    let mut codes = [0; 4];
    let answer = quantize_nvfp4_block(&block, one, EVEN, &mut codes);
    same((answer.is_ok(), codes), (true, [7, 7, 6, 0]), "codes");
    let mut values = [single(0); 4];
    let answer = dequantize_nvfp4_block(0x39, &codes, one, EVEN, &mut values);
    let back = [0x40d8_0000, 0x40d8_0000, 0x4090_0000, 0];
    same((answer.is_ok(), values.map(Single::to_bits)), (true, back), "values");
    same(tensor_scale(&block).map(Single::to_bits), Ok(0x3b2a_aaab), "the scale of the tensor");
}

/// What is refused by name, with nothing written.
#[test]
fn nvfp4_refused() {
    let one = single(0x3f80_0000);
    let mut codes = [9u8; 2];
    let none: [Single; 0] = [];
    let answer = quantize_nvfp4_block(&none, one, EVEN, &mut codes);
    same(answer.err(), Some(Nvfp4Error::Empty), codes);
    let answer = quantize_nvfp4_block(&[one], one, EVEN, &mut codes);
    same(answer.err(), Some(Nvfp4Error::Lengths), codes);
    let answer = quantize_nvfp4_block(&[one, one], -one, EVEN, &mut codes);
    same(answer.err(), Some(Nvfp4Error::TensorScale), codes);
    same(codes, [9, 9], "nothing is written");
    let mut values = [one; 2];
    let answer = dequantize_nvfp4_block(128, &[1, 2], one, EVEN, &mut values);
    same(answer.err(), Some(Nvfp4Error::BlockScale), codes);
    let answer = dequantize_nvfp4_block(56, &[1, 16], one, EVEN, &mut values);
    same(answer.err(), Some(Nvfp4Error::CodeTooWide), codes);
    let answer = tensor_scale(&[one, Single::infinity()]);
    same(answer.err(), Some(Nvfp4Error::NotFinite), codes);
}

/// A group of each layout, and back.
#[test]
fn packed() {
    let mut byte = [0u8; 1];
    let done = pack_fours(&[0x3, 0xa], &mut byte);
    same((done, byte), (Ok(()), [0xa3]), "fours");
    let mut fours = [0u8; 2];
    let done = unpack_fours(&byte, &mut fours);
    same((done, fours), (Ok(()), [0x3, 0xa]), "fours");
    let mut bytes = [0u8; 3];
    let done = pack_sixes(&[0x01, 0x3f, 0x20, 0x15], &mut bytes);
    same((done, bytes), (Ok(()), [0xc1, 0x0f, 0x56]), "sixes");
    let mut sixes = [0u8; 4];
    let done = unpack_sixes(&bytes, &mut sixes);
    same((done, sixes), (Ok(()), [0x01, 0x3f, 0x20, 0x15]), "sixes");
    let done = pack_fours(&[1, 2, 3], &mut byte);
    same((done, byte), (Err(PackingError::Uneven), [0xa3]), "uneven");
    let done = pack_fours(&[1, 2, 3, 4], &mut byte);
    same((done, byte), (Err(PackingError::Lengths), [0xa3]), "lengths");
    let done = pack_fours(&[1, 16], &mut byte);
    same((done, byte), (Err(PackingError::CodeTooWide), [0xa3]), "too wide");
}
