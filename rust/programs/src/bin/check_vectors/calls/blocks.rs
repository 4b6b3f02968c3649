//! Blocks of values with a common scale. Operands and values are lists of bits, of the elements and of singles.

use crate::erased::commands::bits_of;
use crate::erased::formats_at_run_time::{BuiltInFormat, FlaggedFormat};
use crate::erased::rustc_apfloat::Float;
use crate::erased::rustc_apfloat::ieee::Single;
use crate::erased::small_formats::blocks::{
    Block, Counts, ElementFormat, dequantize_block, dequantize_nvfp4_block, quantize_block, quantize_nvfp4_block,
    tensor_scale,
};
use crate::lines::{
    Answered, BlockCall, CallFault, ExtraField, Formats, Request, RowAnswer, RowFormat, Text, ValueField,
};
use std::fmt::Write as _;

/// The most elements of a block that a row has.
const MOST: usize = 32;

/// The most values of a tensor that a row has.
const MOST_OF_TENSOR: usize = 256;

/// What a call on a block of singles returns; its operands are in a text.
pub(crate) fn answer(formats: Formats, call: BlockCall, request: Request, text: &str) -> Answered {
    match call {
        BlockCall::TensorScale => match formats {
            Formats::One(format) if is_single(format) => scale_of(text),
            _ => Err(CallFault::Support),
        },
        BlockCall::Quantize | BlockCall::QuantizeNvfp4 => {
            let element = target_of(formats).ok_or(CallFault::Support)?;
            quantized(call, element, request, text)
        }
        BlockCall::Dequantize | BlockCall::DequantizeNvfp4 => {
            let element = source_of(formats).ok_or(CallFault::Support)?;
            dequantized(call, element, request, text)
        }
    }
}

/// Whether a format is `single`, with the flags of the built-in formats.
fn is_single(format: RowFormat) -> bool {
    matches!(format, RowFormat::BuiltIn(BuiltInFormat::Single, FlaggedFormat::BuiltIn(_)))
}

/// The element format of a block of singles.
fn target_of(formats: Formats) -> Option<ElementFormat> {
    match formats {
        Formats::ToStorage(BuiltInFormat::Single, target) => stored_element(target.word),
        Formats::Between(source, target) if is_single(source) => element_of(target),
        _ => None,
    }
}

/// The element format of a block that becomes singles.
fn source_of(formats: Formats) -> Option<ElementFormat> {
    match formats {
        Formats::FromStorage(source, FlaggedFormat::BuiltIn(BuiltInFormat::Single)) => stored_element(source.word),
        Formats::Between(source, target) if is_single(target) => element_of(source),
        _ => None,
    }
}

/// The element format of this word.
fn stored_element(word: &str) -> Option<ElementFormat> {
    match word {
        "e2m1fn" => Some(ElementFormat::E2M1FN),
        "e2m3fn" => Some(ElementFormat::E2M3FN),
        "e3m2fn" => Some(ElementFormat::E3M2FN),
        _ => None,
    }
}

/// The element format that is a built-in format.
fn element_of(format: RowFormat) -> Option<ElementFormat> {
    match format {
        RowFormat::BuiltIn(BuiltInFormat::E5M2, FlaggedFormat::BuiltIn(_)) => Some(ElementFormat::E5M2),
        RowFormat::BuiltIn(BuiltInFormat::E4M3FN, FlaggedFormat::BuiltIn(_)) => Some(ElementFormat::E4M3FN),
        _ => None,
    }
}

/// A list of values of at most `width` bits, and how many there are.
fn numbers<const N: usize>(text: &str, width: usize) -> Result<([u128; N], usize), CallFault> {
    let mut numbers = [0; N];
    let mut count = 0;
    for word in text.split(' ') {
        let (Some(number), Some(place)) = (bits_of(word, width), numbers.get_mut(count)) else {
            return Err(CallFault::Operands);
        };
        *place = number;
        count += 1;
    }
    Ok((numbers, count))
}

/// The same, of codes.
fn codes_of(text: &str) -> Result<([u8; MOST], usize), CallFault> {
    let (read, count) = numbers::<MOST>(text, 8)?;
    Ok((read.map(|code| code as u8), count))
}

/// The same, of singles.
fn singles<const N: usize>(text: &str) -> Result<([Single; N], usize), CallFault> {
    let (read, count) = numbers::<N>(text, 32)?;
    Ok((read.map(Single::from_bits), count))
}

/// The first word, and the others.
fn cut(text: &str, width: usize) -> Result<(u128, &str), CallFault> {
    let (word, others) = text.split_once(' ').ok_or(CallFault::Operands)?;
    Ok((bits_of(word, width).ok_or(CallFault::Operands)?, others))
}

/// The scale of a tensor; `None` if a value is not finite.
fn scale_of(text: &str) -> Answered {
    let (values, count) = singles::<MOST_OF_TENSOR>(text)?;
    Ok(RowAnswer::told(match tensor_scale(&values[..count]) {
        Ok(scale) => ValueField::Bits(scale.to_bits(), 32),
        Err(_) => ValueField::Text(Text::of("None")),
    }))
}

/// A block: its scale and its codes, and how many elements raised flags.
fn quantized(call: BlockCall, element: ElementFormat, request: Request, text: &str) -> Answered {
    let mut codes = [0; MOST];
    let is_nvfp4 = matches!(call, BlockCall::QuantizeNvfp4);
    let (tensor, others) = if is_nvfp4 { cut(text, 32)? } else { (0, text) };
    let (values, count) = singles::<MOST>(others)?;
    let (values, codes) = (&values[..count], &mut codes[..count]);
    let block = if is_nvfp4 {
        quantize_nvfp4_block(values, Single::from_bits(tensor), request.round, codes).ok()
    } else {
        quantize_block(element, values, request.round, codes).ok()
    };
    let Some(Block { scale, counts, .. }) = block else {
        return Err(CallFault::Operands);
    };
    let mut text = Text::of("");
    let _ = write!(text, "{scale:02x}");
    let digits = element.bits().div_ceil(4) as usize;
    for code in codes {
        let _ = write!(text, " {code:0digits$x}");
    }
    Ok(RowAnswer::told(ValueField::Text(text)).with(counted(counts)))
}

/// The counts of a block.
fn counted(counts: Counts) -> ExtraField {
    ExtraField::Counts([counts.overflow, counts.underflow, counts.inexact])
}

/// The values of a block.
fn dequantized(call: BlockCall, element: ElementFormat, request: Request, text: &str) -> Answered {
    let is_nvfp4 = matches!(call, BlockCall::DequantizeNvfp4);
    let (tensor, others) = if is_nvfp4 { cut(text, 32)? } else { (0, text) };
    let (scale, others) = cut(others, 8)?;
    let (codes, count) = codes_of(others)?;
    let mut values = [Single::from_bits(0); MOST];
    let (scale, codes, values) = (scale as u8, &codes[..count], &mut values[..count]);
    let done = if is_nvfp4 {
        dequantize_nvfp4_block(scale, codes, Single::from_bits(tensor), request.round, values).is_ok()
    } else {
        dequantize_block(element, scale, codes, request.round, values).is_ok()
    };
    if !done {
        return Err(CallFault::Operands);
    }
    let mut text = Text::of("");
    for (place, value) in values.iter().enumerate() {
        let space = if place == 0 { "" } else { " " };
        let _ = write!(text, "{space}{:08x}", value.to_bits());
    }
    Ok(RowAnswer::told(ValueField::Text(text)))
}
