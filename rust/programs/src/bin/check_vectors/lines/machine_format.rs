//! Formats as a machine computes in them, as rows name them: `single@x86`, or `single@x86+ftz` where tiny results are
//! flushed to zero.

use crate::erased::apfloat_machines::{Flush, Machine};
use crate::erased::formats_at_run_time::{BuiltInFormat, BuiltInKind, FlaggedFormat, IeeeFormat};
use crate::erased::rustc_apfloat::ieee::{BFloatS, DoubleS, Float8E5M2S, HalfS, QuadS, SingleS, X87DoubleExtendedS};
use crate::lines::machine_words::MACHINES_BY_WORD;
use crate::lines::row_format::{CallInFormat, RowFormat};
use crate::lines::table::found;

/// A format with the infinities of IEEE 754, and the machine that computes in it.
#[derive(Clone, Copy)]
pub struct MachineFormat {
    built_in: BuiltInFormat,
    format: IeeeFormat,
    /// The machine.
    pub machine: Machine,
    /// The flags of a result that is flushed to zero, if tiny results are.
    pub flush: Option<Flush>,
}

/// The words of machines, for messages.
pub const MACHINE_WORDS: &str = "x86, x87, arm, arm_default_nan, arm_alternate, risc_v, power, s390x, \
    arm_alternate_default_nan, webassembly, ptx, mips_2008, loongarch, sparc or m68k";

/// The word of the machine that formats name, if it is the word of none.
pub fn unknown_machine(formats: &str) -> Option<&str> {
    let (_, word) = formats.split_once('@')?;
    let (name, _) = word.split_once('+').unwrap_or((word, ""));
    match found(MACHINES_BY_WORD, name) {
        Some(_) => None,
        None => Some(name),
    }
}

/// What is wrong with formats whose rows the machine cannot give, and what stands in their place. x86 has no FTZ of
/// half, FZ16 of Arm is of arithmetic in half, not of conversions, and x86 converts single to bfloat without modes and
/// flags.
pub fn not_given(formats: &str) -> Option<(&'static str, &'static str)> {
    let (formats, word) = formats.split_once('@')?;
    let (name, option) = word.split_once('+').unwrap_or((word, ""));
    let machine = found(MACHINES_BY_WORD, name)?;
    let (source, target) = formats.split_once('>').unwrap_or(("", formats));
    match (machine, source, target, option) {
        (Machine::X86, "single", "bfloat", _) => {
            Some(("no conversion", "no `bfloat`, since VCVTNEPS2BF16 has no modes and raises no flags"))
        }
        (Machine::X86, _, "half", "ftz") => Some(("no flushing", "no `+ftz`, since x86 does not flush half")),
        (_, "", _, _) => None,
        (_, _, "half", "ftz") => Some(("no flushing", "no `+ftz`, since no machine flushes what it converts to half")),
        _ => None,
    }
}

impl MachineFormat {
    /// The format of this name on the machine of this word, which may end in `+ftz` if the machine flushes results.
    pub fn named(format: &str, word: &str) -> Option<MachineFormat> {
        let (name, option) = word.split_once('+').unwrap_or((word, ""));
        let machine = found(MACHINES_BY_WORD, name)?;
        let kind = BuiltInKind::named(format)?;
        let (Some(built_in), Some(format)) = (kind.format(), IeeeFormat::of(kind)) else {
            return None;
        };
        let flush = match (option, machine.flush) {
            ("", _) if name == word => None,
            ("ftz", Some(flush)) => Some(flush),
            _ => return None,
        };
        Some(MachineFormat { built_in, format, machine, flush })
    }

    /// The format with the flags of IEEE 754, which detects tininess as the machine does.
    pub fn with_flags(self) -> RowFormat {
        let flagged = if self.machine.tiny_before_rounding {
            FlaggedFormat::BeforeRounding(self.format)
        } else {
            FlaggedFormat::AfterRounding(self.format)
        };
        RowFormat::BuiltIn(self.built_in, flagged)
    }

    /// Makes a call in the format, with the flags of the built-in formats: there are seven copies of it.
    pub fn run_plain<C: CallInFormat>(self, call: C) -> C::Output {
        match self.format {
            IeeeFormat::Half => call.made_in::<HalfS>(),
            IeeeFormat::Single => call.made_in::<SingleS>(),
            IeeeFormat::Double => call.made_in::<DoubleS>(),
            IeeeFormat::Quad => call.made_in::<QuadS>(),
            IeeeFormat::BFloat => call.made_in::<BFloatS>(),
            IeeeFormat::E5M2 => call.made_in::<Float8E5M2S>(),
            IeeeFormat::X87 => call.made_in::<X87DoubleExtendedS>(),
        }
    }
}
