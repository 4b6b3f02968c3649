//! The words of machines.

use crate::erased::apfloat_machines::Machine;

/// The machines by their words. The last six are other spellings.
pub static MACHINES_BY_WORD: &[(&str, Machine)] = &[
    ("x86", Machine::X86),
    ("x87", Machine::X87),
    ("arm", Machine::ARM),
    ("arm_default_nan", Machine::ARM_DEFAULT_NAN),
    ("arm_alternate", Machine::ARM_ALTERNATE),
    ("risc_v", Machine::RISC_V),
    ("power", Machine::POWER),
    ("s390x", Machine::S390X),
    ("arm_alternate_default_nan", Machine::ARM_ALTERNATE_DEFAULT_NAN),
    ("webassembly", Machine::WEBASSEMBLY),
    ("ptx", Machine::PTX),
    ("mips_2008", Machine::MIPS_2008),
    ("loongarch", Machine::LOONGARCH),
    ("sparc", Machine::SPARC),
    ("m68k", Machine::M68K),
    ("arm-default-nan", Machine::ARM_DEFAULT_NAN),
    ("arm-alternate", Machine::ARM_ALTERNATE),
    ("arm-alternate-default-nan", Machine::ARM_ALTERNATE_DEFAULT_NAN),
    ("risc-v", Machine::RISC_V),
    ("mips-2008", Machine::MIPS_2008),
    ("riscv", Machine::RISC_V),
];
