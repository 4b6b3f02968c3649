//! Prints checksums or times of all operations.

use crate::erased::formats_at_run_time::{CommandKind, command_kinds};
use crate::erased::rustc_apfloat::Round;
use crate::kind::measured;
use crate::nanoseconds::Nanoseconds;
use crate::operand_set::OperandSet;
use crate::operation::{FURTHER_OPERATIONS, OPERATIONS, Operation};
use crate::task::Task;
use std::io::{self, Write};

const MODES: [Round; 5] = [
    Round::NearestTiesToEven,
    Round::TowardPositive,
    Round::TowardNegative,
    Round::TowardZero,
    Round::NearestTiesToAway,
];

const TABLE_HEAD: &str = "| | add | sub | mul | div | fma | rem | mod | conv:half | conv:single | conv:double | toint | int | parse | bits |\n\
    |---|---|---|---|---|---|---|---|---|---|---|---|---|---|---|";

const FURTHER_HEADING: &str = "Square roots of magnitudes, and products and fused sums in formats of any precision:";

const FURTHER_TABLE_HEAD: &str = "| | sqrt | wide_mul | wide_fma |\n|---|---|---|---|";

/// Prints the checksums of all operations in all types.
pub fn print_checksums(out: &mut impl Write) -> io::Result<()> {
    print_sums(out, &OPERATIONS)?;
    writeln!(out, "{FURTHER_HEADING}")?;
    print_sums(out, &FURTHER_OPERATIONS)
}

/// Prints the checksums of some operations in all types.
fn print_sums(out: &mut impl Write, operations: &[Operation]) -> io::Result<()> {
    for kind in command_kinds().iter() {
        print_lines(out, *kind, operations)?;
    }
    Ok(())
}

/// Prints the lines of a type.
fn print_lines(out: &mut impl Write, kind: CommandKind, operations: &[Operation]) -> io::Result<()> {
    for operation in operations {
        print_line(out, kind, *operation, OperandSet::Normal)?;
        print_line(out, kind, *operation, OperandSet::Denormal)?;
    }
    Ok(())
}

/// Prints the line of an operation in a type: its checksums for a set of operands.
fn print_line(out: &mut impl Write, kind: CommandKind, operation: Operation, set: OperandSet) -> io::Result<()> {
    let sums = sums_of(kind, operation, set);
    if sums.is_empty() {
        return Ok(());
    }
    write!(out, "{} {} {}", kind.built_in().word(), operation.name(), set.name())?;
    for sum in &sums {
        write!(out, " {sum:016x}")?;
    }
    writeln!(out)
}

/// The checksums of an operation in each mode, or one if it has no mode.
fn sums_of(kind: CommandKind, operation: Operation, set: OperandSet) -> Vec<u64> {
    let modes = if operation.rounds() { &MODES[..] } else { &MODES[..1] };
    let tasks = modes.iter().map(|mode| Task { operation, set, mode: *mode, rounds: 0 });
    tasks.filter_map(|task| measured(kind, task)).map(|known| known.checksum).collect()
}

/// Prints the time of each operation in each type, in nanoseconds.
pub fn print_times(out: &mut impl Write) -> io::Result<()> {
    print_table(out, OperandSet::Normal, TABLE_HEAD, &OPERATIONS)?;
    print_table(out, OperandSet::Denormal, TABLE_HEAD, &OPERATIONS)?;
    writeln!(out, "{FURTHER_HEADING}\n")?;
    print_table(out, OperandSet::Normal, FURTHER_TABLE_HEAD, &FURTHER_OPERATIONS)?;
    print_table(out, OperandSet::Denormal, FURTHER_TABLE_HEAD, &FURTHER_OPERATIONS)
}

/// Prints the table of times of some operations for a set of operands.
fn print_table(out: &mut impl Write, set: OperandSet, head: &str, operations: &[Operation]) -> io::Result<()> {
    writeln!(out, "Set {}, nanoseconds\n", set.name())?;
    writeln!(out, "{head}")?;
    for kind in command_kinds().iter() {
        print_row(out, *kind, set, operations)?;
    }
    writeln!(out)
}

/// Prints the row of a type.
fn print_row(out: &mut impl Write, kind: CommandKind, set: OperandSet, operations: &[Operation]) -> io::Result<()> {
    write!(out, "| {} |", kind.built_in().word())?;
    for operation in operations {
        print_time(out, kind, *operation, set)?;
    }
    writeln!(out)
}

/// Prints the time of an operation in a type, or a dash if the type does not have it.
fn print_time(out: &mut impl Write, kind: CommandKind, operation: Operation, set: OperandSet) -> io::Result<()> {
    let task = Task { operation, set, mode: Round::NearestTiesToEven, rounds: 300 };
    match measured(kind, task) {
        Some(known) => {
            let time = Nanoseconds::of_each(known);
            write!(out, " {time} |")
        }
        None => write!(out, " - |"),
    }
}
