//! The formats that the row of a call names.

use crate::erased::formats_at_run_time::{BuiltInFormat, FlaggedFormat};
use crate::lines::call::Call;
use crate::lines::fewer_digits::FewerDigits;
use crate::lines::machine_format::{MachineFormat, not_given};
use crate::lines::row_format::RowFormat;
use crate::lines::storage::StorageName;

/// The formats of a row.
#[derive(Clone, Copy)]
pub enum Formats {
    /// One format.
    One(RowFormat),
    /// Pairs of doubles.
    Pairs,
    /// From pairs to the wide format.
    FromPairs,
    /// From the wide format to pairs.
    ToPairs,
    /// From pairs to another format.
    PairsTo(RowFormat),
    /// From another format to pairs.
    PairsFrom(RowFormat),
    /// From one format to another.
    Between(RowFormat, RowFormat),
    /// From `x87` to one of its formats of fewer digits.
    ToFewerDigits(FewerDigits),
    /// One format on a machine.
    OnMachine(MachineFormat),
    /// From a built-in format to another on a machine.
    BetweenOnMachine(BuiltInFormat, MachineFormat),
    /// From a built-in format to a storage format.
    ToStorage(BuiltInFormat, StorageName),
    /// From a storage format to a built-in format.
    FromStorage(StorageName, FlaggedFormat),
    /// From one storage format to another.
    BetweenStorage(StorageName, StorageName),
    /// One storage format.
    Storage(StorageName),
    /// None, for operations on flags.
    OfFlags,
}

impl Formats {
    /// The formats of this word in a row of a call.
    pub fn of(call: Call, word: &str) -> Option<Formats> {
        match call {
            Call::Operation(operation) if operation.is_of_flags() => {
                if word == "-" {
                    Some(Formats::OfFlags)
                } else {
                    None
                }
            }
            _ => Formats::named(word),
        }
    }

    /// The formats of this word.
    pub fn named(word: &str) -> Option<Formats> {
        if let Some((formats, machine)) = word.split_once('@') {
            return if not_given(word).is_none() { Formats::on_machine(formats, machine) } else { None };
        }
        match word.split_once('>') {
            None if word == "dd" => Some(Formats::Pairs),
            None => {
                RowFormat::named(word).map(Formats::One).or_else(|| StorageName::named(word).map(Formats::Storage))
            }
            Some(("dd", "fallback")) => Some(Formats::FromPairs),
            Some(("fallback", "dd")) => Some(Formats::ToPairs),
            Some(("x87", target)) if target.starts_with("x87p") => {
                FewerDigits::named(target).map(Formats::ToFewerDigits)
            }
            Some(("dd", target)) => RowFormat::named(target).map(Formats::PairsTo),
            Some((source, "dd")) => RowFormat::named(source).map(Formats::PairsFrom),
            Some((source, target)) => Formats::between(source, target),
        }
    }

    /// The width of an operand in bits, if it has bits.
    pub fn width(self) -> Option<usize> {
        match self {
            Formats::Pairs | Formats::FromPairs | Formats::PairsTo(_) => Some(128),
            Formats::One(format) | Formats::Between(format, _) | Formats::PairsFrom(format) => format.width(),
            Formats::BetweenOnMachine(format, _) | Formats::ToStorage(format, _) => RowFormat::plain(format).width(),
            Formats::FromStorage(format, _) | Formats::BetweenStorage(format, _) | Formats::Storage(format) => {
                Some(format.width)
            }
            Formats::OnMachine(target) => target.with_flags().width(),
            Formats::ToFewerDigits(_) => Some(80),
            Formats::ToPairs | Formats::OfFlags => None,
        }
    }

    /// One format, or from one to another, on the machine of this word.
    fn on_machine(formats: &str, machine: &str) -> Option<Formats> {
        let Some((source, target)) = formats.split_once('>') else {
            return MachineFormat::named(formats, machine).map(Formats::OnMachine);
        };
        match (RowFormat::named(source), MachineFormat::named(target, machine)) {
            (Some(RowFormat::BuiltIn(format, FlaggedFormat::BuiltIn(_))), Some(target)) => {
                Some(Formats::BetweenOnMachine(format, target))
            }
            _ => None,
        }
    }

    /// From one format to another.
    fn between(source: &str, target: &str) -> Option<Formats> {
        match (RowFormat::named(source), RowFormat::named(target)) {
            (Some(source), Some(target)) => Some(Formats::Between(source, target)),
            (Some(RowFormat::BuiltIn(format, _)), None) => {
                StorageName::named(target).map(|target| Formats::ToStorage(format, target))
            }
            (None, Some(RowFormat::BuiltIn(_, format))) => {
                StorageName::named(source).map(|source| Formats::FromStorage(source, format))
            }
            (None, None) => {
                let (source, target) = (StorageName::named(source)?, StorageName::named(target)?);
                Some(Formats::BetweenStorage(source, target))
            }
            _ => None,
        }
    }
}
