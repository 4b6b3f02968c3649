//! The operations on flags (5.7.4).

use crate::erased::ieee_operations::{
    lower_flags, raise_flags, restore_flags, save_all_flags, test_flags, test_saved_flags,
};
use crate::erased::rustc_apfloat::Status;
use crate::lines::{
    Answered, CallFault, ExtraField, FlagsCall, Operand, Operands, RowAnswer, StatusField, Text, ValueField,
};

/// What an operation on flags returns: flags in their column, or whether any is raised.
pub fn flags_of(call: FlagsCall, operands: Operands) -> Answered {
    let Operand::Status(flags) = operands.first else {
        return Err(CallFault::Operands);
    };
    match (call, operands.second, operands.third) {
        (FlagsCall::SaveAll, _, _) => Ok(flags_raised(save_all_flags(flags))),
        (FlagsCall::Lower, Operand::Status(group), _) => Ok(flags_raised(lower_flags(flags, group))),
        (FlagsCall::Raise, Operand::Status(group), _) => Ok(flags_raised(raise_flags(flags, group))),
        (FlagsCall::Test, Operand::Status(group), _) => Ok(told(test_flags(flags, group))),
        (FlagsCall::TestSaved, Operand::Status(group), _) => Ok(told(test_saved_flags(flags, group))),
        (FlagsCall::Restore, Operand::Status(saved), Operand::Status(group)) => {
            Ok(flags_raised(restore_flags(flags, saved, group)))
        }
        _ => Err(CallFault::Operands),
    }
}

/// The columns for flags, with `-` in that of the value.
fn flags_raised(flags: Status) -> RowAnswer {
    RowAnswer { value: ValueField::Text(Text::of("-")), status: StatusField::Flags(flags), extra: ExtraField::Nothing }
}

/// The columns for a truth value.
fn told(holds: bool) -> RowAnswer {
    RowAnswer::told(ValueField::Truth(holds))
}
