//! The lines of test vector files: what the columns of rows mean, and lines of Berkeley TestFloat and of IBM's FPgen,
//! which are translated into the calls of rows.
//!
//! A row is a command of the program `vectors` and its reply, or names a call and a format; operands and results are
//! values, written as bits, or as counts of quanta in a format without bits. `docs/PROGRAMS.md` describes it.

mod answer;
mod asked;
mod call;
mod call_fault;
mod call_row;
mod columns;
mod command_row;
mod every;
mod fault;
mod fewer_digits;
mod form;
mod formats;
mod fpgen;
mod given;
mod machine_format;
#[path = "../../../machine_words.rs"]
mod machine_words;
mod operands;
mod operations;
mod other_files;
mod quanta;
mod reading;
mod request;
mod row_error;
mod row_format;
mod storage;
mod table;
mod testfloat;
mod text;
mod widths;

pub use answer::{ExtraField, Returned, RowAnswer, StatusField, ValueField};
pub use asked::{agrees, write_answers};
pub use call::{
    AssigningOperator, Call, Constant, ConversionCall, DecimalCall, FormatCall, IntegerCall, OneValueCall, Property,
    TextCall, TwoValuesCall, WordCall,
};
pub use call_fault::CallFault;
pub use call_row::{CallRow, row_of};
pub use command_row::CommandRow;
pub use fewer_digits::FewerDigits;
pub use formats::Formats;
pub use fpgen::Fpgen;
pub use machine_format::MachineFormat;
pub use operands::{Operand, Operands, two_values, value_of};
pub use operations::{
    AugmentedCall, BlockCall, FlagsCall, FormatOfCall, GeneralCall, OddCall, OperationCall, OrderCall, PayloadCall,
    SaturateCall, ToIntegerCall,
};
pub use quanta::Quanta;
pub use request::{Answered, Request};
pub use row_error::RowError;
pub use row_format::{CallInFormat, RowFormat};
pub use storage::StorageName;
pub use testfloat::TestFloat;
pub use text::{Text, shown};
pub use widths::mask;
