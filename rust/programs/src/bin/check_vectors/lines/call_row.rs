//! Rows of calls, in seven columns.

/// The columns of a row.
#[derive(Clone, Copy)]
pub struct CallRow<'a> {
    /// The name of the call, or an operator.
    pub call: &'a str,
    /// The format, or `SOURCE>TARGET` of a conversion.
    pub format: &'a str,
    /// The rounding mode, `any` for all modes, or `-` for a call without one.
    pub mode: &'a str,
    /// The operands, separated by single spaces, or a text.
    pub operands: &'a str,
    /// The value, or the message of a refusal.
    pub value: &'a str,
    /// The names of the flags, `OK` for none, `-` for a call without a status, or `ParseError` for a refusal.
    pub status: &'a str,
    /// What else the call returns, as `exponent=-3`, or `-`.
    pub extra: &'a str,
}

/// The row on a line, if the line has seven columns.
pub fn row_of(line: &str) -> Option<CallRow<'_>> {
    let (call, others) = cut_column(line)?;
    let (format, others) = cut_column(others)?;
    let (mode, others) = cut_column(others)?;
    let (operands, others) = cut_column(others)?;
    let (value, others) = cut_column(others)?;
    let (status, extra) = cut_column(others)?;
    if extra.contains('\t') {
        return None;
    }
    Some(CallRow { call, format, mode, operands, value, status, extra })
}

/// The first column, and the text after its tab.
fn cut_column(text: &str) -> Option<(&str, &str)> {
    text.split_once('\t')
}
