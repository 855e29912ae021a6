//! Descriptions (QRYDSC) and types: what the Rust and the port answer to the same bytes, compared.
//!
//! - here: the answers, in one form
//! - `rust_side`, `port_side`: the two that answer
//! - `by_value`: what the calls by value answer
//! - `origins`, `wholeness`: where a column came from and whether a description breaks off, which the Rust does not say
//! - `inputs`, `endings`: descriptions to ask about, and how they end
//! - `compare`: the differential run
//! - `faults`, `wrong_origins`, `wrong_wholeness`: wrong libraries, to see that the run notices them
pub mod by_value;
pub mod compare;
pub mod endings;
pub mod faults;
pub mod inputs;
pub mod origins;
pub mod port_side;
pub mod rust_side;
pub mod wholeness;
pub mod wrong_origins;
pub mod wrong_wholeness;

use crate::request::{columns_shown, Form};
use port::column::Column;
use std::fmt;

/// Bytes that a description may have (refusal 1 above it).
pub const DESCRIPTION_LIMIT: usize = 65_536;

/// Columns that a description may have (refusal 2 above it).
pub const COLUMN_LIMIT: usize = 128;

/// The refusal of a description that breaks off, by `Parser::Whole`.
pub const BREAKS_OFF: u32 = 15;

/// The two calls that read a description.
#[derive(Debug, Clone, Copy, PartialEq, Eq)]
pub enum Parser {
    /// `parse_qrydsc`, which says whether the description breaks off.
    Ported,
    /// `parse_whole_qrydsc`, which refuses one that does.
    Whole,
}

/// What a side answers to a description, by one call. The last five only the port's side gives: what a line does not show was not as it
/// must be.
#[derive(Debug, Clone, PartialEq, Eq)]
pub enum Description {
    /// No description that `Parser::Whole` accepts is broken off.
    Columns {
        columns: Vec<Column>,
        broken_off: bool,
    },
    /// A refusal by its number.
    Refusal(u32),
    /// A column's number is not its place.
    BadIndex,
    /// Two words are no column's.
    BadWord,
    /// A word has changed that must keep what it had, or more words get other columns.
    BadRest,
    /// A number is wrong: 101 does not come exactly where the words are too few, or the count is another.
    Bad101,
    /// The flag is neither 0 nor 1, or it is not 0 beside a refusal or 101.
    BadFlag,
}

/// What a side answers to a description, by both calls.
#[derive(Debug, Clone, PartialEq, Eq)]
pub struct Answers {
    pub ported: Description,
    pub whole: Description,
}

/// What a side answers to a type. The last two only the port's side gives.
#[derive(Debug, Clone, PartialEq, Eq)]
pub enum FixedLength {
    Bytes(usize),
    Varies,
    /// A number other than 0.
    Refusal(u32),
    /// The two numbers beside it are none that go together.
    BadFixed,
}

impl Description {
    /// The answer of a `Q` or `q` line, from ` C ` on; where there are columns the row's answer is to follow.
    pub fn shown(&self, form: Form) -> String {
        match self {
            Description::Columns {
                columns,
                broken_off,
            } => {
                let count = columns.len();
                let columns = columns_shown(form, columns);
                match (form, broken_off) {
                    (Form::Shared, _) => format!("C {count}{columns}"),
                    (Form::Whole, false) => format!("C {count}{columns} whole"),
                    (Form::Whole, true) => format!("C {count}{columns} broken"),
                }
            }
            _ => format!("C - {}", self.listed()),
        }
    }

    /// The answer of an `n` line, from ` A ` on.
    pub fn listed(&self) -> String {
        match self {
            Description::Columns { columns, .. } => {
                format!("A {}{}", columns.len(), columns_shown(Form::Whole, columns))
            }
            Description::Refusal(number) => format!("A REFUSE{number}"),
            Description::BadIndex => "A BADINDEX".to_string(),
            Description::BadWord => "A BADWORD".to_string(),
            Description::BadRest => "A BADREST".to_string(),
            Description::Bad101 => "A BAD101".to_string(),
            Description::BadFlag => "A BADFLAG".to_string(),
        }
    }
}

/// The answer of an `F` line, from ` A ` on.
impl fmt::Display for FixedLength {
    fn fmt(&self, f: &mut fmt::Formatter<'_>) -> fmt::Result {
        match self {
            FixedLength::Bytes(length) => write!(f, "A {length}"),
            FixedLength::Varies => f.write_str("A -"),
            FixedLength::Refusal(number) => write!(f, "A REFUSE{number}"),
            FixedLength::BadFixed => f.write_str("A BADFIXED"),
        }
    }
}
