//! Why a call refuses its input.
use crate::raw;
use crate::show::pad;
use std::error::Error;
use std::fmt;

/// Why a call refuses its input, in the order of the refusals' numbers.
#[derive(Debug, Clone, Copy, PartialEq, Eq, Hash)]
#[non_exhaustive]
pub enum Refusal {
    /// 1: a description of more than 65,536 bytes.
    QrydscTooLong,
    /// 2: a description of more than 128 columns.
    TooManyColumns,
    /// 3: more than 128 columns handed to the row call.
    CountTooLarge,
    /// 4: a row, or bytes given to a text conversion, of more than 1,048,576 bytes.
    InputTooLong,
    /// 5: a DecFloat column handed to the row call.
    DecFloatColumn,
    /// 6: a packed decimal of no bytes.
    DecimalEmpty,
    /// 7: a packed decimal of more than 128 bytes.
    DecimalTooLong,
    /// 8: the row ends before a value does. A missing indicator counts from the row's beginning (or from behind the two bytes that are
    /// skipped), any other shortage from the value's first byte. How many bytes the row lacks the two numbers do not tell: it may be fewer than their difference, or
    /// more.
    BufferTooShort {
        /// The column whose value or indicator is not all there, from 0. The columns before it are.
        column: usize,
        /// How many bytes were expected.
        expected: usize,
        /// How many there are.
        actual: usize,
    },
    /// 9: a lent text buffer is too short. Calls that make room themselves never refuse so.
    TextBufferTooShort {
        /// The length needed.
        needed: usize,
    },
    /// 12: a packed decimal, read as a whole number, with a digit above 9.
    DecimalDigit,
    /// 13: a packed decimal, read as a whole number, with a sign below A.
    DecimalSign,
    /// 14: a packed decimal, read as a whole number, that no `i64` holds.
    DecimalOutOfRange,
    /// 15: a description that breaks off: bytes are left behind its last whole triplet. It is tested behind 1 and before 2.
    QrydscBrokenOff,
    /// 22: a [host's release](crate#the-hosts-release) that is neither 2 nor 3. It is tested before all others.
    UnknownRelease,
}

impl Refusal {
    /// The refusal's number.
    pub fn number(self) -> u32 {
        match self {
            Refusal::QrydscTooLong => 1,
            Refusal::TooManyColumns => 2,
            Refusal::CountTooLarge => 3,
            Refusal::InputTooLong => 4,
            Refusal::DecFloatColumn => 5,
            Refusal::DecimalEmpty => 6,
            Refusal::DecimalTooLong => 7,
            Refusal::BufferTooShort { .. } => 8,
            Refusal::TextBufferTooShort { .. } => 9,
            Refusal::DecimalDigit => 12,
            Refusal::DecimalSign => 13,
            Refusal::DecimalOutOfRange => 14,
            Refusal::QrydscBrokenOff => 15,
            Refusal::UnknownRelease => 22,
        }
    }

    /// The refusal of a number that comes without values.
    ///
    /// # Panics
    /// Where there is no such refusal. The calls of this crate pass on only what they cannot shut out: 101 and 102 cannot come.
    pub(crate) fn from_number(number: u32) -> Refusal {
        match number {
            1 => Refusal::QrydscTooLong,
            2 => Refusal::TooManyColumns,
            3 => Refusal::CountTooLarge,
            4 => Refusal::InputTooLong,
            5 => Refusal::DecFloatColumn,
            6 => Refusal::DecimalEmpty,
            7 => Refusal::DecimalTooLong,
            12 => Refusal::DecimalDigit,
            13 => Refusal::DecimalSign,
            14 => Refusal::DecimalOutOfRange,
            15 => Refusal::QrydscBrokenOff,
            22 => Refusal::UnknownRelease,
            // To ask for the version also makes every program refer to its symbol where the compiler lets the linker drop a static (`raw`).
            _ => panic!(
                "the library of version {} answered {number}, which is no refusal here",
                raw::version()
            ),
        }
    }
}

/// `refusal`, its number, and what it says.
impl fmt::Display for Refusal {
    fn fmt(&self, f: &mut fmt::Formatter<'_>) -> fmt::Result {
        match self {
            Refusal::QrydscTooLong => pad(f, format_args!("refusal 1: the description has more than 65,536 bytes")),
            Refusal::TooManyColumns => pad(f, format_args!("refusal 2: the description has more than 128 columns")),
            Refusal::CountTooLarge => pad(f, format_args!("refusal 3: more than 128 columns")),
            Refusal::InputTooLong => pad(f, format_args!("refusal 4: more than 1,048,576 bytes")),
            Refusal::DecFloatColumn => pad(f, format_args!("refusal 5: a column of type DecFloat is not decoded")),
            Refusal::DecimalEmpty => pad(f, format_args!("refusal 6: a packed decimal of no bytes")),
            Refusal::DecimalTooLong => pad(f, format_args!("refusal 7: a packed decimal of more than 128 bytes")),
            Refusal::BufferTooShort {
                column,
                expected,
                actual,
            } => pad(
                f,
                format_args!("refusal 8: too short in column {column}: {expected} bytes expected, {actual} there"),
            ),
            Refusal::TextBufferTooShort { needed } => pad(
                f,
                format_args!("refusal 9: the text buffer is too short: {needed} bytes needed"),
            ),
            Refusal::DecimalDigit => pad(f, format_args!("refusal 12: a packed decimal with a digit above 9")),
            Refusal::DecimalSign => pad(f, format_args!("refusal 13: a packed decimal with a sign below A")),
            Refusal::DecimalOutOfRange => pad(f, format_args!("refusal 14: a packed decimal that no signed number of 64 bits holds")),
            Refusal::QrydscBrokenOff => pad(f, format_args!("refusal 15: the description breaks off")),
            Refusal::UnknownRelease => pad(f, format_args!("refusal 22: a host release that is neither 2 nor 3")),
        }
    }
}

impl Error for Refusal {}
