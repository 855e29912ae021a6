//! Rows: the row call is asked, with the columns of a description or with a caller's own.
//!
//! - `rust_side`, `port_side`: the two that answer
//! - `walk`: which bytes of a row a value takes
//! - `columns`, `inputs`: columns and rows to ask about
//! - `compare`: the differential run
//! - `beginnings`: demand 3, on the compiled code
//! - `waiting`, `waiting_inputs`, `fewest`: request N14, on the compiled code, rows for it, and the fewest bytes
//! - `by_value`: the row call by value, on rows with a description's columns
//! - `origins`: the same row with other origins
//! - `unknown`: what is asked with numbers that are no release
//! - `smallest`: the smallest row that differs
//! - `model`: a row call written a third time, with a switch for each fault
//! - `faults`: the faults, to see that the run notices them
pub mod beginnings;
pub mod by_value;
pub mod columns;
pub mod compare;
pub mod faults;
pub mod fewest;
pub mod inputs;
pub mod model;
pub mod origins;
pub mod port_side;
pub mod rust_side;
pub mod smallest;
pub mod unknown;
pub mod waiting;
pub mod waiting_inputs;
pub mod walk;

use crate::descriptions::COLUMN_LIMIT;
use crate::releases::PORTED;
use crate::request::{Form, Hex, Request};
use db2_proto::fdoca::ColumnDescriptor;
use port::column::{Column, Name, Origin};
use port::value::{Held, Sort, Value, VALUE_WORDS};
use port_side::Asked;
use std::fmt;

/// Bytes that a row may have (refusal 4 above it).
pub const ROW_LIMIT: usize = 1_048_576;

/// The largest number that a column may have.
pub const LARGEST_NUMBER: u16 = 255;

/// A list of columns in every form that a side needs. The words need not be any column's.
#[derive(Debug, Clone, Default)]
pub struct List {
    pub words: Vec<u64>,
    /// Empty where the words are no columns'.
    pub columns: Vec<Column>,
    /// The description that has these columns, where they are read out of one.
    pub description: Option<Vec<u8>>,
    published: Vec<ColumnDescriptor>,
    refusal: Option<Early>,
}

/// What a list alone decides.
#[derive(Debug, Clone, Copy, PartialEq, Eq)]
enum Early {
    TooMany,
    NoColumns,
    DecFloat,
}

impl List {
    pub fn of(columns: &[Column]) -> List {
        List::of_words(columns.iter().flat_map(Column::words).collect())
    }

    /// Columns numbered by their places.
    pub fn numbered(mut columns: Vec<Column>) -> List {
        for (place, column) in columns.iter_mut().enumerate() {
            column.index = place as u16;
        }
        List::of(&columns)
    }

    pub fn of_words(words: Vec<u64>) -> List {
        let (pairs, rest) = words.as_chunks::<2>();
        let column = |pair: &[u64; 2]| {
            Column::from_words(*pair).filter(|column| column.index <= LARGEST_NUMBER)
        };
        let columns: Option<Vec<Column>> = pairs.iter().map(column).collect();
        let columns = columns.filter(|_| rest.is_empty());
        let refused = |column: &Column| column.db2_type.name == Name::DecFloat;
        let refusal = match &columns {
            _ if pairs.len() > COLUMN_LIMIT => Some(Early::TooMany),
            None => Some(Early::NoColumns),
            Some(columns) if columns.iter().any(refused) => Some(Early::DecFloat),
            Some(_) => None,
        };
        let columns = columns.unwrap_or_default();
        List {
            published: columns.iter().map(rust_side::published).collect(),
            refusal,
            columns,
            description: None,
            words,
        }
    }

    /// The columns of a description.
    pub fn described(columns: &[Column], description: &[u8]) -> List {
        List {
            description: Some(description.to_vec()),
            ..List::of(columns)
        }
    }

    pub fn count(&self) -> usize {
        self.words.len() / 2
    }

    /// What the row call is handed for a row.
    pub fn asked<'a>(&'a self, data: &'a [u8], release: u32) -> Asked<'a> {
        Asked {
            columns: &self.words,
            data,
            release,
        }
    }

    /// Whether every column is an SDA's, as those of a line in upper case are.
    fn of_sdas(&self) -> bool {
        let mut origins = self.columns.iter().map(|column| column.origin);
        origins.all(|origin| origin == Origin::Sda)
    }

    /// Whether a line can show the list: columns, each with its place for its number. Above the limit the number may be any.
    fn has_line(&self) -> bool {
        self.columns.len() * 2 == self.words.len()
            && self
                .columns
                .iter()
                .enumerate()
                .all(|(place, column)| usize::from(column.index) == place)
    }
}

/// A request for a row, as a line, or, where the format has no line for it, as a call that no one takes for one.
pub fn request(form: Form, list: &List, data: &[u8], release: u32) -> String {
    if !list.has_line() {
        let words: Vec<String> = list.words.iter().map(|word| format!("{word:X}")).collect();
        let stated = match release {
            PORTED => String::new(),
            _ => format!("; {release}"),
        };
        let words = words.join(" ");
        return format!("vejupa_raw_decode_row({words}; {}{stated})", Hex(data));
    }
    let request = Request::Row {
        columns: list.columns.clone(),
        data: data.to_vec(),
        release,
    };
    request.shown(form)
}

/// What a side answers: an outcome and, where it is accepted, the values' words and the texts.
#[derive(Debug, Clone, PartialEq, Eq)]
pub struct Answer {
    pub outcome: Outcome,
    pub values: Vec<u64>,
    pub text: Vec<u8>,
}

#[derive(Debug, Clone, Copy, PartialEq, Eq)]
pub enum Outcome {
    Accepted {
        used: usize,
        /// How many U+FFFD were put into the texts.
        replaced: usize,
    },
    TooShort {
        expected: usize,
        actual: usize,
    },
    /// Any other refusal by its number.
    Refusal(u32),
    Bad(Bad),
}

/// Only the port's side gives these: what a line does not show was not as it must be.
#[derive(Debug, Clone, Copy, PartialEq, Eq)]
pub enum Bad {
    /// Refusal 9 does not come exactly where the text buffer is too short, or with another number, or something changed with it.
    Nine,
    /// 101 does not come exactly where the words are too few, or with another number, or something changed with it.
    TooFew,
    /// A word or byte has changed that must keep what it had, or other lengths of the buffers get another answer.
    Rest,
    /// Three words are no value's, or name a place that is not theirs.
    Word,
}

impl Answer {
    pub fn new() -> Answer {
        Answer {
            outcome: Outcome::Refusal(0),
            values: Vec::new(),
            text: Vec::new(),
        }
    }

    pub fn is_accepted(&self) -> bool {
        matches!(self.outcome, Outcome::Accepted { .. })
    }

    /// Another outcome, with no value and no text.
    fn set(&mut self, outcome: Outcome) {
        self.outcome = outcome;
        self.values.clear();
        self.text.clear();
    }

    /// The answer as a line has it behind ` A `. `data` is the row, which binary values name parts of.
    pub fn shown(&self, form: Form, data: &[u8]) -> String {
        match self.outcome {
            Outcome::Accepted { used, replaced } => match form {
                Form::Shared => self.accepted(used, String::new(), data),
                Form::Whole => self.accepted(used, format!(" {replaced}"), data),
            },
            Outcome::TooShort { expected, actual } => format!("SHORT {expected} {actual}"),
            Outcome::Refusal(number) => format!("REFUSE{number}"),
            Outcome::Bad(bad) => bad.to_string(),
        }
    }

    /// `more` stands behind the texts' length.
    fn accepted(&self, used: usize, more: String, data: &[u8]) -> String {
        let (words, _) = self.values.as_chunks::<VALUE_WORDS>();
        let mut external = Vec::new();
        let mut values = String::new();
        let mut texts = 0;
        for (place, words) in words.iter().enumerate() {
            let shown = Value::from_words(*words).and_then(|value| {
                if value.external {
                    external.push(place.to_string());
                }
                // Texts lie one behind the other, in the order of the columns.
                if value.sort.held() == Held::Text {
                    let next = texts;
                    texts += value.length;
                    (value.number == next).then_some(())?;
                }
                self.value(&value, data)
            });
            let Some(shown) = shown else {
                return Bad::Word.to_string();
            };
            values = values + " " + &shown;
        }
        if texts != self.text.len() as u64 {
            return Bad::Word.to_string();
        }
        if external.is_empty() {
            external.push("-".to_string());
        }
        format!("OK {used} {} {texts}{more}{values}", external.join(","))
    }

    /// None where a place is not there, or a number is none of its sort.
    fn value(&self, value: &Value, data: &[u8]) -> Option<String> {
        let Value { number, length, .. } = *value;
        let part = |of: &[u8]| {
            let start = usize::try_from(number).ok()?;
            let end = start.checked_add(usize::try_from(length).ok()?)?;
            Some(Hex(of.get(start..end)?).to_string())
        };
        let letter = match value.sort {
            Sort::Null => return (number == 0 && length == 0).then(|| "N".to_string()),
            Sort::SmallInt => 'S',
            Sort::Integer => 'I',
            Sort::BigInt => 'L',
            Sort::Real | Sort::RealNan => 'F',
            Sort::Double | Sort::DoubleNan => 'G',
            Sort::Decimal => 'D',
            Sort::Char => 'C',
            Sort::VarChar => 'V',
            Sort::Binary => 'B',
            Sort::Blob => 'O',
            Sort::Clob => 'K',
            Sort::RowId => 'R',
            Sort::Date => 'd',
            Sort::Time => 't',
            Sort::Timestamp => 's',
            Sort::Boolean => 'b',
            Sort::Xml => 'X',
        };
        let shown = match value.sort.held() {
            Held::Text => part(&self.text)?,
            Held::Part => format!("{number}:{}", part(data)?),
            Held::Number if length != 0 => return None,
            Held::Number => shown_number(value.sort, number)?,
        };
        Some(format!("{letter}:{shown}"))
    }
}

fn shown_number(sort: Sort, number: u64) -> Option<String> {
    let signed = number as i64;
    let fits = match sort {
        Sort::SmallInt => i16::try_from(signed).is_ok(),
        Sort::Integer => i32::try_from(signed).is_ok(),
        Sort::Real | Sort::RealNan => {
            let bits = u32::try_from(number);
            bits.is_ok_and(|bits| f32::from_bits(bits).is_nan() == (sort == Sort::RealNan))
        }
        Sort::Double | Sort::DoubleNan => {
            f64::from_bits(number).is_nan() == (sort == Sort::DoubleNan)
        }
        Sort::Boolean => number <= 1,
        _ => true,
    };
    fits.then(|| match sort {
        Sort::Real | Sort::RealNan => format!("{number:08X}"),
        Sort::Double | Sort::DoubleNan => format!("{number:016X}"),
        _ => signed.to_string(),
    })
}

impl fmt::Display for Bad {
    fn fmt(&self, f: &mut fmt::Formatter<'_>) -> fmt::Result {
        f.write_str(match self {
            Bad::Nine => "BAD9",
            Bad::TooFew => "BAD101",
            Bad::Rest => "BADREST",
            Bad::Word => "BADWORD",
        })
    }
}

impl Default for Answer {
    fn default() -> Self {
        Answer::new()
    }
}

#[cfg(test)]
mod tests {
    use super::*;

    fn shown(words: [u64; 3], text: &[u8], data: &[u8]) -> String {
        let answer = Answer {
            outcome: Outcome::Accepted {
                used: 7,
                replaced: 3,
            },
            values: words.to_vec(),
            text: text.to_vec(),
        };
        let whole = answer.shown(Form::Whole, data);
        let shared = answer.shown(Form::Shared, data);
        let without = whole
            .split(' ')
            .enumerate()
            .filter(|(place, _)| *place != 4);
        let without: Vec<&str> = without.map(|(_, field)| field).collect();
        assert_eq!(without.join(" "), shared);
        shared
    }

    #[test]
    fn values_are_written_in_the_format() {
        let minus_1 = u64::MAX;
        for (words, written) in [
            ([0, 0, 0], "N"),
            ([1, minus_1, 0], "S:-1"),
            ([2, 42, 0], "I:42"),
            ([3, 1 << 63, 0], "L:-9223372036854775808"),
            ([4, 0x8000_0000, 0], "F:80000000"),
            ([5, 0x7F80_0001, 0], "F:7F800001"),
            ([6, 1, 0], "G:0000000000000001"),
            ([7, 0x7FF8 << 48, 0], "G:7FF8000000000000"),
            ([11, 1, 2], "B:1:0203"),
            ([12, 0, 0], "O:0:-"),
            ([18, 1, 0], "b:1"),
        ] {
            assert_eq!(shown(words, &[], &[1, 2, 3]), format!("OK 7 - 0 {written}"));
        }
        assert_eq!(shown([0x10D, 0, 2], b"AB", &[]), "OK 7 0 2 K:4142");
        assert_eq!(shown([0x10C, 0, 1], &[], &[9]), "OK 7 0 0 O:0:09");
    }

    #[test]
    fn the_characters_replaced_stand_behind_the_length_of_the_texts() {
        let answer = Answer {
            outcome: Outcome::Accepted {
                used: 2,
                replaced: 1,
            },
            values: vec![9, 0, 4],
            text: "\u{FFFD}A".into(),
        };
        assert_eq!(answer.shown(Form::Whole, &[]), "OK 2 - 4 1 C:EFBFBD41");
        assert_eq!(answer.shown(Form::Shared, &[]), "OK 2 - 4 C:EFBFBD41");
    }

    #[test]
    fn words_that_are_no_values_are_bad() {
        for words in [
            [20, 0, 0],
            [1 << 9, 0, 0],
            [0, 1, 0],
            [1, 0xFFFF, 0],
            [2, 0xFFFF_FFFF, 0],
            [3, 0, 8],
            [4, 0x7FC0_0000, 0],
            [5, 0, 0],
            [6, 0x7FF8 << 48, 0],
            [7, 0, 0],
            [11, 2, 2],
            [12, u64::MAX, 2],
            [18, 2, 0],
            [9, 1, 0],
            [9, 0, 1],
        ] {
            assert_eq!(shown(words, &[], &[1, 2, 3]), "BADWORD", "{words:?}");
        }
        // A text that no value names.
        assert_eq!(shown([0, 0, 0], b"A", &[]), "BADWORD");
    }
}
