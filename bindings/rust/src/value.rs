//! Values, borrowed and owned.
use crate::raw::VALUE_WORDS;
use crate::show::{pad, Hex};
use std::fmt;

/// A column's value. Texts and bytes are borrowed from the row and from its buffers, and live as long as those; [`Value::into_owned`] makes
/// a value that stands alone.
///
/// Texts are UTF-8 whatever the host's code page; what is malformed there is U+FFFD here. Where the value is external
/// ([`Row::is_external`](crate::Row::is_external)), a Clob, Xml or Blob is a reference to data that come outside of the row, and not the
/// data.
///
/// `==` compares the variant too: `SmallInt(7)` is not `Integer(7)`, nor `Char("a")` a `VarChar("a")`. Which variant a column gives goes by its
/// type: a host may send a CHAR as a VarChar.
#[derive(Clone, Copy, PartialEq)]
#[non_exhaustive]
pub enum Value<'a> {
    /// No value.
    Null,
    /// A signed number of 16 bits.
    SmallInt(i16),
    /// A signed number of 32 bits.
    Integer(i32),
    /// A signed number of 64 bits.
    BigInt(i64),
    /// A float of 32 bits, by its bits: a NaN keeps them. `==` compares as Rust does, so that no NaN equals itself.
    Real(f32),
    /// A float of 64 bits, by its bits: a NaN keeps them. `==` compares as Rust does, so that no NaN equals itself.
    Double(f64),
    /// A number in decimal, such as `-0.05`. Where the host's nibbles are above 9, which are no digits, it has the characters `:;<=>?` for
    /// A to F. For a number see [`decode_packed_whole`](crate::decode_packed_whole).
    Decimal(&'a str),
    /// A text of fixed length. The blanks at its end that fill it up stay.
    Char(&'a str),
    /// A text of any length.
    VarChar(&'a str),
    /// Bytes.
    Binary(&'a [u8]),
    /// A large object's bytes. Of an external one the first four bytes of the reference, or all where it has fewer; of a LobBytes column
    /// all.
    Blob(&'a [u8]),
    /// A large object's text. Of an external one `LOB locator 0x` and the reference in hexadecimal.
    Clob(&'a str),
    /// A row's identifier: `0x` and hexadecimal digits.
    RowId(&'a str),
    /// A date, as the host writes it.
    Date(&'a str),
    /// A time of day, as the host writes it.
    Time(&'a str),
    /// A date and time, as the host writes it.
    Timestamp(&'a str),
    /// True or false.
    Boolean(bool),
    /// An XML document. Of an external one `LOB locator 0x` and the reference in hexadecimal.
    Xml(&'a str),
}

impl<'a> Value<'a> {
    /// The value of three words, as [`raw::decode_row`](crate::raw::decode_row) writes them, with the row and the texts that its place is in; None
    /// where there is no such sort, or the place does not fit.
    #[inline]
    pub fn from_words(
        words: [u64; VALUE_WORDS],
        data: &'a [u8],
        text: &'a str,
    ) -> Option<Value<'a>> {
        let [kind, number, len] = words;
        let range = || {
            let start = usize::try_from(number).ok()?;
            Some(start..start.checked_add(usize::try_from(len).ok()?)?)
        };
        let text = || text.get(range()?);
        let bytes = || data.get(range()?);
        Some(match kind & 0xFF {
            0 => Value::Null,
            1 => Value::SmallInt(number as i16),
            2 => Value::Integer(number as i32),
            3 => Value::BigInt(number as i64),
            4 | 5 => Value::Real(f32::from_bits(number as u32)),
            6 | 7 => Value::Double(f64::from_bits(number)),
            8 => Value::Decimal(text()?),
            9 => Value::Char(text()?),
            10 => Value::VarChar(text()?),
            11 => Value::Binary(bytes()?),
            12 => Value::Blob(bytes()?),
            13 => Value::Clob(text()?),
            14 => Value::RowId(text()?),
            15 => Value::Date(text()?),
            16 => Value::Time(text()?),
            17 => Value::Timestamp(text()?),
            18 => Value::Boolean(number != 0),
            19 => Value::Xml(text()?),
            _ => return None,
        })
    }

    /// The same value with texts and bytes of its own.
    pub fn into_owned(self) -> OwnedValue {
        match self {
            Value::Null => OwnedValue::Null,
            Value::SmallInt(n) => OwnedValue::SmallInt(n),
            Value::Integer(n) => OwnedValue::Integer(n),
            Value::BigInt(n) => OwnedValue::BigInt(n),
            Value::Real(x) => OwnedValue::Real(x),
            Value::Double(x) => OwnedValue::Double(x),
            Value::Decimal(s) => OwnedValue::Decimal(s.into()),
            Value::Char(s) => OwnedValue::Char(s.into()),
            Value::VarChar(s) => OwnedValue::VarChar(s.into()),
            Value::Binary(b) => OwnedValue::Binary(b.into()),
            Value::Blob(b) => OwnedValue::Blob(b.into()),
            Value::Clob(s) => OwnedValue::Clob(s.into()),
            Value::RowId(s) => OwnedValue::RowId(s.into()),
            Value::Date(s) => OwnedValue::Date(s.into()),
            Value::Time(s) => OwnedValue::Time(s.into()),
            Value::Timestamp(s) => OwnedValue::Timestamp(s.into()),
            Value::Boolean(b) => OwnedValue::Boolean(b),
            Value::Xml(s) => OwnedValue::Xml(s.into()),
        }
    }

    /// Whether it is Null.
    #[inline]
    pub fn is_null(self) -> bool {
        matches!(self, Value::Null)
    }

    /// The truth of a Boolean.
    #[inline]
    pub fn as_bool(self) -> Option<bool> {
        match self {
            Value::Boolean(b) => Some(b),
            _ => None,
        }
    }

    /// The number of a SmallInt, Integer or BigInt.
    #[inline]
    pub fn as_i64(self) -> Option<i64> {
        match self {
            Value::SmallInt(n) => Some(n.into()),
            Value::Integer(n) => Some(n.into()),
            Value::BigInt(n) => Some(n),
            _ => None,
        }
    }

    /// The number of a Real, Double, SmallInt, Integer or BigInt. A BigInt that no `f64` holds is rounded to the nearest one.
    #[inline]
    pub fn as_f64(self) -> Option<f64> {
        match self {
            Value::Real(x) => Some(x.into()),
            Value::Double(x) => Some(x),
            Value::SmallInt(n) => Some(n.into()),
            Value::Integer(n) => Some(n.into()),
            Value::BigInt(n) => Some(n as f64),
            _ => None,
        }
    }

    /// The text of a Decimal, Char, VarChar, Clob, RowId, Date, Time, Timestamp or Xml.
    #[inline]
    pub fn as_str(self) -> Option<&'a str> {
        match self {
            Value::Decimal(s)
            | Value::Char(s)
            | Value::VarChar(s)
            | Value::Clob(s)
            | Value::RowId(s)
            | Value::Date(s)
            | Value::Time(s)
            | Value::Timestamp(s)
            | Value::Xml(s) => Some(s),
            _ => None,
        }
    }

    /// The bytes of a Binary or Blob, and those of a text.
    #[inline]
    pub fn as_bytes(self) -> Option<&'a [u8]> {
        match self {
            Value::Binary(b) | Value::Blob(b) => Some(b),
            _ => self.as_str().map(str::as_bytes),
        }
    }

    // The variant's name.
    fn name(self) -> &'static str {
        match self {
            Value::Null => "Null",
            Value::SmallInt(_) => "SmallInt",
            Value::Integer(_) => "Integer",
            Value::BigInt(_) => "BigInt",
            Value::Real(_) => "Real",
            Value::Double(_) => "Double",
            Value::Decimal(_) => "Decimal",
            Value::Char(_) => "Char",
            Value::VarChar(_) => "VarChar",
            Value::Binary(_) => "Binary",
            Value::Blob(_) => "Blob",
            Value::Clob(_) => "Clob",
            Value::RowId(_) => "RowId",
            Value::Date(_) => "Date",
            Value::Time(_) => "Time",
            Value::Timestamp(_) => "Timestamp",
            Value::Boolean(_) => "Boolean",
            Value::Xml(_) => "Xml",
        }
    }
}

/// Numbers in decimal, texts as they are, bytes in hexadecimal, `null`; with the width and alignment asked for, where a Decimal goes as a
/// number. A precision is for floats alone: nothing else is cut.
///
/// ```
/// use vejupa::Value;
/// assert_eq!(format!("{:6}|{:6}|{:6}", Value::Integer(7), Value::Decimal("-0.05"), Value::Char("ab")), "     7| -0.05|ab    ");
/// ```
impl fmt::Display for Value<'_> {
    fn fmt(&self, f: &mut fmt::Formatter<'_>) -> fmt::Result {
        match self {
            Value::Null => pad(f, format_args!("null")),
            Value::SmallInt(n) => n.fmt(f),
            Value::Integer(n) => n.fmt(f),
            Value::BigInt(n) => n.fmt(f),
            Value::Real(x) => x.fmt(f),
            Value::Double(x) => x.fmt(f),
            Value::Boolean(b) => pad(f, format_args!("{b}")),
            Value::Decimal(number) => match number.strip_prefix('-') {
                Some(digits) => f.pad_integral(false, "", digits),
                None => f.pad_integral(true, "", number),
            },
            Value::Binary(b) | Value::Blob(b) => pad(f, format_args!("{}", Hex(b))),
            Value::Char(s)
            | Value::VarChar(s)
            | Value::Clob(s)
            | Value::RowId(s)
            | Value::Date(s)
            | Value::Time(s)
            | Value::Timestamp(s)
            | Value::Xml(s) => pad(f, format_args!("{s}")),
        }
    }
}

/// The variant's name and what it holds: `Integer(7)`, `Char("ab")`, `Binary(X'8B1A')`. Of many bytes the first ones are shown.
impl fmt::Debug for Value<'_> {
    fn fmt(&self, f: &mut fmt::Formatter<'_>) -> fmt::Result {
        let held: &dyn fmt::Debug = match self {
            Value::Null => return f.write_str(self.name()),
            Value::SmallInt(n) => n,
            Value::Integer(n) => n,
            Value::BigInt(n) => n,
            Value::Real(x) => x,
            Value::Double(x) => x,
            Value::Boolean(b) => b,
            Value::Binary(b) | Value::Blob(b) => &Hex(b),
            Value::Decimal(s)
            | Value::Char(s)
            | Value::VarChar(s)
            | Value::Clob(s)
            | Value::RowId(s)
            | Value::Date(s)
            | Value::Time(s)
            | Value::Timestamp(s)
            | Value::Xml(s) => s,
        };
        f.debug_tuple(self.name()).field(held).finish()
    }
}

/// A column's value with texts and bytes of its own. What [`Value`] says of the variants holds here too.
#[derive(Clone, PartialEq, Default)]
#[non_exhaustive]
pub enum OwnedValue {
    /// No value.
    #[default]
    Null,
    /// A signed number of 16 bits.
    SmallInt(i16),
    /// A signed number of 32 bits.
    Integer(i32),
    /// A signed number of 64 bits.
    BigInt(i64),
    /// A float of 32 bits, by its bits.
    Real(f32),
    /// A float of 64 bits, by its bits.
    Double(f64),
    /// A number in decimal.
    Decimal(String),
    /// A text of fixed length, with the blanks that fill it up.
    Char(String),
    /// A text of any length.
    VarChar(String),
    /// Bytes.
    Binary(Vec<u8>),
    /// A large object's bytes, or the first bytes of a reference to it.
    Blob(Vec<u8>),
    /// A large object's text, or a reference to it in hexadecimal.
    Clob(String),
    /// A row's identifier: `0x` and hexadecimal digits.
    RowId(String),
    /// A date, as the host writes it.
    Date(String),
    /// A time of day, as the host writes it.
    Time(String),
    /// A date and time, as the host writes it.
    Timestamp(String),
    /// True or false.
    Boolean(bool),
    /// An XML document, or a reference to it in hexadecimal.
    Xml(String),
}

impl OwnedValue {
    /// The same value, borrowed.
    pub fn as_value(&self) -> Value<'_> {
        match self {
            OwnedValue::Null => Value::Null,
            OwnedValue::SmallInt(n) => Value::SmallInt(*n),
            OwnedValue::Integer(n) => Value::Integer(*n),
            OwnedValue::BigInt(n) => Value::BigInt(*n),
            OwnedValue::Real(x) => Value::Real(*x),
            OwnedValue::Double(x) => Value::Double(*x),
            OwnedValue::Decimal(s) => Value::Decimal(s),
            OwnedValue::Char(s) => Value::Char(s),
            OwnedValue::VarChar(s) => Value::VarChar(s),
            OwnedValue::Binary(b) => Value::Binary(b),
            OwnedValue::Blob(b) => Value::Blob(b),
            OwnedValue::Clob(s) => Value::Clob(s),
            OwnedValue::RowId(s) => Value::RowId(s),
            OwnedValue::Date(s) => Value::Date(s),
            OwnedValue::Time(s) => Value::Time(s),
            OwnedValue::Timestamp(s) => Value::Timestamp(s),
            OwnedValue::Boolean(b) => Value::Boolean(*b),
            OwnedValue::Xml(s) => Value::Xml(s),
        }
    }

    /// As [`Value::is_null`].
    pub fn is_null(&self) -> bool {
        self.as_value().is_null()
    }

    /// As [`Value::as_bool`].
    pub fn as_bool(&self) -> Option<bool> {
        self.as_value().as_bool()
    }

    /// As [`Value::as_i64`].
    pub fn as_i64(&self) -> Option<i64> {
        self.as_value().as_i64()
    }

    /// As [`Value::as_f64`].
    pub fn as_f64(&self) -> Option<f64> {
        self.as_value().as_f64()
    }

    /// As [`Value::as_str`].
    pub fn as_str(&self) -> Option<&str> {
        self.as_value().as_str()
    }

    /// As [`Value::as_bytes`].
    pub fn as_bytes(&self) -> Option<&[u8]> {
        self.as_value().as_bytes()
    }
}

impl From<Value<'_>> for OwnedValue {
    fn from(value: Value<'_>) -> OwnedValue {
        value.into_owned()
    }
}

impl<'a> From<&'a OwnedValue> for Value<'a> {
    fn from(value: &'a OwnedValue) -> Value<'a> {
        value.as_value()
    }
}

impl PartialEq<OwnedValue> for Value<'_> {
    fn eq(&self, other: &OwnedValue) -> bool {
        *self == other.as_value()
    }
}

impl PartialEq<Value<'_>> for OwnedValue {
    fn eq(&self, other: &Value<'_>) -> bool {
        self.as_value() == *other
    }
}

/// As [`Value`]'s.
impl fmt::Display for OwnedValue {
    fn fmt(&self, f: &mut fmt::Formatter<'_>) -> fmt::Result {
        fmt::Display::fmt(&self.as_value(), f)
    }
}

/// As [`Value`]'s.
impl fmt::Debug for OwnedValue {
    fn fmt(&self, f: &mut fmt::Formatter<'_>) -> fmt::Result {
        fmt::Debug::fmt(&self.as_value(), f)
    }
}
