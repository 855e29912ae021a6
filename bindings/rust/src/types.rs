//! The types of columns, and their words; byte orders and origins.
use crate::raw;
use crate::show::pad;
use std::fmt;

/// The type of a column, with the numbers that it holds. Those are what the row call goes by; see [`Column`](crate::Column).
///
/// Where a length has bit 0x8000, the low 15 bits are a length too: of a LobBytes and LobChar the value's, of a VarChar and VarGraphic
/// that of a reference to data outside of the row, which stands in the value's place.
#[derive(Debug, Clone, Copy, PartialEq, Eq, Hash)]
#[non_exhaustive]
pub enum Db2Type {
    /// A signed number of 2 bytes.
    SmallInt,
    /// A signed number of 4 bytes.
    Integer,
    /// A signed number of 8 bytes.
    BigInt,
    /// A float of 4 bytes.
    Real,
    /// A float of 8 bytes.
    Double,
    /// A packed decimal.
    Decimal {
        /// How many digits there are. A value has (precision + 2) / 2 bytes, rounded down.
        precision: u8,
        /// How many of them stand behind the point.
        scale: u8,
    },
    /// A decimal floating-point number of so many digits. Descriptions may list it; the row call refuses it
    /// ([`Refusal::DecFloatColumn`](crate::Refusal::DecFloatColumn)).
    DecFloat(u8),
    /// A text of so many bytes.
    Char(u16),
    /// A text that says how many bytes it has. The length is the most that the host sends, and is not tested.
    VarChar(u16),
    /// A text that says how many bytes it has.
    LongVarChar,
    /// A long text, or a reference to one outside of the row.
    Clob,
    /// So many bytes.
    Binary(u16),
    /// Bytes that say how many they are. The length is the most that the host sends, and is not tested.
    VarBinary(u16),
    /// Many bytes, or a reference to them outside of the row.
    Blob,
    /// A reference of 4 bytes to a Blob.
    BlobLocator,
    /// A date, as a text of 10 bytes.
    Date,
    /// A time of day, as a text of 8 bytes.
    Time,
    /// A date and time, as a text of as many bytes as the column's length says, or of 26 where that is 0.
    Timestamp,
    /// A text of so many units: of two bytes where the CCSID is 1200 and the column little-endian, else of one.
    Graphic(u16),
    /// A text that says how many units it has. The length is the most that the host sends, and is not tested.
    VarGraphic(u16),
    /// A long text, or a reference to one outside of the row. Its values are Clobs.
    DbClob,
    /// A reference of 4 bytes to a Clob.
    ClobLocator,
    /// A reference of 4 bytes to a DbClob.
    DbClobLocator,
    /// So many bytes, which come out as a VarChar where they are likely text, else as a Blob.
    LobBytes(u16),
    /// A text of so many bytes, which comes out as a Clob.
    LobChar(u16),
    /// A row's identifier, of so many bytes.
    RowId(u16),
    /// True where any byte is not 0: of as many bytes as the column's length says, or of 1 where that is 0.
    Boolean,
    /// An XML document, or a reference to one outside of the row.
    Xml,
    /// No type: values of no bytes, which are Null.
    Null,
}

impl Db2Type {
    /// The byte count of a type's values, where the type alone tells it. It is not what the row call goes by.
    ///
    /// ```
    /// use vejupa::Db2Type;
    /// assert_eq!(Db2Type::Decimal { precision: 5, scale: 2 }.fixed_length(), Some(3));
    /// assert_eq!(Db2Type::VarChar(40).fixed_length(), None);
    /// ```
    pub fn fixed_length(self) -> Option<usize> {
        let answer = raw::fixed_length(self.word());
        (answer.fixed == 1).then_some(answer.length)
    }

    /// The type word: the type's tag in bits 0 to 7, the numbers that it holds in bits 8 to 23.
    pub fn word(self) -> u64 {
        let (tag, numbers) = self.parts();
        tag | u64::from(numbers) << 8
    }

    fn parts(self) -> (u64, u16) {
        match self {
            Db2Type::SmallInt => (0, 0),
            Db2Type::Integer => (1, 0),
            Db2Type::BigInt => (2, 0),
            Db2Type::Real => (3, 0),
            Db2Type::Double => (4, 0),
            Db2Type::Decimal { precision, scale } => (5, u16::from_le_bytes([precision, scale])),
            Db2Type::DecFloat(digits) => (6, u16::from(digits)),
            Db2Type::Char(length) => (7, length),
            Db2Type::VarChar(length) => (8, length),
            Db2Type::LongVarChar => (9, 0),
            Db2Type::Clob => (10, 0),
            Db2Type::Binary(length) => (11, length),
            Db2Type::VarBinary(length) => (12, length),
            Db2Type::Blob => (13, 0),
            Db2Type::BlobLocator => (14, 0),
            Db2Type::Date => (15, 0),
            Db2Type::Time => (16, 0),
            Db2Type::Timestamp => (17, 0),
            Db2Type::Graphic(length) => (18, length),
            Db2Type::VarGraphic(length) => (19, length),
            Db2Type::DbClob => (20, 0),
            Db2Type::ClobLocator => (21, 0),
            Db2Type::DbClobLocator => (22, 0),
            Db2Type::LobBytes(length) => (23, length),
            Db2Type::LobChar(length) => (24, length),
            Db2Type::RowId(length) => (25, length),
            Db2Type::Boolean => (26, 0),
            Db2Type::Xml => (27, 0),
            Db2Type::Null => (28, 0),
        }
    }

    /// The type of a type word; None where the word is no type's.
    pub fn from_word(word: u64) -> Option<Db2Type> {
        let numbers = (word >> 8) as u16;
        let [low, high] = numbers.to_le_bytes();
        let named = match word & 0xFF {
            0 => Db2Type::SmallInt,
            1 => Db2Type::Integer,
            2 => Db2Type::BigInt,
            3 => Db2Type::Real,
            4 => Db2Type::Double,
            5 => Db2Type::Decimal {
                precision: low,
                scale: high,
            },
            6 => Db2Type::DecFloat(low),
            7 => Db2Type::Char(numbers),
            8 => Db2Type::VarChar(numbers),
            9 => Db2Type::LongVarChar,
            10 => Db2Type::Clob,
            11 => Db2Type::Binary(numbers),
            12 => Db2Type::VarBinary(numbers),
            13 => Db2Type::Blob,
            14 => Db2Type::BlobLocator,
            15 => Db2Type::Date,
            16 => Db2Type::Time,
            17 => Db2Type::Timestamp,
            18 => Db2Type::Graphic(numbers),
            19 => Db2Type::VarGraphic(numbers),
            20 => Db2Type::DbClob,
            21 => Db2Type::ClobLocator,
            22 => Db2Type::DbClobLocator,
            23 => Db2Type::LobBytes(numbers),
            24 => Db2Type::LobChar(numbers),
            25 => Db2Type::RowId(numbers),
            26 => Db2Type::Boolean,
            27 => Db2Type::Xml,
            28 => Db2Type::Null,
            _ => return None,
        };
        (named.word() == word).then_some(named)
    }
}

/// The name, with its numbers in brackets: `Char(8)`, `Decimal(5,2)`, `Integer`.
impl fmt::Display for Db2Type {
    fn fmt(&self, f: &mut fmt::Formatter<'_>) -> fmt::Result {
        match self {
            Db2Type::Decimal { precision, scale } => {
                pad(f, format_args!("Decimal({precision},{scale})"))
            }
            other => pad(f, format_args!("{other:?}")),
        }
    }
}

/// The order of the bytes of a number in the row.
#[derive(Debug, Clone, Copy, PartialEq, Eq, Hash)]
#[non_exhaustive]
pub enum ByteOrder {
    /// The highest byte comes first.
    BigEndian,
    /// The lowest byte comes first.
    LittleEndian,
}

/// Where a description has a column from. Nothing is decoded by it.
///
/// Of the columns that a description gives, those from an SDA are little-endian and those from a LID big-endian. A list of one's own may
/// have any origin beside either byte order.
///
/// ```
/// use vejupa::{parse_whole_qrydsc, Origin};
/// // An SDA, and a D0 group with one LID.
/// let columns = parse_whole_qrydsc(&[0x05, 0x70, 0x02, 0x00, 0x04, 0x06, 0x76, 0xD0, 0x02, 0x00, 0x04])?;
/// assert_eq!(columns[0].origin, Origin::Sda);
/// assert_eq!(columns[1].origin, Origin::UndeclaredLid);
/// # Ok::<(), vejupa::Refusal>(())
/// ```
#[derive(Debug, Clone, Copy, PartialEq, Eq, Hash)]
#[non_exhaustive]
pub enum Origin {
    /// An SDA (simple data array).
    Sda,
    /// A LID (local identifier) of a D0 group that no environment entry declares.
    UndeclaredLid,
    /// A LID of a D0 group that an environment entry declares: the column has the entry's type and CCSID.
    DeclaredLid,
}

impl Origin {
    /// The number that stands for it in a column's first word.
    pub(crate) fn number(self) -> u64 {
        match self {
            Origin::Sda => 0,
            Origin::UndeclaredLid => 1,
            Origin::DeclaredLid => 2,
        }
    }

    /// The origin of such a number; None where it is no origin's.
    pub(crate) fn from_number(number: u64) -> Option<Origin> {
        match number {
            0 => Some(Origin::Sda),
            1 => Some(Origin::UndeclaredLid),
            2 => Some(Origin::DeclaredLid),
            _ => None,
        }
    }
}

/// `SDA`, `undeclared LID` or `declared LID`.
impl fmt::Display for Origin {
    fn fmt(&self, f: &mut fmt::Formatter<'_>) -> fmt::Result {
        let name = match self {
            Origin::Sda => "SDA",
            Origin::UndeclaredLid => "undeclared LID",
            Origin::DeclaredLid => "declared LID",
        };
        pad(f, format_args!("{name}"))
    }
}
