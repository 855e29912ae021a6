//! Columns as the boundary lays them out: two 64-bit words each, with a type word in the low 24 bits of the first.
use std::fmt;

/// The types' names in the order of the Rust's enum Db2Type: a name's place is its tag in a type word.
#[derive(Debug, Clone, Copy, PartialEq, Eq)]
pub enum Name {
    SmallInt,
    Integer,
    BigInt,
    Real,
    Double,
    Decimal,
    DecFloat,
    Char,
    VarChar,
    LongVarChar,
    Clob,
    Binary,
    VarBinary,
    Blob,
    BlobLocator,
    Date,
    Time,
    Timestamp,
    Graphic,
    VarGraphic,
    DbClob,
    ClobLocator,
    DbClobLocator,
    LobBytes,
    LobChar,
    RowId,
    Boolean,
    Xml,
    Null,
}

pub const NAMES: [Name; 29] = [
    Name::SmallInt,
    Name::Integer,
    Name::BigInt,
    Name::Real,
    Name::Double,
    Name::Decimal,
    Name::DecFloat,
    Name::Char,
    Name::VarChar,
    Name::LongVarChar,
    Name::Clob,
    Name::Binary,
    Name::VarBinary,
    Name::Blob,
    Name::BlobLocator,
    Name::Date,
    Name::Time,
    Name::Timestamp,
    Name::Graphic,
    Name::VarGraphic,
    Name::DbClob,
    Name::ClobLocator,
    Name::DbClobLocator,
    Name::LobBytes,
    Name::LobChar,
    Name::RowId,
    Name::Boolean,
    Name::Xml,
    Name::Null,
];

/// Which numbers of its own a type has.
#[derive(Debug, Clone, Copy, PartialEq, Eq)]
pub enum Numbers {
    None,
    /// One of 8 bits.
    Digits,
    /// One of 16 bits.
    Length,
    /// Two of 8 bits.
    PrecisionAndScale,
}

impl Name {
    pub fn numbers(self) -> Numbers {
        match self {
            Name::Decimal => Numbers::PrecisionAndScale,
            Name::DecFloat => Numbers::Digits,
            Name::Char
            | Name::VarChar
            | Name::Binary
            | Name::VarBinary
            | Name::Graphic
            | Name::VarGraphic
            | Name::LobBytes
            | Name::LobChar
            | Name::RowId => Numbers::Length,
            _ => Numbers::None,
        }
    }

    /// The type of this name and these numbers.
    pub fn with(self, numbers: u16) -> Type {
        Type {
            name: self,
            numbers,
        }
    }

    /// The type of this name, which has no numbers.
    pub fn plain(self) -> Type {
        self.with(0)
    }
}

/// A type: its name, and its own numbers as a type word holds them (of a Decimal the precision in the low byte, the scale in
/// the high one).
#[derive(Debug, Clone, Copy, PartialEq, Eq)]
pub struct Type {
    pub name: Name,
    pub numbers: u16,
}

impl Type {
    pub fn decimal(precision: u8, scale: u8) -> Type {
        Name::Decimal.with(u16::from_le_bytes([precision, scale]))
    }

    pub fn precision_and_scale(self) -> [u8; 2] {
        self.numbers.to_le_bytes()
    }

    pub fn word(self) -> u64 {
        self.name as u64 | u64::from(self.numbers) << 8
    }

    /// None where the word is no type word.
    pub fn from_word(word: u64) -> Option<Type> {
        let name = *NAMES.get(bits(word, 0, 8) as usize)?;
        let numbers = bits(word, 8, 16) as u16;
        let fits = match name.numbers() {
            Numbers::None => numbers == 0,
            Numbers::Digits => numbers <= 0xFF,
            Numbers::Length | Numbers::PrecisionAndScale => true,
        };
        (fits && word >> 24 == 0).then_some(name.with(numbers))
    }
}

#[derive(Debug, Clone, Copy, PartialEq, Eq)]
pub enum Order {
    Big,
    Little,
}

/// Where a description has a column from. An origin's place is its number in a column's first word.
#[derive(Debug, Clone, Copy, PartialEq, Eq)]
pub enum Origin {
    Sda,
    /// A LID of a D0 group that no entry declares,
    UndeclaredLid,
    /// or that one declares.
    DeclaredLid,
}

pub const ORIGINS: [Origin; 3] = [Origin::Sda, Origin::UndeclaredLid, Origin::DeclaredLid];

/// A column descriptor.
#[derive(Debug, Clone, Copy, PartialEq, Eq)]
pub struct Column {
    pub index: u16,
    pub db2_type: Type,
    pub code: u8,
    pub length: u16,
    pub precision: u8,
    pub scale: u8,
    pub nullable: bool,
    pub ccsid: u16,
    pub reference: Option<u16>,
    pub order: Order,
    pub origin: Origin,
}

impl Column {
    /// None where the words are no column's: no type, no origin, a spare bit that is not 0, or a reference length that is not there.
    pub fn from_words(words: [u64; 2]) -> Option<Column> {
        let [first, second] = words;
        let column = Column {
            index: bits(first, 32, 16) as u16,
            db2_type: Type::from_word(bits(first, 0, 24))?,
            code: bits(first, 24, 8) as u8,
            length: bits(second, 0, 16) as u16,
            precision: bits(second, 16, 8) as u8,
            scale: bits(second, 24, 8) as u8,
            nullable: bits(first, 48, 1) == 1,
            ccsid: bits(second, 32, 16) as u16,
            reference: (bits(first, 50, 1) == 1).then_some(bits(second, 48, 16) as u16),
            order: match bits(first, 49, 1) {
                0 => Order::Big,
                _ => Order::Little,
            },
            origin: *ORIGINS.get(bits(first, 51, 2) as usize)?,
        };
        (column.words() == words).then_some(column)
    }

    pub fn words(&self) -> [u64; 2] {
        let first = self.db2_type.word()
            | u64::from(self.code) << 24
            | u64::from(self.index) << 32
            | u64::from(self.nullable) << 48
            | u64::from(self.order == Order::Little) << 49
            | u64::from(self.reference.is_some()) << 50
            | (self.origin as u64) << 51;
        let second = u64::from(self.length)
            | u64::from(self.precision) << 16
            | u64::from(self.scale) << 24
            | u64::from(self.ccsid) << 32
            | u64::from(self.reference.unwrap_or(0)) << 48;
        [first, second]
    }

    /// The column as a line in lower case has it: its origin behind the fields of the others.
    pub fn with_origin(&self) -> String {
        let origin = match self.origin {
            Origin::Sda => 'S',
            Origin::UndeclaredLid => 'U',
            Origin::DeclaredLid => 'D',
        };
        format!("{self}:{origin}")
    }
}

/// So many bits of a word, from one on, counted from the lowest.
fn bits(word: u64, from: u32, count: u32) -> u64 {
    word >> from & ((1 << count) - 1)
}

impl fmt::Display for Type {
    fn fmt(&self, f: &mut fmt::Formatter<'_>) -> fmt::Result {
        let Type { name, numbers } = self;
        match name.numbers() {
            Numbers::None => write!(f, "{name:?}"),
            Numbers::Digits | Numbers::Length => write!(f, "{name:?}.{numbers}"),
            Numbers::PrecisionAndScale => {
                let [precision, scale] = self.precision_and_scale();
                write!(f, "{name:?}.{precision}.{scale}")
            }
        }
    }
}

/// All fields but the number, which a line does not show, and the origin, which one in upper case does not.
impl fmt::Display for Column {
    fn fmt(&self, f: &mut fmt::Formatter<'_>) -> fmt::Result {
        let Column {
            db2_type,
            code,
            length,
            precision,
            scale,
            ccsid,
            ..
        } = self;
        let nullable = u8::from(self.nullable);
        let reference = self.reference.map_or("-".to_string(), |n| n.to_string());
        let order = match self.order {
            Order::Big => 'B',
            Order::Little => 'L',
        };
        write!(
            f,
            "{db2_type}:{code:02X}:{length}:{precision}:{scale}:{nullable}:{ccsid}:{reference}:{order}"
        )
    }
}

#[cfg(test)]
mod tests {
    use super::*;

    #[test]
    fn a_name_stands_at_its_tag() {
        for (tag, name) in NAMES.into_iter().enumerate() {
            assert_eq!(name as usize, tag);
        }
    }

    #[test]
    fn type_words() {
        assert_eq!(Type::decimal(5, 2).word(), 0x02_05_05);
        assert_eq!(Name::Char.with(0x1234).word(), 0x12_34_07);
        for word in [0, 0x02_05_05, 0x12_34_07, 0xFF_06, 28] {
            assert_eq!(Type::from_word(word).map(Type::word), Some(word));
        }
        for word in [29, 255, 0x01_00, 0x01_00_06, 1 << 24, 1 << 63 | 7] {
            assert_eq!(Type::from_word(word), None, "{word:X}");
        }
    }

    #[test]
    fn column_words() {
        let words = [0x0007_0003_C9_00_00_0D, 0x0004_04B8_02_05_8004];
        let column = Column::from_words(words).unwrap();
        assert_eq!(column.to_string(), "Blob:C9:32772:5:2:1:1208:4:L");
        assert_eq!((column.index, column.words()), (3, words));
        for bit in 53..64 {
            assert_eq!(Column::from_words([words[0] | 1 << bit, words[1]]), None);
        }
        assert_eq!(Column::from_words([words[0] ^ 1 << 50, words[1]]), None);
        assert_eq!(Column::from_words([words[0] | 1 << 8, words[1]]), None);
    }

    #[test]
    fn three_numbers_are_an_origin() {
        let words = |origin: u64| [origin << 51 | 0x0003_C9_00_00_0D, 0];
        for (number, (origin, letter)) in ORIGINS.into_iter().zip(["S", "U", "D"]).enumerate() {
            let words = words(number as u64);
            let column = Column::from_words(words).unwrap();
            assert_eq!((column.origin, column.words()), (origin, words));
            let shown = column.with_origin();
            assert_eq!(shown, format!("Blob:C9:0:0:0:0:0:-:B:{letter}"));
        }
        assert_eq!(Column::from_words(words(3)), None);
    }
}
