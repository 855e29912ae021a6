//! Values as the boundary lays them out: three 64-bit words each.

/// The variants of Db2Value in their order: a variant's place is its tag in a value's first word.
#[derive(Debug, Clone, Copy, PartialEq, Eq)]
pub enum Sort {
    Null,
    SmallInt,
    Integer,
    BigInt,
    Real,
    RealNan,
    Double,
    DoubleNan,
    Decimal,
    Char,
    VarChar,
    Binary,
    Blob,
    Clob,
    RowId,
    Date,
    Time,
    Timestamp,
    Boolean,
    Xml,
}

pub const SORTS: [Sort; 20] = [
    Sort::Null,
    Sort::SmallInt,
    Sort::Integer,
    Sort::BigInt,
    Sort::Real,
    Sort::RealNan,
    Sort::Double,
    Sort::DoubleNan,
    Sort::Decimal,
    Sort::Char,
    Sort::VarChar,
    Sort::Binary,
    Sort::Blob,
    Sort::Clob,
    Sort::RowId,
    Sort::Date,
    Sort::Time,
    Sort::Timestamp,
    Sort::Boolean,
    Sort::Xml,
];

/// Words that a value takes.
pub const VALUE_WORDS: usize = 3;

/// What a value holds beside its sort.
#[derive(Debug, Clone, Copy, PartialEq, Eq)]
pub enum Held {
    /// A number; of Null and of a float that is one pattern of bits, too.
    Number,
    /// A place in the text buffer.
    Text,
    /// A place in the row.
    Part,
}

impl Sort {
    pub fn held(self) -> Held {
        match self {
            Sort::Decimal
            | Sort::Char
            | Sort::VarChar
            | Sort::Clob
            | Sort::RowId
            | Sort::Date
            | Sort::Time
            | Sort::Timestamp
            | Sort::Xml => Held::Text,
            Sort::Binary | Sort::Blob => Held::Part,
            _ => Held::Number,
        }
    }
}

#[derive(Debug, Clone, Copy, PartialEq, Eq)]
pub struct Value {
    pub sort: Sort,
    /// The value refers to data outside the row.
    pub external: bool,
    /// The number (signed ones in two's complement, floats by their bits), or where the place begins.
    pub number: u64,
    /// The length of the place, else 0.
    pub length: u64,
}

const EXTERNAL: u64 = 1 << 8;

impl Value {
    pub fn words(&self) -> [u64; VALUE_WORDS] {
        let external = if self.external { EXTERNAL } else { 0 };
        [self.sort as u64 | external, self.number, self.length]
    }

    /// None where the words are no value's: no sort, or a spare bit that is not 0.
    pub fn from_words([first, number, length]: [u64; VALUE_WORDS]) -> Option<Value> {
        let external = first & EXTERNAL != 0;
        let sort = *SORTS.get(usize::try_from(first & !EXTERNAL).ok()?)?;
        Some(Value {
            sort,
            external,
            number,
            length,
        })
    }
}

#[cfg(test)]
mod tests {
    use super::*;

    #[test]
    fn a_sort_stands_at_its_tag() {
        for (tag, sort) in SORTS.into_iter().enumerate() {
            assert_eq!(sort as usize, tag);
        }
    }

    #[test]
    fn value_words() {
        let words = [0x10C, 7, 4];
        let value = Value::from_words(words).unwrap();
        assert_eq!((value.sort, value.external), (Sort::Blob, true));
        assert_eq!(value.words(), words);
        for first in [20, 0xFF, 0x200, 0x300, 1 << 63] {
            assert_eq!(Value::from_words([first, 0, 0]), None);
        }
    }
}
