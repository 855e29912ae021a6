//! What several test files need. Not each of them uses all of it.
#![allow(dead_code)]
use std::fmt::Debug;
use std::iter::FusedIterator;
use vejupa::{ByteOrder, Column, Db2Type, Origin, Value};

/// The iterator gives these items, from either end and from both in turn, says how many are left, and stays at its end.
pub fn walked_both_ways<I>(iter: I, all: &[I::Item])
where
    I: DoubleEndedIterator + ExactSizeIterator + FusedIterator + Clone,
    I::Item: PartialEq + Debug,
{
    assert_eq!(iter.clone().collect::<Vec<_>>(), all);
    let mut backwards: Vec<_> = iter.clone().rev().collect();
    backwards.reverse();
    assert_eq!(backwards, all);
    for k in 0..=all.len() {
        assert_eq!(iter.clone().nth(k).as_ref(), all.get(k));
    }
    let mut ends = iter;
    let mut left = all.iter();
    while left.len() > 0 {
        assert_eq!(ends.len(), left.len());
        assert_eq!(ends.next().as_ref(), left.next());
        assert_eq!(ends.next_back().as_ref(), left.next_back());
    }
    assert_eq!((ends.len(), ends.next(), ends.next_back()), (0, None, None));
}

/// Numbers that look random and are the same in each run.
pub struct Random(pub u64);

impl Random {
    pub fn below(&mut self, end: usize) -> usize {
        self.0 ^= self.0 << 13;
        self.0 ^= self.0 >> 7;
        self.0 ^= self.0 << 17;
        (self.0 % end as u64) as usize
    }

    pub fn pick<T: Copy>(&mut self, of: &[T]) -> T {
        of[self.below(of.len())]
    }
}

/// Of all forms that a value's length has: fixed, told by the row, by the column, by a reference, by all the rest.
const TYPES: [Db2Type; 24] = [
    Db2Type::SmallInt,
    Db2Type::Integer,
    Db2Type::Double,
    Db2Type::Decimal {
        precision: 5,
        scale: 2,
    },
    Db2Type::Char(0),
    Db2Type::Char(3),
    Db2Type::VarChar(9),
    Db2Type::VarChar(0x8001),
    Db2Type::VarChar(0x8009),
    Db2Type::LongVarChar,
    Db2Type::Clob,
    Db2Type::Binary(2),
    Db2Type::VarBinary(9),
    Db2Type::Blob,
    Db2Type::BlobLocator,
    Db2Type::Date,
    Db2Type::Timestamp,
    Db2Type::Graphic(3),
    Db2Type::VarGraphic(9),
    Db2Type::LobBytes(1024),
    Db2Type::LobChar(3),
    Db2Type::Boolean,
    Db2Type::Xml,
    Db2Type::Null,
];

/// A column of one of these types, its other fields at random.
pub fn some_column(random: &mut Random) -> Column {
    let column = Column::new(random.pick(&TYPES))
        .with_nullable(random.below(3) == 0)
        .with_ccsid(random.pick(&[0, 37, 500, 819, 1047, 1200, 1208, 13488]))
        .with_length(random.pick(&[0, 0, 2, 9]))
        .with_byte_order(random.pick(&[ByteOrder::BigEndian, ByteOrder::LittleEndian]))
        .with_origin(random.pick(&[Origin::Sda, Origin::UndeclaredLid, Origin::DeclaredLid]));
    match random.below(4) {
        0 => column.with_reference_length(random.pick(&[0, 4, 9])),
        _ => column,
    }
}

/// Mostly small bytes, and often zeros alone: so are the lengths that stand in them, and many columns fit.
pub fn some_row(random: &mut Random) -> Vec<u8> {
    let bytes: &[u8] = match random.below(2) {
        0 => &[0, 0, 0, 0, 0, 0, 1, 2, 3, 0x41, 0x80, 0xFF],
        _ => &[0],
    };
    (0..random.below(600)).map(|_| random.pick(bytes)).collect()
}

fn column(db2_type: Db2Type) -> Column {
    Column::new(db2_type)
}

/// Columns of most types, and a row of them. It does not begin with FF, which would be skipped with the byte after it.
pub fn all_sorts() -> (Vec<Column>, Vec<u8>) {
    let decimal = Db2Type::Decimal {
        precision: 5,
        scale: 2,
    };
    let columns_and_bytes: [(Column, &[u8]); 22] = [
        (column(Db2Type::Integer), &[0x80, 0, 0, 0]),
        (column(Db2Type::SmallInt), &[0xFF, 0xFE]),
        (column(Db2Type::BigInt), &[0x80, 0, 0, 0, 0, 0, 0, 0]),
        (column(Db2Type::Real), &[0x40, 0x49, 0x0F, 0xDB]),
        (column(Db2Type::Double), &[0x80, 0, 0, 0, 0, 0, 0, 0]),
        (column(decimal), &[0x00, 0x00, 0x5D]),
        (column(Db2Type::Char(2)).with_ccsid(37), &[0xC1, 0x4A]),
        (
            column(Db2Type::VarChar(9)).with_ccsid(1208),
            &[0, 2, 0xC3, 0xA9],
        ),
        (column(Db2Type::LongVarChar).with_ccsid(819), &[0, 1, 0xE9]),
        (column(Db2Type::Binary(3)), &[1, 2, 3]),
        (column(Db2Type::VarBinary(3)), &[0, 2, 4, 5]),
        (column(Db2Type::Blob), &[0, 0, 0, 1]),
        (column(Db2Type::Clob), &[0, 0, 0, 2]),
        (column(Db2Type::BlobLocator), &[0, 0, 0, 3]),
        (column(Db2Type::ClobLocator), &[0, 0, 0, 4]),
        (column(Db2Type::Date), b"2026-03-02"),
        (column(Db2Type::Time), b"13.45.00"),
        (column(Db2Type::Timestamp), b"2026-03-02-13.45.00.000000"),
        (
            column(Db2Type::Graphic(4)).with_ccsid(1200),
            &[0xD8, 0x3D, 0xDE, 0x00],
        ),
        (column(Db2Type::RowId(2)), &[0x0A, 0xBC]),
        (column(Db2Type::Boolean), &[1]),
        (column(Db2Type::Xml), &[0, 0, 0, 4, b'<', b'a', b'/', b'>']),
    ];
    let columns = columns_and_bytes
        .iter()
        .map(|(column, _)| *column)
        .collect();
    let row = columns_and_bytes
        .iter()
        .flat_map(|(_, bytes)| bytes.iter().copied());
    (columns, row.collect())
}

/// The values of that row.
pub const VALUES: [Value; 22] = [
    Value::Integer(i32::MIN),
    Value::SmallInt(-2),
    Value::BigInt(i64::MIN),
    Value::Real(std::f32::consts::PI),
    Value::Double(-0.0),
    Value::Decimal("-0.05"),
    Value::Char("A¢"),
    Value::VarChar("é"),
    Value::VarChar("é"),
    Value::Binary(&[1, 2, 3]),
    Value::Binary(&[4, 5]),
    Value::Blob(&[0, 0, 0, 1]),
    Value::Clob("LOB locator 0x00000002"),
    Value::Blob(&[0, 0, 0, 3]),
    Value::Clob("LOB locator 0x00000004"),
    Value::Date("2026-03-02"),
    Value::Time("13.45.00"),
    Value::Timestamp("2026-03-02-13.45.00.000000"),
    Value::Char("\u{1F600}"),
    Value::RowId("0x0ABC"),
    Value::Boolean(true),
    Value::Xml("<a/>"),
];
