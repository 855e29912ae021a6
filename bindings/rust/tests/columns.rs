//! Columns, described and made, and their words.
mod common;

use common::{all_sorts, walked_both_ways};
use vejupa::raw::{self, LengthAnswer};
use vejupa::{
    decode_row, parse_whole_qrydsc, ByteOrder, Column, Columns, Db2Type, Origin, OwnedRow, Value,
};

/// One of each type.
const TYPES: [Db2Type; 29] = [
    Db2Type::SmallInt,
    Db2Type::Integer,
    Db2Type::BigInt,
    Db2Type::Real,
    Db2Type::Double,
    Db2Type::Decimal {
        precision: 31,
        scale: 5,
    },
    Db2Type::DecFloat(34),
    Db2Type::Char(0x1234),
    Db2Type::VarChar(0x8001),
    Db2Type::LongVarChar,
    Db2Type::Clob,
    Db2Type::Binary(16),
    Db2Type::VarBinary(0xFFFF),
    Db2Type::Blob,
    Db2Type::BlobLocator,
    Db2Type::Date,
    Db2Type::Time,
    Db2Type::Timestamp,
    Db2Type::Graphic(7),
    Db2Type::VarGraphic(8),
    Db2Type::DbClob,
    Db2Type::ClobLocator,
    Db2Type::DbClobLocator,
    Db2Type::LobBytes(1024),
    Db2Type::LobChar(1025),
    Db2Type::RowId(40),
    Db2Type::Boolean,
    Db2Type::Xml,
    Db2Type::Null,
];

const ORIGINS: [Origin; 3] = [Origin::Sda, Origin::UndeclaredLid, Origin::DeclaredLid];

const BYTE_ORDERS: [ByteOrder; 2] = [ByteOrder::BigEndian, ByteOrder::LittleEndian];

#[test]
fn every_column_is_the_column_of_its_words() {
    for (tag, db2_type) in TYPES.into_iter().enumerate() {
        let mut column = Column::new(db2_type)
            .with_length(0x8004)
            .with_nullable(true)
            .with_ccsid(1208)
            .with_reference_length(4)
            .with_byte_order(ByteOrder::LittleEndian)
            .with_origin(Origin::DeclaredLid);
        column.column_index = 255;
        column.drda_type = 0xC9;
        column.precision = 5;
        column.scale = 2;
        for column in [column, Column::new(db2_type)] {
            assert_eq!(column.words()[0] & 0xFF, tag as u64);
            assert_eq!(Column::from_words(column.words()), Some(column));
        }
        assert_eq!(column.words()[0] >> 24, 0x1700_FFC9);
        assert_eq!(column.words()[1], 0x0004_04B8_0205_8004);
    }
}

/// Each of the three beside either byte order, in bits of its own. There is no fourth, and nothing stands above.
#[test]
fn origins_in_words() {
    for db2_type in TYPES {
        for byte_order in BYTE_ORDERS {
            let plain = Column::new(db2_type).with_byte_order(byte_order);
            let [first, second] = plain.words();
            for (number, origin) in (0..).zip(ORIGINS) {
                let column = plain.with_origin(origin);
                let words = [first | number << 51, second];
                assert_eq!(column.words(), words);
                assert_eq!(Column::from_words(words), Some(column));
                for bit in 53..64 {
                    assert_eq!(Column::from_words([words[0] | 1 << bit, second]), None);
                }
            }
            assert_eq!(Column::from_words([first | 3 << 51, second]), None);
        }
    }
}

/// Types without numbers that hold one; a DecFloat of 256 digits; a tag that is no type's; a column number above 255; an origin that there
/// is none of; bits that are not in use; a reference length that is not there, whatever the origin.
#[test]
fn some_words_are_no_column() {
    for words in [
        [0x01_00, 0],
        [0x01_00_06, 0],
        [29, 0],
        [255, 0],
        [1 << 40, 0],
        [3 << 51, 0],
        [1 << 53, 0],
        [1 << 54, 0],
        [1 << 63, 0],
        [0, 1 << 48],
        [1 << 51, 1 << 48],
        [2 << 51, 1 << 48],
    ] {
        assert_eq!(Column::from_words(words), None, "{words:X?}");
        let answer = raw::decode_row(&words, &[0; 16], 2, &mut [0; 3], &mut []);
        assert_eq!(answer.number, raw::NO_COLUMN, "{words:X?}");
    }
    assert_eq!(
        raw::fixed_length(29),
        LengthAnswer {
            number: raw::NO_COLUMN,
            fixed: 0,
            length: 0
        }
    );
}

#[test]
fn a_description_and_its_columns() {
    let description = [0x09, 0x76, 0xD0, 0x05, 0x00, 0x02, 0x0F, 0x05, 0x02];
    let mut decimal = Column::new(Db2Type::Decimal {
        precision: 5,
        scale: 2,
    });
    decimal.column_index = 1;
    decimal.drda_type = 0x0F;
    decimal.length = 3;
    decimal.precision = 5;
    decimal.scale = 2;
    decimal.nullable = true;
    decimal.origin = Origin::UndeclaredLid;
    let columns = parse_whole_qrydsc(&description).unwrap();
    assert_eq!(columns.len(), 2);
    assert_eq!(columns[1], decimal);

    let packed = Columns::parse_whole(&description).unwrap();
    assert_eq!(packed, Columns::from(&columns[..]));
    assert_eq!(packed.get(1), Some(decimal));
    assert_eq!(packed.get(2), None);
    assert_eq!(packed.get(usize::MAX), None);
    assert!(Columns::parse_whole(&[]).unwrap().is_empty());
}

/// An SDA, by itself and within a group; a LID before it is declared and after.
#[test]
fn where_columns_come_from() {
    let sda = [0x05, 0x70, 0x02, 0x00, 0x04];
    let group_of_an_sda = [0x07, 0x76, 0x05, 0x70, 0x02, 0x00, 0x04];
    let declaration = [
        0x03, 0x78, 0x33, 0x08, 0x70, 0x41, 0x00, 0x00, 0x00, 0x00, 0x25,
    ];
    let group = [0x09, 0x76, 0xD0, 0x02, 0x00, 0x04, 0x41, 0x00, 0x14];
    let parts = [&sda[..], &group, &declaration, &group, &group_of_an_sda];
    let described = parse_whole_qrydsc(&parts.concat()).unwrap();

    let integer = Column::new(Db2Type::Integer).with_length(4);
    let from_sda = integer.with_byte_order(ByteOrder::LittleEndian);
    let from_lid = integer.with_origin(Origin::UndeclaredLid);
    let text = Column::new(Db2Type::VarChar(20))
        .with_length(20)
        .with_nullable(true);
    let before = text.with_ccsid(1208).with_origin(Origin::UndeclaredLid);
    let after = text.with_ccsid(37).with_origin(Origin::DeclaredLid);
    let expected = [
        (0x02, from_sda),
        (0x02, from_lid),
        (0x41, before),
        (0x02, from_lid),
        (0x33, after),
        (0x02, from_sda),
    ];
    assert_eq!(described.len(), expected.len());
    for (k, (drda_type, mut column)) in expected.into_iter().enumerate() {
        column.column_index = k as u8;
        column.drda_type = drda_type;
        assert_eq!(described[k], column);
    }
}

/// Lists that differ in origins alone give the same rows, and the same refusals.
#[test]
fn nothing_is_decoded_by_an_origin() {
    let (columns, bytes) = all_sorts();
    for byte_order in BYTE_ORDERS {
        let plain: Vec<Column> = columns
            .iter()
            .map(|column| column.with_byte_order(byte_order))
            .collect();
        // All but the last: where the Graphic's units have two bytes, it takes some of the Xml's.
        assert!(decode_row(&bytes, &plain[..plain.len() - 1], 2).is_ok());
        // One origin for all, or each by turns.
        for (first, step) in [(0, 0), (1, 0), (2, 0), (0, 1), (1, 1), (2, 1)] {
            let mut other = plain.clone();
            for (k, column) in other.iter_mut().enumerate() {
                column.origin = ORIGINS[(first + step * k) % 3];
            }
            for count in 0..=plain.len() {
                let expected = decode_row(&bytes, &plain[..count], 2);
                assert_eq!(decode_row(&bytes, &other[..count], 2), expected);
            }
            for length in 0..bytes.len() {
                let expected = decode_row(&bytes[..length], &plain, 2);
                assert_eq!(decode_row(&bytes[..length], &other, 2), expected);
            }
        }
    }
}

/// Each sets its own field and no other.
#[test]
fn a_column_made_step_by_step() {
    let plain = Column::new(Db2Type::Clob);
    assert_eq!(plain.byte_order, ByteOrder::BigEndian);
    assert_eq!(plain.origin, Origin::Sda);
    assert_eq!((plain.nullable, plain.reference_length), (false, None));
    let made = |change: fn(&mut Column)| {
        let mut column = plain;
        change(&mut column);
        assert_ne!(column, plain);
        column
    };
    assert_eq!(plain.with_nullable(true), made(|c| c.nullable = true));
    assert_eq!(plain.with_ccsid(37), made(|c| c.ccsid = 37));
    assert_eq!(plain.with_length(9), made(|c| c.length = 9));
    assert_eq!(
        plain.with_byte_order(ByteOrder::LittleEndian),
        made(|c| c.byte_order = ByteOrder::LittleEndian)
    );
    assert_eq!(
        plain.with_origin(Origin::DeclaredLid),
        made(|c| c.origin = Origin::DeclaredLid)
    );
    assert_eq!(
        plain.with_reference_length(0),
        made(|c| c.reference_length = Some(0))
    );
    assert_eq!(plain.with_nullable(true).with_nullable(false), plain);
}

#[test]
fn columns_one_by_one() {
    let all = TYPES.map(Column::new);
    let columns = Columns::from(&all[..]);
    walked_both_ways(columns.iter(), &all);
    walked_both_ways((&columns).into_iter(), &all);
    walked_both_ways(columns.clone().into_iter(), &all);
    walked_both_ways(Columns::default().into_iter(), &[]);
    assert_eq!(columns.iter().collect::<Columns>(), columns);

    let mut types = Vec::new();
    for column in &columns {
        types.push(column.db2_type);
    }
    assert_eq!(types, TYPES);
}

/// The type's own numbers count, not those beside it: three bytes of Char, two of Decimal.
#[test]
fn a_type_goes_by_its_own_numbers() {
    let decimal = Db2Type::Decimal {
        precision: 3,
        scale: 1,
    };
    let mut columns = [Column::new(Db2Type::Char(3)), Column::new(decimal)];
    for column in &mut columns {
        column.length = 40;
        column.precision = 31;
        column.scale = 5;
    }
    let row = decode_row(b"abc\x12\x3C", &columns, 2).unwrap();
    assert_eq!(row.values, [Value::Char("abc"), Value::Decimal("12.3")]);
}

#[test]
fn fixed_lengths() {
    let expected = [
        Some(2),
        Some(4),
        Some(8),
        Some(4),
        Some(8),
        Some(16),
        Some(16),
        Some(0x1234),
        None,
        None,
        None,
        Some(16),
        None,
        None,
        Some(4),
        Some(10),
        Some(8),
        Some(26),
        Some(14),
        None,
        None,
        Some(4),
        Some(4),
        Some(1024),
        Some(1025),
        Some(40),
        Some(1),
        None,
        None,
    ];
    assert_eq!(TYPES.map(Db2Type::fixed_length), expected);
}

#[test]
fn lists_from_what_holds_columns() {
    let columns = [
        Column::new(Db2Type::SmallInt),
        Column::new(Db2Type::Char(2)).with_ccsid(37),
    ];
    let mut list = Columns::from(columns);
    assert_eq!(list, Columns::from(columns.to_vec()));
    assert_eq!(list, Columns::from(&columns[..]));
    assert_eq!(list, columns.into_iter().collect());
    list.extend([Column::new(Db2Type::Clob)]);
    assert_eq!(list.len(), 3);
    let data = [0x00, 0x07, 0xC1, 0xC2, 0x00, 0x00, 0x00, 0x05];
    let row = list.decode_row(&data, 2).unwrap();
    assert_eq!(
        row,
        decode_row(&data, &list.iter().collect::<Vec<_>>(), 2).unwrap()
    );
    let values = [
        Value::SmallInt(7),
        Value::Char("AB"),
        Value::Clob("LOB locator 0x00000005"),
    ];
    assert_eq!(row.values, values);
    assert_eq!(
        [0, 1, 2, 3].map(|k| row.is_external(k)),
        [false, false, true, false]
    );
    assert!(OwnedRow::default().values.is_empty());
}

/// The values of the raw call's words are those of the row.
#[test]
fn values_from_words() {
    let list = Columns::from([
        Column::new(Db2Type::SmallInt),
        Column::new(Db2Type::Char(2)).with_ccsid(37),
    ]);
    let data = [0x00, 0x07, 0xC1, 0xC2];
    let (mut words, mut text) = ([0; 6], [0; 2]);
    assert_eq!(
        raw::decode_row(list.words(), &data, 2, &mut words, &mut text).number,
        raw::ACCEPTED
    );
    let text = std::str::from_utf8(&text).unwrap();
    let value = |k: usize| {
        Value::from_words(
            [words[3 * k], words[3 * k + 1], words[3 * k + 2]],
            &data,
            text,
        )
    };
    assert_eq!(value(0), Some(Value::SmallInt(7)));
    assert_eq!(value(1), Some(Value::Char("AB")));
    assert_eq!(Value::from_words([9, 1, 2], &data, text), None);
    assert_eq!(Value::from_words([20, 0, 0], &data, text), None);
}
