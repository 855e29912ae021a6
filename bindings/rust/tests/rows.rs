//! Rows: values of every sort, borrowed and owned; buffers; refusals.
mod common;

use common::{all_sorts, walked_both_ways, VALUES};
use std::alloc::{GlobalAlloc, Layout, System};
use std::cell::Cell;
use vejupa::raw::{
    self, RowAnswer, ACCEPTED, BUFFER_TOO_SHORT, TEXT_BUFFER_TOO_SHORT, TOO_FEW_WORDS,
};
use vejupa::{
    decode_row, decode_row_into, Buffers, ByteOrder, Column, Columns, Db2Type, OwnedRow,
    OwnedValue, Refusal, Row, Rows, Value,
};

/// Counts what a thread allocates.
struct Counting;

thread_local! {
    static ALLOCATIONS: Cell<usize> = const { Cell::new(0) };
}

// SAFETY: passes on what it is given.
unsafe impl GlobalAlloc for Counting {
    unsafe fn alloc(&self, layout: Layout) -> *mut u8 {
        ALLOCATIONS.with(|n| n.set(n.get() + 1));
        unsafe { System.alloc(layout) }
    }

    unsafe fn dealloc(&self, at: *mut u8, layout: Layout) {
        unsafe { System.dealloc(at, layout) }
    }
}

#[global_allocator]
static COUNTING: Counting = Counting;

fn column(db2_type: Db2Type) -> Column {
    Column::new(db2_type)
}

/// The columns of all sorts, a row of them, and how it is decoded.
fn with_row_of_all_sorts(check: impl FnOnce(Row)) {
    let (columns, bytes) = all_sorts();
    let mut buffers = Buffers::new();
    check(decode_row_into(&bytes, &Columns::from(&columns[..]), 2, &mut buffers).unwrap());
}

#[test]
fn values_of_every_sort() {
    with_row_of_all_sorts(|row| {
        assert_eq!(row.len(), VALUES.len());
        assert_eq!(row.used(), all_sorts().1.len());
        for (k, (value, expected)) in row.values().zip(VALUES).enumerate() {
            assert_eq!(value, expected, "column {k}");
            assert_eq!(row.value(k), expected);
            assert_eq!(row.get(k), Some(expected));
            assert_eq!(row.value_bytes(k), expected.as_bytes().unwrap_or_default());
        }
        assert_eq!(row.get(VALUES.len()), None);
        assert_eq!(row.get(usize::MAX / 3 + 1), None);
        assert_eq!(row.external_columns().collect::<Vec<_>>(), [11, 12, 13, 14]);
        assert!((0..22).all(|k| row.is_external(k) == (11..=14).contains(&k)));
        let texts: String = VALUES.iter().filter_map(|value| value.as_str()).collect();
        assert_eq!(row.text(), texts);
        assert!(matches!(row.value(4), Value::Double(x) if x.is_sign_negative()));
    });
}

#[test]
fn values_one_by_one() {
    with_row_of_all_sorts(|row| {
        walked_both_ways(row.values(), &VALUES);
        walked_both_ways(row.into_iter(), &VALUES);
        walked_both_ways((&row).into_iter(), &VALUES);
        let owned = row.into_owned();
        walked_both_ways(owned.clone().into_iter(), &owned.values);
        walked_both_ways(
            (&owned).into_iter(),
            &owned.values.iter().collect::<Vec<_>>(),
        );
    });
}

/// What a row hands out lives as long as the input and the buffers; the row itself is gone here.
#[test]
fn values_outlive_their_row() {
    let (columns, bytes) = all_sorts();
    let columns = Columns::from(&columns[..]);
    let mut buffers = Buffers::new();
    let (values, sixth, text, words, bytes_of_ninth) = {
        let row = decode_row_into(&bytes, &columns, 2, &mut buffers).unwrap();
        let copy = row;
        let values: Vec<Value> = copy.into_iter().collect();
        (
            values,
            row.get(5),
            row.text(),
            row.words(),
            row.value_bytes(9),
        )
    };
    assert_eq!(values, VALUES);
    assert_eq!(sixth, Some(Value::Decimal("-0.05")));
    assert_eq!((words.len(), bytes_of_ninth), (66, &[1, 2, 3][..]));
    let begins = "-0.05A¢éé";
    assert!(text.starts_with(begins), "{text}");
}

#[test]
fn owned_rows() {
    let (columns, bytes) = all_sorts();
    let row: OwnedRow = decode_row(&bytes, &columns, 2).unwrap();
    assert_eq!(row.values, VALUES);
    assert_eq!(row.external_columns, [11, 12, 13, 14]);
    assert_eq!(row.used, bytes.len());
    with_row_of_all_sorts(|borrowed| assert_eq!(OwnedRow::from(borrowed), row));
}

/// There and back again for each sort, with the same answers of the small accessors.
#[test]
fn owned_values() {
    for value in VALUES.into_iter().chain([Value::Null]) {
        let owned = value.into_owned();
        assert_eq!(owned.as_value(), value);
        assert_eq!(owned, value);
        assert_eq!(value, owned);
        assert_eq!(OwnedValue::from(value), owned);
        assert_eq!(Value::from(&owned), value);
        assert_eq!(owned.is_null(), value.is_null());
        assert_eq!(owned.as_bool(), value.as_bool());
        assert_eq!(owned.as_i64(), value.as_i64());
        assert_eq!(owned.as_f64(), value.as_f64());
        assert_eq!(owned.as_str(), value.as_str());
        assert_eq!(owned.as_bytes(), value.as_bytes());
        for other in VALUES {
            assert_eq!(owned == other, value == other);
        }
    }
    assert_eq!(
        Value::Binary(&[7]).into_owned(),
        OwnedValue::Binary(vec![7])
    );
    assert_ne!(Value::Binary(&[7]).into_owned(), Value::Blob(&[7]));
}

#[test]
fn booleans() {
    assert_eq!(Value::Boolean(true).as_bool(), Some(true));
    assert_eq!(Value::Boolean(false).as_bool(), Some(false));
    let others = VALUES.into_iter().filter(|v| *v != Value::Boolean(true));
    assert!(others.map(Value::as_bool).all(|truth| truth.is_none()));
}

/// `as_i64` and `as_f64` take the values that the published Rust's take, of each sort.
#[test]
fn numbers_of_every_sort() {
    for value in VALUES {
        let float = match value {
            Value::SmallInt(n) => Some(f64::from(n)),
            Value::Integer(n) => Some(f64::from(n)),
            Value::BigInt(n) => Some(n as f64),
            Value::Real(x) => Some(f64::from(x)),
            Value::Double(x) => Some(x),
            _ => None,
        };
        assert_eq!(value.as_f64(), float);
        assert_eq!(
            value.as_i64().is_some(),
            matches!(
                value,
                Value::SmallInt(_) | Value::Integer(_) | Value::BigInt(_)
            )
        );
    }
    assert_eq!(Value::SmallInt(-2).as_f64(), Some(-2.0));
    assert_eq!(
        Value::BigInt(i64::MAX).as_f64(),
        Some(9_223_372_036_854_775_808.0)
    );
    assert_eq!(Value::Boolean(true).as_f64(), None);
}

/// Of each sort of the words, and of one that there is none of: the part of the row or of the texts, or an empty one.
#[test]
fn bytes_of_words() {
    let (row, text) = ([1, 2, 3], [4, 5, 6, 7]);
    for sort in 0..=20 {
        let of = |place, len| raw::value_bytes(&[sort, place, len], &row, &text);
        let whole: &[u8] = match sort {
            11 | 12 => &row,
            8..=17 | 19 => &text,
            _ => &[],
        };
        for (place, len) in [(0, 3), (1, 2), (1, 3), (3, 0), (3, 1), (5, 0)] {
            assert_eq!(
                of(place as u64, len as u64),
                whole.get(place..place + len).unwrap_or_default(),
                "sort {sort}, place {place}, length {len}"
            );
        }
        assert!(of(u64::MAX, 1).is_empty() && of(1, u64::MAX).is_empty());
        assert!(raw::value_bytes(&[sort | 0x100, 0, 3], &row, &text) == of(0, 3));
        // fewer than three words have none: an empty part at the row's beginning
        for words in [&[][..], &[sort], &[sort, 0]] {
            let none = raw::value_bytes(words, &row, &text);
            assert_eq!(none.as_ptr_range(), row[..0].as_ptr_range());
        }
    }
}

#[test]
fn floats_carry_their_bits() {
    let little = column(Db2Type::Real).with_byte_order(ByteOrder::LittleEndian);
    let columns = [little, column(Db2Type::Real), column(Db2Type::Double)];
    for bits in [
        0x7FA0_0001_u32,
        0xFFC0_0000,
        0x7F80_0000,
        0x8000_0000,
        0x0000_0001,
    ] {
        let double = u64::from(bits) << 32 | 1;
        let row = [
            &bits.to_le_bytes()[..],
            &bits.to_be_bytes(),
            &double.to_be_bytes(),
        ]
        .concat();
        let row = decode_row(&row, &columns, 2).unwrap();
        for k in [0, 1] {
            assert!(matches!(row.values[k], OwnedValue::Real(x) if x.to_bits() == bits));
        }
        assert!(matches!(row.values[2], OwnedValue::Double(x) if x.to_bits() == double));
    }
}

#[test]
fn one_row_after_another_without_allocation() {
    let (columns, bytes) = all_sorts();
    let columns = Columns::from(&columns[..]);
    let mut buffers = Buffers::new();
    decode_row_into(&bytes, &columns, 2, &mut buffers).unwrap();
    let before = ALLOCATIONS.with(Cell::get);
    for _ in 0..3 {
        let row = decode_row_into(&bytes, &columns, 2, &mut buffers).unwrap();
        assert!(row.values().eq(VALUES));
        let few: &[u8] = &bytes[..5];
        assert!(decode_row_into(few, &columns, 2, &mut buffers).is_err());
    }
    assert_eq!(ALLOCATIONS.with(Cell::get), before);

    let block = bytes.repeat(4);
    let mut rows = Rows::new(&block, &columns, 2);
    assert!(rows.next_row().is_some());
    let before = ALLOCATIONS.with(Cell::get);
    for _ in 0..3 {
        assert!(rows.next_row().unwrap().unwrap().values().eq(VALUES));
    }
    assert!(rows.next_row().is_none());
    assert_eq!(ALLOCATIONS.with(Cell::get), before);
}

#[test]
fn buffers_serve_narrow_rows_after_wide_ones() {
    let (wide, bytes) = all_sorts();
    let wide = Columns::from(&wide[..]);
    let narrow = Columns::parse_whole(&[0x05, 0x70, 0x02, 0x00, 0x04]).unwrap();
    let mut buffers = Buffers::with_text(1);
    for _ in 0..2 {
        let row = decode_row_into(&bytes, &wide, 2, &mut buffers).unwrap();
        assert!(row.values().eq(VALUES));
        let row = decode_row_into(&[1, 0, 0, 0], &narrow, 2, &mut buffers).unwrap();
        assert_eq!((row.len(), row.value(0)), (1, Value::Integer(1)));
        assert_eq!((row.used(), row.text()), (4, ""));
    }
}

/// More than is set aside before a row asks for it.
#[test]
fn a_long_text() {
    let columns = [column(Db2Type::LongVarChar).with_ccsid(819)];
    let mut bytes = vec![0xE9; 65_537];
    bytes[..2].fill(0xFF);
    bytes.splice(0..0, [0xFF, 0x00]);
    let text = "é".repeat(65_535);
    let row = decode_row(&bytes, &columns, 2).unwrap();
    assert!(row.values == [Value::VarChar(&text)]);
    let mut buffers = Buffers::new();
    let row = decode_row_into(&bytes, &Columns::from(&columns[..]), 2, &mut buffers).unwrap();
    assert!(row.value(0) == Value::VarChar(&text));
    assert_eq!(row.used(), 65_539);
}

#[test]
fn a_row_without_columns() {
    let row = decode_row(&[0xFF, 0x41], &[], 2).unwrap();
    assert_eq!((row.values.len(), row.used), (0, 2));
    let mut buffers = Buffers::new();
    let row = decode_row_into(&[0xFF, 0x41], &Columns::default(), 2, &mut buffers).unwrap();
    assert!(row.is_empty());
    assert_eq!((row.len(), row.used()), (0, 2));
}

#[test]
fn refusals() {
    let integer = column(Db2Type::Integer);
    let dec_float = column(Db2Type::DecFloat(16));
    assert_eq!(
        decode_row(&[], &[integer; 129], 2).unwrap_err(),
        Refusal::CountTooLarge
    );
    assert_eq!(
        decode_row(&[0; vejupa::MAX_INPUT + 1], &[dec_float], 2).unwrap_err(),
        Refusal::InputTooLong
    );
    assert_eq!(
        decode_row(&[], &[integer, dec_float], 2).unwrap_err(),
        Refusal::DecFloatColumn
    );
    let short = decode_row(&[1, 2, 3], &[integer], 2).unwrap_err();
    assert_eq!(
        short,
        Refusal::BufferTooShort {
            column: 0,
            expected: 4,
            actual: 3
        }
    );
    assert_eq!(short.number(), 8);
    assert_eq!(
        short.to_string(),
        "refusal 8: too short in column 0: 4 bytes expected, 3 there"
    );
}

/// Through the plain calls: what a refusal leaves alone.
#[test]
fn a_refusal_changes_no_buffer() {
    let (columns, bytes) = all_sorts();
    let columns = Columns::from(&columns[..]);
    let needed: usize = VALUES
        .iter()
        .filter_map(|value| value.as_str())
        .map(str::len)
        .sum();
    let mut values = [7; 3 * 22 + 1];
    let mut text = vec![7; needed + 1];

    let answer = raw::decode_row(columns.words(), &bytes, 2, &mut values[..65], &mut text);
    let refused = RowAnswer {
        number: TOO_FEW_WORDS,
        used: 0,
        text_length: 0,
        replaced: 0,
        expected: 0,
        actual: 0,
    };
    let expected = refused;
    assert_eq!(answer, expected);
    let answer = raw::decode_row(
        columns.words(),
        &bytes,
        2,
        &mut values,
        &mut text[..needed - 1],
    );
    let expected = RowAnswer {
        number: TEXT_BUFFER_TOO_SHORT,
        text_length: needed,
        ..refused
    };
    assert_eq!(answer, expected);
    let answer = raw::decode_row(columns.words(), &bytes[..5], 2, &mut values, &mut text);
    let expected = RowAnswer {
        number: BUFFER_TOO_SHORT,
        expected: 2,
        actual: 1,
        ..refused
    };
    assert_eq!(answer, expected);
    assert!(values.iter().all(|&word| word == 7) && text.iter().all(|&byte| byte == 7));

    let answer = raw::decode_row(columns.words(), &bytes, 2, &mut values, &mut text);
    let expected = RowAnswer {
        number: ACCEPTED,
        used: bytes.len(),
        text_length: needed,
        ..refused
    };
    assert_eq!(answer, expected);
    assert_eq!((values[66], text[needed]), (7, 7));
}

/// Columns with damaged texts, a row of them with a Binary behind, and how many characters are replaced.
fn damaged() -> (Columns, Vec<u8>, usize) {
    let columns = [
        column(Db2Type::Char(2)).with_ccsid(1208),
        column(Db2Type::VarChar(9)).with_ccsid(1208),
        column(Db2Type::Graphic(2)).with_ccsid(1200),
        column(Db2Type::Clob).with_ccsid(37).with_length(100),
        column(Db2Type::Date).with_ccsid(1208),
        column(Db2Type::Binary(2)),
    ];
    // The host's own stands in the second; the Clob lies within the row, and is UTF-8 whatever its CCSID.
    let row: [&[u8]; 6] = [
        b"\xC1z",
        b"\x00\x04\xEF\xBF\xBD\xF0",
        b"\xD8\x3D",
        b"\x00\x00\x00\x02\x80\x81",
        b"2026-03-0\xE2",
        b"\xC1\xC2",
    ];
    (Columns::from(columns), row.concat(), 1 + 1 + 1 + 2 + 1)
}

#[test]
fn replaced_characters_of_a_row() {
    let (columns, bytes, replaced) = damaged();
    let mut buffers = Buffers::new();
    let row = decode_row_into(&bytes, &columns, 2, &mut buffers).unwrap();
    assert_eq!(row.replaced(), replaced);
    assert_eq!(row.into_owned().replaced, replaced);
    assert_eq!(columns.decode_row(&bytes, 2).unwrap().replaced, replaced);
    assert_eq!(row.value(3), Value::Clob("\u{FFFD}\u{FFFD}"));

    let needed = row.text().len();
    let mut values = [0; 3 * 6];
    let mut text = vec![0; needed + 1000];
    for room in [needed, needed + 1, needed + 1000] {
        let answer = raw::decode_row(columns.words(), &bytes, 2, &mut values, &mut text[..room]);
        assert_eq!((answer.number, answer.replaced), (ACCEPTED, replaced));
    }
    for (data, words, room, number) in [
        (&bytes[..], 18, needed - 1, TEXT_BUFFER_TOO_SHORT),
        (&bytes[..bytes.len() - 1], 18, needed, BUFFER_TOO_SHORT),
        (&bytes, 17, needed, TOO_FEW_WORDS),
    ] {
        let answer = raw::decode_row(
            columns.words(),
            data,
            2,
            &mut values[..words],
            &mut text[..room],
        );
        assert_eq!((answer.number, answer.replaced), (number, 0));
    }
}

/// A row in which the host sent U+FFFD is not one in which something was malformed, though their values are the same.
#[test]
fn rows_are_compared_by_what_was_replaced() {
    let columns = Columns::from([column(Db2Type::VarChar(9)).with_ccsid(1208)]);
    let (mut one, mut two) = (Buffers::new(), Buffers::new());
    let sent = decode_row_into(b"\x00\x03\xEF\xBF\xBD", &columns, 2, &mut one).unwrap();
    let put_in = decode_row_into(b"\x00\x03\xE2\x82\xF0", &columns, 2, &mut two).unwrap();
    assert_eq!((sent.replaced(), put_in.replaced()), (0, 2));
    let put_in = decode_row_into(b"\x00\x02\xE2\x82", &columns, 2, &mut two).unwrap();
    assert!(sent.values().eq(put_in.values()));
    assert_ne!(sent, put_in);
    assert_ne!(sent, put_in.into_owned());
}

/// Rows are compared by what they hold, wherever it lies.
#[test]
fn rows_are_compared() {
    let columns = Columns::from([
        Column::new(Db2Type::Char(2)).with_ccsid(37),
        Column::new(Db2Type::Clob),
    ]);
    let data = [0xC1, 0xC2, 0x00, 0x00, 0x00, 0x07];
    let other = [0xC1, 0xC2, 0x00, 0x00, 0x00, 0x08];
    let (mut one, mut two, mut three) = (Buffers::new(), Buffers::new(), Buffers::new());
    let row = decode_row_into(&data, &columns, 2, &mut one).unwrap();
    let longer = [&data[..], &[0x01]].concat();
    assert_eq!(
        row,
        decode_row_into(&longer, &columns, 2, &mut two).unwrap()
    );
    assert_eq!(row, row.into_owned());
    let other = decode_row_into(&other, &columns, 2, &mut three).unwrap();
    assert_ne!(row, other);
    let marked = [&[0xFF, 0x00], &data[..]].concat();
    assert_ne!(row, columns.decode_row(&marked, 2).unwrap());
    let mut owned = row.into_owned();
    owned.external_columns.clear();
    assert_ne!(row, owned);
}
