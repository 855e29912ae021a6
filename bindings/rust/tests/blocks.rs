//! Rows that lie one after the other.
mod common;

use common::{all_sorts, VALUES};
use vejupa::{Buffers, Column, Columns, Db2Type, OwnedRow, Refusal, Rows, Value};

/// One SmallInt a row.
const SMALL_INT: &[u8] = &[0x06, 0x76, 0xD0, 0x04, 0x00, 0x02];

/// Two SmallInts a row that may be null.
const TWO_NULLABLE: &[u8] = &[0x09, 0x76, 0xD0, 0x05, 0x00, 0x02, 0x05, 0x00, 0x02];

fn columns(description: &[u8]) -> Columns {
    Columns::parse_whole(description).unwrap()
}

fn numbers(row: &OwnedRow) -> Vec<Option<i64>> {
    row.into_iter().map(|value| value.as_i64()).collect()
}

/// A query end (SQLCODE +100) as a host sends it behind the last row: it begins with 00.
fn query_end() -> Vec<u8> {
    let parts: [&[u8]; 6] = [
        &[0x00, 0x00, 0x00, 0x00, 0x64],
        b"02000CSS10140",
        &[0x00; 1 + 24],
        b"           ",
        &[0x00; 6],
        &[0xFF, 0xFF],
    ];
    let bytes = parts.concat();
    assert_eq!(bytes.len(), 62);
    bytes
}

#[test]
fn all_rows_of_a_block() {
    let (described, bytes) = all_sorts();
    let described = Columns::from(&described[..]);
    let block = bytes.repeat(5);
    let rows: Vec<OwnedRow> = Rows::new(&block, &described, 2)
        .map(Result::unwrap)
        .collect();
    assert_eq!(rows.len(), 5);
    for row in &rows {
        assert_eq!(row.values, VALUES);
        assert_eq!(row.used, bytes.len());
        assert_eq!(row.external_columns, [11, 12, 13, 14]);
    }

    let mut rows = Rows::new(&block, &described, 2);
    for left in (0..5).rev() {
        let row = rows.next_row().unwrap().unwrap();
        assert!(row.values().eq(VALUES));
        assert_eq!(rows.rest(), &block[..left * bytes.len()]);
    }
    assert!(rows.next_row().is_none() && rows.next().is_none());
    assert!(rows.rest().is_empty());
}

/// Both ways to go on can be mixed: they share the place.
#[test]
fn by_turns() {
    let described = columns(SMALL_INT);
    let mut rows = Rows::new(&[0, 1, 0, 2, 0, 3], &described, 2);
    assert_eq!(rows.next().unwrap().unwrap().values, [Value::SmallInt(1)]);
    let second = rows.next_row().unwrap().unwrap();
    assert_eq!((second.value(0), second.used()), (Value::SmallInt(2), 2));
    assert_eq!(rows.rest(), [0, 3]);
    assert_eq!(rows.next().unwrap().unwrap().values, [Value::SmallInt(3)]);
    assert_eq!(rows.next(), None);
}

/// A part of a block outlives the rows.
#[test]
fn the_rest_is_the_blocks() {
    let block = [0, 1, 0, 2, 7];
    let described = columns(SMALL_INT);
    let rest = {
        let mut rows = Rows::new(&block, &described, 2);
        rows.next_row();
        rows.rest()
    };
    assert_eq!(rest, &block[2..]);
}

#[test]
fn nothing_to_read() {
    let described = columns(SMALL_INT);
    let mut rows = Rows::new(&[], &described, 2);
    assert_eq!((rows.next(), rows.rest()), (None, &[][..]));
}

/// An iterator of such rows would not end.
#[test]
fn rows_that_use_no_byte() {
    let none = Columns::default();
    let mut rows = Rows::new(&[0x01, 0x02], &none, 2);
    assert_eq!(rows.next(), None);
    assert!(rows.next_row().is_none());
    assert_eq!(rows.rest(), [0x01, 0x02]);

    // Without columns the two leading bytes are used, what follows is not.
    let mut rows = Rows::new(&[0xFF, 0x00, 0x01], &none, 2);
    assert_eq!(rows.next().unwrap().unwrap().used, 2);
    assert_eq!((rows.next(), rows.rest()), (None, &[0x01][..]));

    // A reference of no bytes.
    let blob = Columns::from(&[Column::new(Db2Type::Blob).with_reference_length(0)][..]);
    let mut rows = Rows::new(&[0x01], &blob, 2);
    assert_eq!((rows.next(), rows.rest()), (None, &[0x01][..]));
}

/// It is handed out once, and the rest begins with the row that was refused: with more bytes behind it the rows go on.
#[test]
fn a_refusal_ends_the_rows() {
    let described = columns(TWO_NULLABLE);
    let block = [0, 0, 1, 0, 0, 2, 0, 0, 3, 0, 0];
    let short = Refusal::BufferTooShort {
        column: 1,
        expected: 2,
        actual: 1,
    };
    for borrowed in [false, true] {
        let mut rows = Rows::new(&block, &described, 2);
        let first = rows.next().unwrap().unwrap();
        assert_eq!(numbers(&first), [Some(1), Some(2)]);
        let refusal = match borrowed {
            true => rows.next_row().unwrap().unwrap_err(),
            false => rows.next().unwrap().unwrap_err(),
        };
        assert_eq!(refusal, short);
        for _ in 0..3 {
            assert_eq!(rows.rest(), &block[6..]);
            assert!(rows.next_row().is_none());
            assert_eq!(rows.next(), None);
        }
        let more = [rows.rest(), &[4]].concat();
        let again: Vec<OwnedRow> = Rows::new(&more, &described, 2)
            .map(Result::unwrap)
            .collect();
        assert_eq!(again.len(), 1);
        assert_eq!(numbers(&again[0]), [Some(3), Some(4)]);
    }
}

#[test]
fn blocks_up_to_the_limit() {
    let described = columns(SMALL_INT);
    let block = vec![0; vejupa::MAX_INPUT];
    assert_eq!(
        Rows::new(&block, &described, 2).count(),
        vejupa::MAX_INPUT / 2
    );
    let block = vec![0; vejupa::MAX_INPUT + 1];
    let mut rows = Rows::new(&block, &described, 2);
    assert_eq!(rows.next(), Some(Err(Refusal::InputTooLong)));
    assert_eq!((rows.next(), rows.rest().len()), (None, block.len()));
}

/// The loop that a caller writes where the host sends FF 00 before each row. It ends at the query end, and at a refusal.
#[test]
fn a_loop_that_stops_before_other_groups() {
    let described = columns(SMALL_INT);
    let block = [&[0xFF, 0, 0, 7, 0xFF, 0, 0, 8][..], &query_end()].concat();
    let mut rows = Rows::new(&block, &described, 2);
    let mut read = Vec::new();
    while rows.rest().starts_with(&[0xFF]) {
        let Some(row) = rows.next_row() else { break };
        read.push(row.unwrap().value(0).as_i64());
    }
    assert_eq!(read, [Some(7), Some(8)]);
    assert_eq!(rows.rest(), query_end());

    let mut rows = Rows::new(&block[..7], &described, 2);
    let mut refusals = 0;
    while rows.rest().starts_with(&[0xFF]) {
        let Some(row) = rows.next_row() else { break };
        refusals += usize::from(row.is_err());
        assert!(refusals <= 1);
    }
    assert_eq!((refusals, rows.rest()), (1, &[0xFF, 0, 0][..]));
}

/// What becomes of a caller who does not stop: the documentation warns of it.
#[test]
fn a_query_end_read_as_rows() {
    let described = columns(SMALL_INT);
    let end = query_end();
    let mut rows = Rows::new(&end, &described, 2);
    for pair in end[..60].chunks(2) {
        let number = i16::from_be_bytes([pair[0], pair[1]]);
        assert_eq!(
            rows.next().unwrap().unwrap().values,
            [Value::SmallInt(number)]
        );
    }
    assert_eq!(rows.rest(), [0xFF, 0xFF]);
    assert!(matches!(
        rows.next(),
        Some(Err(Refusal::BufferTooShort { column: 0, .. }))
    ));
}

/// Rows without the two leading bytes, of which the first begins with Null: the documentation warns of it.
#[test]
fn a_leading_null_read_as_the_two_leading_bytes() {
    let described = columns(TWO_NULLABLE);
    let (first, second) = (
        [0xFF, 0x00, 0x00, 0x07],
        [0x00, 0x00, 0x01, 0x00, 0x00, 0x02],
    );
    let block = [&first[..], &second].concat();
    let mut rows = Rows::new(&block, &described, 2);
    let row = rows.next().unwrap().unwrap();
    assert_eq!(numbers(&row), [Some(1792), Some(256)]);
    let short = Refusal::BufferTooShort {
        column: 0,
        expected: 2,
        actual: 1,
    };
    assert_eq!(rows.next(), Some(Err(short)));

    // With the two leading bytes before each row they are read as they were meant.
    let block = [&[0xFF, 0x00][..], &first, &[0xFF, 0x00], &second].concat();
    let rows: Vec<OwnedRow> = Rows::new(&block, &described, 2)
        .map(Result::unwrap)
        .collect();
    assert_eq!(numbers(&rows[0]), [None, Some(7)]);
    assert_eq!(numbers(&rows[1]), [Some(1), Some(2)]);
    assert_eq!(rows.len(), 2);
}

/// A row that is cut off behind its first byte is read as a Null: the loop waits for FF 00.
#[test]
fn a_lone_ff_is_not_taken_for_a_row() {
    let columns = Columns::from([Column::new(Db2Type::SmallInt).with_nullable(true)]);
    assert_eq!(
        columns.decode_row(&[0xFF], 2).unwrap().values,
        [Value::Null]
    );
    let whole = [0xFF, 0x00, 0x00, 0x00, 0x07, 0xFF, 0x00, 0x00, 0x00, 0x08];
    for cut in 0..=whole.len() {
        let mut left = whole[..cut].to_vec();
        let mut found = Vec::new();
        for more in [&whole[cut..], &[]] {
            let mut rows = Rows::new(&left, &columns, 2);
            while rows.rest().starts_with(&[0xFF, 0x00]) {
                match rows.next_row() {
                    Some(Ok(row)) => found.push(row.value(0).as_i64()),
                    Some(Err(refusal)) => assert_eq!(refusal.number(), 8),
                    None => break,
                }
            }
            left = [rows.rest(), more].concat();
        }
        assert_eq!(found, [Some(7), Some(8)], "cut at {cut}");
        assert!(left.is_empty());
    }
}

/// The buffers of one block serve the next, and what is left outlives the columns.
#[test]
fn buffers_and_rest_go_on() {
    let block = [0x00, 0x07, 0x00];
    let rest = {
        let columns = Columns::from([Column::new(Db2Type::SmallInt)]);
        let mut rows = Rows::with_buffers(&block, &columns, 2, Buffers::with_text(9_000));
        assert_eq!(rows.next_row().unwrap().unwrap().value(0).as_i64(), Some(7));
        let rest = rows.rest();
        let buffers = rows.into_buffers();
        assert!(format!("{buffers:?}").contains("9000"), "{buffers:?}");
        rest
    };
    assert_eq!(rest, [0x00]);
}
