//! Which column of a row is too short.
mod common;

use common::{some_column, some_row, Random};
use vejupa::raw::{self, BUFFER_TOO_SHORT};
use vejupa::{decode_row, decode_row_into, Buffers, Column, Columns, Db2Type, Refusal};

/// The first column with which the row is too short, at release 2.
fn by_linear_search(columns: &Columns, row: &[u8]) -> Option<usize> {
    let mut values = vec![0; 3 * columns.len()];
    let mut text = vec![0; 3 * row.len() + 258 * columns.len()];
    (0..columns.len()).find(|k| {
        let first = &columns.words()[..2 * (k + 1)];
        raw::decode_row(first, row, 2, &mut values, &mut text).number == BUFFER_TOO_SHORT
    })
}

/// At either release.
#[test]
fn the_same_column_as_by_linear_search() {
    let mut random = Random(0x9E37_79B9_7F4A_7C15);
    let mut buffers = Buffers::new();
    let mut found = [0; 128];
    let mut accepted = 0;
    for _ in 0..10_000 {
        let most = random.pick(&[12, 128]);
        let count = 1 + random.below(most);
        let columns: Columns = (0..count).map(|_| some_column(&mut random)).collect();
        let row = some_row(&mut random);
        let expected = by_linear_search(&columns, &row);
        let (mut values, mut text) = (vec![0; 3 * count], vec![0; 3 * row.len() + 258 * count]);
        let plain = raw::decode_row(columns.words(), &row, 2, &mut values, &mut text);
        let release = random.pick(&[2, 3]);
        match decode_row_into(&row, &columns, release, &mut buffers) {
            Ok(_) => {
                assert_eq!(expected, None);
                accepted += 1;
            }
            Err(Refusal::BufferTooShort {
                column,
                expected: bytes,
                actual,
            }) => {
                assert_eq!(Some(column), expected, "{columns:?} {row:X?}");
                assert_eq!((bytes, actual), (plain.expected, plain.actual));
                found[column] += 1;
            }
            Err(other) => panic!("{other}"),
        }
    }
    // Rows of all these outcomes were among them.
    assert!(accepted > 1000, "{accepted}");
    assert!(found[..32].iter().all(|&times| times > 10), "{found:?}");
}

#[test]
fn each_column_in_turn() {
    let columns = [Column::new(Db2Type::SmallInt).with_nullable(true); 128];
    for length in 0..3 * 128 {
        let row = vec![0; length];
        let column = length / 3;
        let (expected, actual) = match length % 3 {
            0 => (length + 1, length),
            there => (2, there - 1),
        };
        assert_eq!(
            decode_row(&row, &columns, 2),
            Err(Refusal::BufferTooShort {
                column,
                expected,
                actual
            })
        );
    }
    assert!(decode_row(&[0; 3 * 128], &columns, 2).is_ok());
}
