//! The cases A to P of the rules ("At the edges"), each with its whole outcome, at either release. crates/edges has the same table for the
//! prover.
use vejupa::{
    decode_packed_decimal, decode_row, decode_row_into, parse_qrydsc, parse_whole_qrydsc, Buffers,
    Columns, Refusal, Value,
};

struct Case {
    letter: char,
    description: &'static [u8],
    row: &'static [u8],
    values: &'static [Value<'static>],
    external: &'static [usize],
    used: usize,
}

const SMALL_INT_AND_DECIMAL: &[u8] = &[0x09, 0x76, 0xD0, 0x05, 0x00, 0x02, 0x0F, 0x05, 0x02];
const NULLABLE_INTEGER: &[u8] = &[0x05, 0x70, 0x03, 0x00, 0x04];
const HEADER_OF_ONE_BYTE: &[u8] = &[0x07, 0x70, 0x32, 0x80, 0x01, 0x04, 0xB8];
const CLOB_OF_LENGTH_0: &[u8] = &[0x06, 0x76, 0xD0, 0xCA, 0x00, 0x00];

const ROWS: [Case; 11] = [
    Case {
        letter: 'A',
        description: &[0x05, 0x70, 0x02, 0x00, 0x04],
        row: &[0x2A, 0x00, 0x00, 0x00],
        values: &[Value::Integer(42)],
        external: &[],
        used: 4,
    },
    Case {
        letter: 'B',
        description: SMALL_INT_AND_DECIMAL,
        row: &[0x00, 0x00, 0x2A, 0x00, 0x12, 0x34, 0x5C],
        values: &[Value::SmallInt(42), Value::Decimal("123.45")],
        external: &[],
        used: 7,
    },
    Case {
        letter: 'C',
        description: SMALL_INT_AND_DECIMAL,
        row: &[0xFF, 0x00, 0xFF, 0xFF],
        values: &[Value::Null, Value::Null],
        external: &[],
        used: 4,
    },
    Case {
        letter: 'D',
        description: NULLABLE_INTEGER,
        row: &[0xFF],
        values: &[Value::Null],
        external: &[],
        used: 1,
    },
    Case {
        letter: 'J',
        description: &[
            0x03, 0x78, 0x31, 0x08, 0x70, 0x40, 0x00, 0x00, 0x00, 0x00, 0x25, 0x06, 0x76, 0xD0,
            0x40, 0x00, 0x03,
        ],
        row: &[0x00, 0xC1, 0xC2, 0xC3],
        values: &[Value::Char("ABC")],
        external: &[],
        used: 4,
    },
    Case {
        letter: 'K',
        description: &[0x05, 0x70, 0xC8, 0x80, 0x00],
        row: &[],
        values: &[Value::Blob(&[])],
        external: &[],
        used: 0,
    },
    Case {
        letter: 'L',
        description: &[0x05, 0x70, 0xC8, 0x80, 0x04],
        row: &[0x00, 0x00, 0x00, 0x07],
        values: &[Value::Blob(&[0x00, 0x00, 0x00, 0x07])],
        external: &[0],
        used: 4,
    },
    Case {
        letter: 'M',
        description: HEADER_OF_ONE_BYTE,
        row: &[0x80],
        values: &[Value::Clob("LOB locator 0x80")],
        external: &[0],
        used: 1,
    },
    Case {
        letter: 'N',
        description: HEADER_OF_ONE_BYTE,
        row: &[0x80, 0x00],
        values: &[Value::Clob("LOB locator 0x")],
        external: &[0],
        used: 2,
    },
    Case {
        letter: 'O',
        description: CLOB_OF_LENGTH_0,
        row: &[0x02, 0x00, 0x00, 0x00],
        values: &[Value::Clob("LOB locator 0x02000000")],
        external: &[0],
        used: 4,
    },
    Case {
        letter: 'P',
        description: CLOB_OF_LENGTH_0,
        row: &[0x02, 0, 0, 0, 0, 0, 0, 0, 0],
        values: &[Value::Clob("")],
        external: &[],
        used: 9,
    },
];

#[test]
fn rows() {
    let mut buffers = Buffers::new();
    for case in ROWS {
        let columns = Columns::parse_whole(case.description).unwrap();
        let description = parse_qrydsc(case.description).unwrap();
        assert!(!description.broken_off, "{}", case.letter);
        assert_eq!(description.columns, columns, "{}", case.letter);
        let one_by_one = parse_whole_qrydsc(case.description).unwrap();
        for release in [2, 3] {
            let row = decode_row(case.row, &one_by_one, release).unwrap();
            assert_eq!(row.values, case.values, "{}", case.letter);
            assert_eq!(row.external_columns, case.external, "{}", case.letter);
            assert_eq!(row.used, case.used, "{}", case.letter);

            let row = decode_row_into(case.row, &columns, release, &mut buffers).unwrap();
            let external: Vec<usize> = row.external_columns().collect();
            assert!(row.values().eq(case.values.iter().copied()), "{row:?}");
            assert_eq!(external, case.external, "{}", case.letter);
            assert_eq!(row.used(), case.used, "{}", case.letter);
        }
    }
}

#[test]
fn e_is_too_short() {
    let columns = parse_whole_qrydsc(NULLABLE_INTEGER).unwrap();
    let short = Refusal::BufferTooShort {
        column: 0,
        expected: 1,
        actual: 0,
    };
    for release in [2, 3] {
        assert_eq!(decode_row(&[0xFF, 0xFF], &columns, release), Err(short));
    }
}

#[test]
fn decimals() {
    for (letter, data, scale, text) in [
        ('F', &[0x00, 0x5C][..], 2, "0.05"),
        ('G', &[0x1C], 3, "0.001"),
        ('H', &[0x0D], 0, "-0"),
        ('I', &[0x12, 0x3B], 0, "123"),
    ] {
        let answer = decode_packed_decimal(data, scale);
        assert_eq!(answer.as_deref(), Ok(text), "{letter}");
    }
}
