//! The host's release: what goes by it, what does not, and what is refused.
mod common;

use common::{all_sorts, some_column, some_row, Random, VALUES};
use std::mem::discriminant;
use vejupa::raw::{self, RowAnswer, TextAnswer, ACCEPTED};
use vejupa::{
    decode_character_bytes, decode_character_bytes_into, decode_graphic_bytes,
    decode_graphic_bytes_into, decode_row, decode_row_into, Buffers, Column, Columns, Db2Type,
    OwnedRow, Refusal, Rows, Value, MAX_INPUT,
};

/// A CCSID that the library does not know.
const UNKNOWN: u16 = 1047;

/// Numbers that are no releases: those around the two, and such as would be one if only their lowest bits were kept.
const NO_RELEASES: [u32; 12] = [
    0,
    1,
    4,
    255,
    256,
    258,
    259,
    65_538,
    65_539,
    0x0100_0002,
    0x8000_0003,
    u32::MAX,
];

fn column(db2_type: Db2Type, ccsid: u16) -> Column {
    Column::new(db2_type).with_ccsid(ccsid)
}

fn characters(data: &[u8], ccsid: u16, release: u32) -> String {
    let made = decode_character_bytes(data, ccsid, release).unwrap();
    assert_eq!(made.replaced, 0);
    made.text
}

fn graphics(data: &[u8], ccsid: u16, release: u32) -> String {
    let made = decode_graphic_bytes(data, ccsid, release).unwrap();
    assert_eq!(made.replaced, 0);
    made.text
}

/// Of all CCSIDs: those that are not known, as characters, and as graphics where they are not UTF-16.
#[test]
fn which_ccsids_go_by_the_release() {
    for ccsid in 0..=u16::MAX {
        for release in [2, 3] {
            let is_037 = match ccsid {
                37 | 500 => true,
                819 | 1208 => false,
                _ => release == 3,
            };
            let blank = if is_037 { " " } else { "@" };
            assert_eq!(characters(b"@", ccsid, release), blank, "{ccsid}");
            assert_eq!(characters(b"@@", ccsid, release), blank.repeat(2));
            // An odd number of bytes is no UTF-16.
            assert_eq!(graphics(b"@", ccsid, release), blank, "{ccsid}");
            assert_eq!(graphics(b"@@@", ccsid, release), blank.repeat(3));
            let unit = match ccsid {
                1200 | 13488 => "K",
                _ if is_037 => "\0.",
                _ => "\0K",
            };
            assert_eq!(graphics(b"\0K", ccsid, release), unit, "{ccsid}");
        }
    }
}

/// At release 3 as in 37. At 2 as it is below 0x80, else as in 37, with all that stands beside it.
#[test]
fn every_byte() {
    for byte in 0..=u8::MAX {
        let data = [0x40, byte];
        let named = characters(&data, 37, 2);
        assert_eq!(characters(&data, 37, 3), named);
        assert_eq!(characters(&data, UNKNOWN, 3), named);
        let guessed = match byte {
            0..=0x7F => String::from_utf8(data.to_vec()).unwrap(),
            _ => named,
        };
        assert_eq!(characters(&data, UNKNOWN, 2), guessed);
    }
}

/// Short and long texts take different ways, and so do buffers of the text's length and such as hold any text.
#[test]
fn texts_of_every_length() {
    let mut room = vec![0; 3 * 5000 + 14];
    for length in (0..=130).chain([1023, 1024, 1025, 2047, 2048, 2049, 5000]) {
        let mut data = vec![0x40; length];
        for (release, blank) in [(2, "@"), (3, " ")] {
            for ccsid in [UNKNOWN, 1200] {
                let text = blank.repeat(length);
                assert_eq!(characters(&data, ccsid, release), text);
                for more in [0, 2 * length + 14] {
                    let room = &mut room[..length + more];
                    let made = decode_character_bytes_into(&data, ccsid, release, room);
                    assert_eq!(made.unwrap().text, text);
                }
                if ccsid == UNKNOWN || length % 2 == 1 {
                    assert_eq!(graphics(&data, ccsid, release), text);
                    let made = decode_graphic_bytes_into(&data, ccsid, release, &mut room);
                    assert_eq!(made.unwrap().text, text);
                }
            }
        }
        // One byte above 0x7F, and the guess is code page 037 too.
        if let Some(last) = data.last_mut() {
            *last = 0xC1;
            let text = " ".repeat(length - 1) + "A";
            for release in [2, 3] {
                assert_eq!(characters(&data, UNKNOWN, release), text);
                assert_eq!(graphics(&data, UNKNOWN, release), text);
            }
        }
    }
}

/// A column, its bytes in a row, and its text at release 2 and at release 3; None where it is no text.
struct Field {
    column: Column,
    bytes: &'static [u8],
    texts: Option<[&'static str; 2]>,
}

fn field(
    ty: Db2Type,
    ccsid: u16,
    bytes: &'static [u8],
    at_2: &'static str,
    at_3: &'static str,
) -> Field {
    Field {
        // A Timestamp has so many bytes, and a LOB of any length but 0 may lie within the row. Others have no part in it.
        column: column(ty, ccsid).with_length(2),
        bytes,
        texts: Some([at_2, at_3]),
    }
}

fn no_text(ty: Db2Type, ccsid: u16, bytes: &'static [u8]) -> Field {
    Field {
        texts: None,
        ..field(ty, ccsid, bytes, "", "")
    }
}

fn fields() -> Vec<Field> {
    use Db2Type::*;
    let locator = "LOB locator 0x40404040";
    let decimal = Decimal {
        precision: 3,
        scale: 0,
    };
    vec![
        // By CCSID, and the CCSID is not known.
        field(Char(2), UNKNOWN, b"@K", "@K", " ."),
        field(Char(2), 0, b"@K", "@K", " ."),
        field(Char(2), 1200, b"@K", "@K", " ."),
        field(Char(2), 13488, b"@K", "@K", " ."),
        field(VarChar(9), UNKNOWN, b"\0\x02@K", "@K", " ."),
        field(LongVarChar, UNKNOWN, b"\0\x02@K", "@K", " ."),
        field(Date, 0, b"@@@@@@@@@K", "@@@@@@@@@K", "         ."),
        field(Time, 0, b"@@@@@@@K", "@@@@@@@K", "       ."),
        field(Timestamp, 0, b"@K", "@K", " ."),
        field(Graphic(2), UNKNOWN, b"@K", "@K", " ."),
        field(VarGraphic(9), UNKNOWN, b"\0\x02@K", "@K", " ."),
        field(LobChar(2), UNKNOWN, b"@K", "@K", " ."),
        // A graphic text of an odd number of bytes is no UTF-16.
        field(Graphic(1), 1200, b"@", "@", " "),
        field(Graphic(3), 13488, b"@@K", "@@K", "  ."),
        field(VarGraphic(9), 1200, b"\0\x03@@K", "@@K", "  ."),
        // With a byte above 0x7F the guess is code page 037 too.
        field(Char(2), UNKNOWN, b"@\xC1", " A", " A"),
        // Whether bytes are likely text goes by the bytes alone; what becomes of them, by CCSID and release.
        field(LobBytes(2), UNKNOWN, b"@K", "@K", " ."),
        field(LobBytes(2), UNKNOWN, b"\xC3\xA9", "Cz", "Cz"),
        field(LobBytes(2), 1208, b"@K", "@K", "@K"),
        field(LobBytes(2), 37, b"@K", " .", " ."),
        no_text(LobBytes(2), UNKNOWN, b"\0@"),
        no_text(LobBytes(2), UNKNOWN, b"@\xC1"),
        // By CCSID, and it is known, or UTF-16.
        field(Char(2), 1208, b"@K", "@K", "@K"),
        field(Char(2), 819, b"@K", "@K", "@K"),
        field(Char(2), 37, b"@K", " .", " ."),
        field(Char(2), 500, b"@K", " .", " ."),
        field(LobChar(2), 1208, b"@K", "@K", "@K"),
        field(Graphic(2), 1200, b"\0K", "K", "K"),
        field(VarGraphic(9), 13488, b"\0\x02\0K", "K", "K"),
        // UTF-8: the texts of LOBs within the row.
        field(Clob, UNKNOWN, b"\0\0\0\x02@K", "@K", "@K"),
        field(Clob, 37, b"\0\0\0\x02@K", "@K", "@K"),
        field(DbClob, 1200, b"\0\0\0\x02@K", "@K", "@K"),
        field(Xml, UNKNOWN, b"\0\0\0\x02@K", "@K", "@K"),
        // By no CCSID.
        field(ClobLocator, UNKNOWN, b"@@@@", locator, locator),
        field(VarChar(0x8001), UNKNOWN, b"\x80\x04@@@@", locator, locator),
        field(RowId(2), UNKNOWN, b"@K", "0x404B", "0x404B"),
        field(decimal, UNKNOWN, b"\x40\x4C", "404", "404"),
        no_text(Binary(2), UNKNOWN, b"@K"),
        no_text(Blob, UNKNOWN, b"\0\0\0\x02@K"),
        no_text(Integer, UNKNOWN, b"\0\0\0@"),
        no_text(Boolean, UNKNOWN, b"@@"),
    ]
}

/// Each by itself: its text, and beside that the same at both releases.
#[test]
fn fields_of_rows() {
    for (k, field) in fields().into_iter().enumerate() {
        let rows = [2, 3].map(|release| decode_row(field.bytes, &[field.column], release).unwrap());
        let texts = [0, 1].map(|k| rows[k].values[0].as_str());
        match field.texts {
            Some(expected) => assert_eq!(texts, expected.map(Some), "field {k}"),
            None => assert_eq!(texts, [None, None], "field {k}"),
        }
        let sorts = [0, 1].map(|k| discriminant(&rows[k].values[0]));
        assert_eq!(sorts[0], sorts[1], "field {k}");
        if texts[0] == texts[1] {
            assert_eq!(rows[0], rows[1], "field {k}");
        }
        for row in rows {
            assert_eq!(
                (row.used, row.replaced),
                (field.bytes.len(), 0),
                "field {k}"
            );
        }
    }
}

/// All of them as one row, through every form of the call.
#[test]
fn a_row_of_all_fields() {
    let fields = fields();
    let columns: Vec<Column> = fields.iter().map(|field| field.column).collect();
    let bytes: Vec<u8> = fields
        .iter()
        .flat_map(|field| field.bytes)
        .copied()
        .collect();
    let packed = Columns::from(&columns[..]);
    let mut buffers = Buffers::new();
    for (k, release) in [2, 3].into_iter().enumerate() {
        let texts = fields.iter().map(|field| field.texts.map(|texts| texts[k]));
        let row = decode_row_into(&bytes, &packed, release, &mut buffers).unwrap();
        assert!(
            row.values().map(|value| value.as_str()).eq(texts),
            "{row:?}"
        );
        assert_eq!(row.used(), bytes.len());
        assert_eq!(
            packed.decode_row(&bytes, release).unwrap(),
            row.into_owned()
        );
        assert_eq!(
            decode_row(&bytes, &columns, release).unwrap(),
            row.into_owned()
        );
    }
}

/// ASCII of CCSID 0, as the recorded server's CHAR has it: right at release 2, and wrong at 3. With a CCSID it is right at both.
#[test]
fn a_wrong_release_is_not_refused() {
    let text = |ccsid, release| {
        let columns = [column(Db2Type::VarGraphic(8), ccsid)];
        let row = decode_row(b"\0\x06HERATI", &columns, release).unwrap();
        row.values[0].as_str().unwrap().to_string()
    };
    assert_eq!(text(0, 2), "HERATI");
    assert_eq!(text(0, 3), "çáê\u{A0}èñ");
    assert_eq!(
        (text(1208, 2), text(1208, 3)),
        ("HERATI".into(), "HERATI".into())
    );
}

/// The rows of a block, each by the release that was stated for all.
#[test]
fn rows_of_a_block() {
    let columns = Columns::from([column(Db2Type::Char(2), UNKNOWN)]);
    let block = b"\xFF\0@@\xFF\0@K";
    for (release, texts) in [(2, ["@@", "@K"]), (3, ["  ", " ."])] {
        let rows: Result<Vec<OwnedRow>, Refusal> = Rows::new(block, &columns, release).collect();
        let rows = rows.unwrap();
        assert_eq!(rows.len(), 2);
        for (row, text) in rows.iter().zip(texts) {
            assert_eq!(row.values, [Value::Char(text)]);
        }
        let mut rows = Rows::with_buffers(block, &columns, release, Buffers::new());
        for text in texts {
            assert_eq!(
                rows.next_row().unwrap().unwrap().value(0),
                Value::Char(text)
            );
        }
        assert!(rows.next_row().is_none());
    }
}

/// What a CCSID that is not known is at release 3.
fn known(column: Column) -> Column {
    match column.ccsid {
        37 | 500 | 819 | 1208 => column,
        _ => column.with_ccsid(37),
    }
}

/// Whether its CCSID may say UTF-16.
fn is_utf16(column: &Column) -> bool {
    let is_graphic = matches!(
        column.db2_type,
        Db2Type::Graphic(_) | Db2Type::VarGraphic(_)
    );
    is_graphic && matches!(column.ccsid, 1200 | 13488)
}

/// What the plain call gives: its numbers, the values' words and the texts.
fn plain(row: &[u8], columns: &[Column], release: u32) -> (RowAnswer, Vec<u64>, Vec<u8>) {
    let columns = Columns::from(columns);
    let mut values = vec![0; 3 * columns.len()];
    let mut text = vec![0; 3 * row.len() + 258 * columns.len()];
    let answer = raw::decode_row(columns.words(), row, release, &mut values, &mut text);
    text.truncate(answer.text_length);
    (answer, values, text)
}

/// Rows at random. At release 3 they are as with CCSID 37 in place of one that is not known, at either release. But for texts they are as at
/// release 2: in what is refused, in the bytes used, in the values' sorts and what is external, in all that is no text.
#[test]
fn some_rows() {
    let mut random = Random(0x9E37_79B9_7F4A_7C15);
    let (mut refused, mut other_texts) = (0, 0);
    for _ in 0..20_000 {
        let count = 1 + random.below(9);
        let columns: Vec<Column> = (0..count).map(|_| some_column(&mut random)).collect();
        let mut row = some_row(&mut random);
        if random.below(2) == 0 {
            // The guess is ASCII then.
            row.iter_mut().for_each(|byte| *byte &= 0x7F);
        }
        let at_3 = plain(&row, &columns, 3);
        if !columns.iter().any(is_utf16) {
            let columns: Vec<Column> = columns.iter().copied().map(known).collect();
            assert_eq!(plain(&row, &columns, 2), at_3);
            assert_eq!(plain(&row, &columns, 3), at_3);
        }
        let (answer_3, values_3, text_3) = at_3;
        let (answer_2, values_2, text_2) = plain(&row, &columns, 2);
        let text_length = answer_3.text_length;
        assert_eq!(
            RowAnswer {
                text_length,
                ..answer_2
            },
            answer_3
        );
        for (one, other) in values_2.chunks(3).zip(values_3.chunks(3)) {
            assert_eq!(one[0], other[0]);
            let is_text = matches!(one[0] & 0xFF, 8..=10 | 13..=17 | 19);
            assert!(is_text || one == other);
        }
        refused += usize::from(answer_3.number != ACCEPTED);
        other_texts += usize::from(text_2 != text_3);
    }
    assert!(
        refused > 1000 && other_texts > 500,
        "{refused} {other_texts}"
    );
}

/// A conversion and a row, through every form of the calls: refused, whatever the columns.
#[test]
fn no_releases() {
    let (columns, bytes) = all_sorts();
    let packed = Columns::from(&columns[..]);
    let mut buffers = Buffers::new();
    let mut text = [0xA5; 8];
    for release in NO_RELEASES {
        let refused = Refusal::UnknownRelease;
        for ccsid in [0, 37, 500, 819, UNKNOWN, 1200, 1208, 13488] {
            for data in [&b"@@"[..], b"", b"@"] {
                assert_eq!(decode_character_bytes(data, ccsid, release), Err(refused));
                assert_eq!(decode_graphic_bytes(data, ccsid, release), Err(refused));
                let made = decode_character_bytes_into(data, ccsid, release, &mut text);
                assert_eq!(made, Err(refused));
                let made = decode_graphic_bytes_into(data, ccsid, release, &mut text);
                assert_eq!(made, Err(refused));
            }
        }
        assert_eq!(text, [0xA5; 8]);
        assert_eq!(decode_row(&bytes, &columns, release), Err(refused));
        assert_eq!(decode_row(&[], &[], release), Err(refused));
        let integer = [Column::new(Db2Type::Integer)];
        assert_eq!(decode_row(&[0; 4], &integer, release), Err(refused));
        assert_eq!(packed.decode_row(&bytes, release), Err(refused));
        let row = decode_row_into(&bytes, &packed, release, &mut buffers);
        assert_eq!(row.map(|row| row.used()), Err(refused));

        let mut rows = Rows::new(&bytes, &packed, release);
        assert_eq!(rows.next(), Some(Err(refused)));
        assert_eq!((rows.next(), rows.rest()), (None, &bytes[..]));
        // Nothing is left to read, and nothing is asked of the library.
        assert_eq!(Rows::new(&[], &packed, release).next(), None);
    }
    // The buffers serve the next row.
    let row = decode_row_into(&bytes, &packed, 2, &mut buffers).unwrap();
    assert!(row.values().eq(VALUES));
}

/// Before 3, 4 and 5, and before what a row lacks.
#[test]
fn an_unknown_release_comes_first() {
    let integer = Column::new(Db2Type::Integer);
    let dec_float = Column::new(Db2Type::DecFloat(16));
    let long = vec![0; MAX_INPUT + 1];
    for release in NO_RELEASES {
        let refused = Refusal::UnknownRelease;
        assert_eq!(decode_row(&[], &[integer; 129], release), Err(refused));
        assert_eq!(decode_row(&long, &[dec_float], release), Err(refused));
        assert_eq!(decode_row(&[], &[dec_float], release), Err(refused));
        assert_eq!(decode_row(&[1, 2, 3], &[integer], release), Err(refused));
        assert_eq!(decode_character_bytes(&long, 37, release), Err(refused));
        assert_eq!(decode_graphic_bytes(&long, 1200, release), Err(refused));
    }
    for release in [2, 3] {
        let numbers = [
            decode_row(&[], &[integer; 129], release).unwrap_err(),
            decode_row(&long, &[dec_float], release).unwrap_err(),
            decode_row(&[], &[dec_float], release).unwrap_err(),
            decode_row(&[1, 2, 3], &[integer], release).unwrap_err(),
            decode_character_bytes(&long, 37, release).unwrap_err(),
            decode_graphic_bytes(&long, 1200, release).unwrap_err(),
        ];
        assert_eq!(numbers.map(Refusal::number), [3, 4, 5, 8, 4, 4]);
    }
}

/// Through the plain calls: before 101 and 102 too, every number is 0, and nothing lent is changed.
#[test]
fn a_refusal_changes_no_buffer() {
    let text_refused = TextAnswer {
        number: 22,
        text_length: 0,
        replaced: 0,
    };
    let row_refused = RowAnswer {
        number: 22,
        used: 0,
        text_length: 0,
        replaced: 0,
        expected: 0,
        actual: 0,
    };
    let words = Columns::from([
        column(Db2Type::Char(2), UNKNOWN),
        column(Db2Type::VarChar(9), 1208),
    ]);
    let words = words.words();
    let many = Columns::from(vec![column(Db2Type::Char(2), UNKNOWN); 129]);
    let no_column = [words[0] | 1 << 63, words[1]];
    let row = b"@@\0\x01\x80";
    let long = vec![0x40; MAX_INPUT + 1];
    let mut values = [7; 6];
    let mut text = [7; 16];
    for release in NO_RELEASES {
        for data in [&row[..], &[], &long] {
            for room in [0, 1, text.len()] {
                let text = &mut text[..room];
                let answer = raw::decode_character_bytes(data, UNKNOWN, release, text);
                assert_eq!(answer, text_refused);
                let answer = raw::decode_graphic_bytes(data, 1200, release, text);
                assert_eq!(answer, text_refused);
                // Good columns, none, an odd number of words, what is no column, too many.
                for words in [words, &[], &words[..3], &no_column, many.words()] {
                    for room in [0, 2, 3, 6] {
                        let values = &mut values[..room];
                        let answer = raw::decode_row(words, data, release, values, text);
                        assert_eq!(answer, row_refused);
                    }
                }
            }
        }
    }
    assert!(values == [7; 6] && text == [7; 16]);

    // What these are without it.
    let mut number = |words: &[u64], data: &[u8], room: usize, text: &mut [u8]| {
        raw::decode_row(words, data, 3, &mut values[..room], text).number
    };
    assert_eq!(number(many.words(), row, 0, &mut text), 3);
    assert_eq!(number(words, row, 5, &mut text), raw::TOO_FEW_WORDS);
    assert_eq!(number(&words[..3], row, 6, &mut text), raw::NO_COLUMN);
    assert_eq!(number(&no_column, row, 6, &mut text), raw::NO_COLUMN);
    assert_eq!(number(words, &long, 6, &mut text), 4);
    assert_eq!(
        number(words, &row[..1], 6, &mut text),
        raw::BUFFER_TOO_SHORT
    );
    assert_eq!(
        number(words, row, 6, &mut text[..1]),
        raw::TEXT_BUFFER_TOO_SHORT
    );
    assert_eq!(number(words, row, 6, &mut text), ACCEPTED);
    assert_eq!(&text[..5], "  \u{FFFD}".as_bytes());
}
