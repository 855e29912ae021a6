//! The answers of the published Rust. It has no limits of its own: those of the port are applied here. `decode_row` gives the
//! values and the bytes used, `decode_row_body` the external columns. The Rust copies bytes out of the row; where they lay is
//! found by walking over the columns with `decode_column_value`. So are the bytes whose text holds U+FFFD: how many were put in is a second
//! opinion, of `replaced`. Nor has it releases: at release 3 it is asked once more, with the columns of `releases`.
use super::walk::{self, Walk};
use super::{Answer, Early, List, Outcome, ROW_LIMIT};
use crate::descriptions::rust_side::published_type;
use crate::releases::columns::{by_037, other_texts, same_but_texts};
use crate::releases::{self, PORTED};
use crate::replaced::Reading;
use db2_proto::fdoca::{decode_row, exposed, ByteOrder, ColumnDescriptor};
use db2_proto::types::{Db2Type, Db2Value};
use db2_proto::ProtoError;
use port::column::{Column, Order};
use port::value::{Sort, Value};

/// A column as the Rust has it.
pub fn published(column: &Column) -> ColumnDescriptor {
    ColumnDescriptor {
        column_index: usize::from(column.index),
        drda_type: column.code,
        length: column.length,
        precision: column.precision,
        scale: column.scale,
        nullable: column.nullable,
        ccsid: column.ccsid,
        db2_type: published_type(column.db2_type),
        extdta_reference_length: column.reference,
        byte_order: match column.order {
            Order::Big => ByteOrder::BigEndian,
            Order::Little => ByteOrder::LittleEndian,
        },
    }
}

/// The refusal that the release and the limits give, if any, in their order.
fn refused(list: &List, data: &[u8], release: u32) -> Option<u32> {
    match list.refusal {
        _ if !releases::is_known(release) => Some(22),
        Some(Early::TooMany) => Some(3),
        Some(Early::NoColumns) => Some(port::NO_COLUMN_WORDS),
        _ if data.len() > ROW_LIMIT => Some(4),
        Some(Early::DecFloat) => Some(5),
        None => None,
    }
}

/// The answer to a row with room for all values and texts, into an answer that is used again. The columns whose texts are others than the Rust's own, by
/// the release.
pub fn answer_into(list: &List, data: &[u8], release: u32, answer: &mut Answer) -> Vec<usize> {
    if let Some(number) = refused(list, data, release) {
        answer.set(Outcome::Refusal(number));
        return Vec::new();
    }
    decode_into(&list.published, data, answer);
    if release == PORTED || !answer.is_accepted() {
        return Vec::new();
    }
    let Some(columns) = by_037(&list.published, data) else {
        return Vec::new();
    };
    let own = std::mem::take(answer);
    decode_into(&columns, data, answer);
    assert!(
        same_but_texts(&own, answer),
        "by another CCSID only texts are others"
    );
    other_texts(&own, answer)
}

/// The Rust's answer to a row.
fn decode_into(columns: &[ColumnDescriptor], data: &[u8], answer: &mut Answer) {
    let (values, used) = match decode_row(data, columns) {
        Ok(decoded) => decoded,
        Err(ProtoError::BufferTooShort { expected, actual }) => {
            return answer.set(Outcome::TooShort { expected, actual });
        }
        Err(other) => panic!("the Rust refuses a row otherwise: {other}"),
    };
    answer.set(Outcome::Accepted { used, replaced: 0 });
    let (body, _) = exposed::decode_row_body(&data[walk::skip(data)..], columns)
        .expect("decode_row accepts what decode_row_body accepts");
    let mut external = body.extdta_columns.into_iter().peekable();
    let mut walk = Walk::over(columns, data);
    let mut replaced = 0;
    for (column, value) in values.iter().enumerate() {
        let external = external.next_if_eq(&column).is_some();
        let texts = answer.text.len();
        add(answer, value, external, |bytes| {
            place(&mut walk, column, data, external, bytes)
        });
        let held = held_replacements(&answer.text[texts..]);
        if held > 0 {
            let put_in = put_in(&mut walk, column, external);
            assert!(put_in <= held, "what is put in is in the text");
            replaced += put_in;
        }
    }
    assert_eq!(external.next(), None, "external columns in order");
    answer.outcome = Outcome::Accepted { used, replaced };
}

/// How many U+FFFD a text holds, whoever put them in.
fn held_replacements(text: &[u8]) -> usize {
    let parts = text.windows(3);
    parts.filter(|part| *part == "\u{FFFD}".as_bytes()).count()
}

pub fn answer(list: &List, data: &[u8], release: u32) -> Answer {
    let mut answer = Answer::new();
    answer_into(list, data, release, &mut answer);
    answer
}

/// Adds a value's words, and its text; `place` finds where in the row a binary value's bytes lie.
fn add(answer: &mut Answer, value: &Db2Value, external: bool, place: impl FnOnce(&[u8]) -> usize) {
    let bits = |signed: i64| signed as u64;
    let (sort, number, length) = match value {
        Db2Value::Null => (Sort::Null, 0, 0),
        Db2Value::SmallInt(number) => (Sort::SmallInt, bits((*number).into()), 0),
        Db2Value::Integer(number) => (Sort::Integer, bits((*number).into()), 0),
        Db2Value::BigInt(number) => (Sort::BigInt, bits(*number), 0),
        Db2Value::Real(number) if number.is_nan() => (Sort::RealNan, number.to_bits().into(), 0),
        Db2Value::Real(number) => (Sort::Real, number.to_bits().into(), 0),
        Db2Value::Double(number) if number.is_nan() => (Sort::DoubleNan, number.to_bits(), 0),
        Db2Value::Double(number) => (Sort::Double, number.to_bits(), 0),
        Db2Value::Boolean(truth) => (Sort::Boolean, (*truth).into(), 0),
        Db2Value::Decimal(text) => written(&mut answer.text, Sort::Decimal, text),
        Db2Value::Char(text) => written(&mut answer.text, Sort::Char, text),
        Db2Value::VarChar(text) => written(&mut answer.text, Sort::VarChar, text),
        Db2Value::Clob(text) => written(&mut answer.text, Sort::Clob, text),
        Db2Value::RowId(text) => written(&mut answer.text, Sort::RowId, text),
        Db2Value::Date(text) => written(&mut answer.text, Sort::Date, text),
        Db2Value::Time(text) => written(&mut answer.text, Sort::Time, text),
        Db2Value::Timestamp(text) => written(&mut answer.text, Sort::Timestamp, text),
        Db2Value::Xml(text) => written(&mut answer.text, Sort::Xml, text),
        Db2Value::Binary(bytes) => (Sort::Binary, place(bytes) as u64, bytes.len() as u64),
        Db2Value::Blob(bytes) => (Sort::Blob, place(bytes) as u64, bytes.len() as u64),
    };
    let value = Value {
        sort,
        external,
        number,
        length,
    };
    answer.values.extend(value.words());
}

/// Texts lie one behind the other; an empty one names the next unwritten byte.
fn written(texts: &mut Vec<u8>, sort: Sort, text: &str) -> (Sort, u64, u64) {
    let start = texts.len();
    texts.extend_from_slice(text.as_bytes());
    (sort, start as u64, text.len() as u64)
}

/// How many U+FFFD the conversion of a column's text puts in. Where the bytes lie that are converted, and how they are read, goes by the type.
fn put_in(walk: &mut Walk, column: usize, external: bool) -> usize {
    let bytes = walk.taken(column).expect("Null has no text");
    let descriptor = walk.column(column);
    let characters = |bytes| Reading::of_characters(descriptor.ccsid).replaced(bytes);
    let graphics = |bytes| Reading::of_graphics(descriptor.ccsid, bytes).replaced(bytes);
    match descriptor.db2_type {
        // A locator in hexadecimal.
        _ if external => 0,
        Db2Type::Char(_)
        | Db2Type::Date
        | Db2Type::Time
        | Db2Type::Timestamp
        | Db2Type::LobBytes(_)
        | Db2Type::LobChar(_) => characters(bytes),
        Db2Type::VarChar(_) | Db2Type::LongVarChar => characters(&bytes[2..]),
        Db2Type::Graphic(_) => graphics(bytes),
        Db2Type::VarGraphic(_) => graphics(&bytes[2..]),
        // Within the row, behind its length, whatever the CCSID.
        Db2Type::Clob | Db2Type::DbClob | Db2Type::Xml => Reading::Utf8.replaced(&bytes[4..]),
        _ => 0,
    }
}

/// Where in the row the bytes of a column's binary value lie; 0 for none.
fn place(walk: &mut Walk, column: usize, data: &[u8], external: bool, bytes: &[u8]) -> usize {
    if bytes.is_empty() {
        return 0;
    }
    let start = walk.start(column).expect("Null has no bytes");
    // A length stands in front of the bytes: two bytes, or four where a Blob stands in the row itself.
    let length = match walk.column(column).db2_type {
        Db2Type::VarBinary(_) => 2,
        Db2Type::Blob if !external => 4,
        _ => 0,
    };
    let place = start + length;
    assert_eq!(&data[place..place + bytes.len()], bytes);
    place
}

#[cfg(test)]
mod tests {
    use super::*;
    use crate::releases::BY_037;
    use crate::request::{parse, Form, Request};

    /// The row's answer to a request line.
    fn shown(line: &str) -> String {
        let (form, request) = parse(line).unwrap();
        let Request::Row {
            columns,
            data,
            release,
        } = request
        else {
            panic!("no H line");
        };
        answer(&List::numbered(columns), &data, release).shown(form, &data)
    }

    /// What each type adds to the characters replaced: its malformed bytes, and not the host's own U+FFFD.
    #[test]
    fn replaced_by_type() {
        for (column, row, answer) in [
            (
                "Char.4:31:4:0:0:0:1208:-:B",
                "80EFBFBD",
                "OK 4 - 6 1 C:EFBFBDEFBFBD",
            ),
            ("Char.2:31:2:0:0:0:37:-:B", "80C1", "OK 2 - 3 0 C:C39841"),
            (
                "VarChar.9:33:9:0:0:0:1208:-:B",
                "0002E282",
                "OK 4 - 3 1 V:EFBFBD",
            ),
            (
                "LongVarChar:35:9:0:0:0:1208:-:B",
                "00028080",
                "OK 4 - 6 2 V:EFBFBDEFBFBD",
            ),
            (
                "Graphic.4:37:4:0:0:0:1200:-:B",
                "D800FFFD",
                "OK 4 - 6 1 C:EFBFBDEFBFBD",
            ),
            (
                "Graphic.2:37:4:0:0:0:1200:-:L",
                "DC00FFFD",
                "OK 4 - 6 1 C:EFBFBDEFBFBD",
            ),
            (
                "VarGraphic.4:39:4:0:0:0:13488:-:B",
                "0002DC00",
                "OK 4 - 3 1 V:EFBFBD",
            ),
            (
                "Clob:CB:9:0:0:0:37:-:B",
                "0000000280EF",
                "OK 6 - 6 2 K:EFBFBDEFBFBD",
            ),
            (
                "DbClob:CD:9:0:0:0:1200:-:B",
                "0000000380EFBF",
                "OK 7 - 6 2 K:EFBFBDEFBFBD",
            ),
            (
                "Xml:DC:0:0:0:0:0:-:B",
                "00000003EFBFBD",
                "OK 7 - 3 0 X:EFBFBD",
            ),
            (
                "LobChar.2:D1:2:0:0:0:1208:-:B",
                "80EF",
                "OK 2 - 6 2 K:EFBFBDEFBFBD",
            ),
            (
                "LobBytes.3:D1:3:0:0:0:1208:-:B",
                "EFBFBD",
                "OK 3 - 3 0 V:EFBFBD",
            ),
            (
                "LobBytes.2:D1:2:0:0:0:1208:-:B",
                "80EF",
                "OK 2 - 0 0 O:0:80EF",
            ),
            (
                "Time:23:8:0:0:0:1208:-:B",
                "4141414141414180",
                "OK 8 - 10 1 t:41414141414141EFBFBD",
            ),
            ("Binary.1:61:1:0:0:0:1208:-:B", "80", "OK 1 - 0 0 B:0:80"),
        ] {
            assert_eq!(
                shown(&format!("h 2 1 {column}:D R {row}")),
                answer,
                "{column}"
            );
        }
        let two = "h 2 2 Char.1:31:1:0:0:1:1208:-:B:S Clob:CB:9:0:0:0:37:-:B:U R";
        assert_eq!(
            shown(&format!("{two} 00800000000180")),
            "OK 7 - 6 2 C:EFBFBD K:EFBFBD"
        );
        assert_eq!(
            shown(&format!("{two} FF00FF0000000180")),
            "OK 8 - 3 1 N K:EFBFBD"
        );
        assert_eq!(shown(&format!("{two} 008000000001")), "SHORT 5 4");
    }

    #[test]
    fn known_answers() {
        let blob = "H 1 Blob:C8:32768:0:0:0:0:0:L R -";
        assert_eq!(shown(blob), "OK 0 - 0 O:0:-");
        let two = "H 2 SmallInt:05:2:0:0:1:0:-:L SmallInt:05:2:0:0:1:0:-:L R";
        assert_eq!(shown(&format!("{two} FF00002A00")), "SHORT 4 3");
        assert_eq!(shown(&format!("{two} FF00002A000001")), "SHORT 2 1");
        let parts =
            "H 3 Binary.2:60:2:0:0:0:0:-:L VarBinary.2:62:2:0:0:1:0:-:L Blob:C8:9:0:0:0:0:-:L R";
        assert_eq!(
            shown(&format!("{parts} FFFF0102000001070000000155")),
            "OK 13 - 0 B:2:0102 B:7:07 O:12:55"
        );
        assert_eq!(
            shown("H 1 Real:0A:4:0:0:0:0:-:B R FF807FC00001"),
            "OK 6 - 0 F:7FC00001"
        );
    }

    #[test]
    fn the_limits_stand_in_their_order() {
        let column = "DecFloat.16:BA:8:0:0:0:0:-:B";
        let (Form::Shared, Request::Row { columns, .. }) =
            parse(&format!("H 1 {column} R -")).unwrap()
        else {
            panic!("no H line");
        };
        let list = |count: usize| List::numbered(columns.repeat(count));
        let long = vec![0; ROW_LIMIT + 1];
        let odd = |words: usize| List::of_words(vec![0; words]);
        for (list, data, number) in [
            (list(129), &long[..], 3),
            (list(128), &long, 4),
            (list(128), &[], 5),
            (odd(3), &long, 102),
            (odd(259), &long, 3),
        ] {
            for release in [PORTED, BY_037] {
                let refusal = Outcome::Refusal(number);
                assert_eq!(answer(&list, data, release).outcome, refusal);
            }
            for release in [0, 1, 4, 258, 259, u32::MAX] {
                let refusal = Outcome::Refusal(22);
                assert_eq!(answer(&list, data, release).outcome, refusal);
            }
        }
    }

    /// What each type gives for blanks of code page 037 at release 2 and at release 3, by unnamed CCSIDs. Extents and sorts do not go by the release.
    #[test]
    fn unnamed_ccsids_by_release() {
        for (column, row, at_2, at_3) in [
            (
                "Char.1:30:1:0:0:0:273:-:B",
                "40",
                "OK 1 - 1 0 C:40",
                "OK 1 - 1 0 C:20",
            ),
            (
                "Char.2:30:2:0:0:0:1200:-:B",
                "4040",
                "OK 2 - 2 0 C:4040",
                "OK 2 - 2 0 C:2020",
            ),
            (
                "Char.1:30:1:0:0:0:1208:-:B",
                "40",
                "OK 1 - 1 0 C:40",
                "OK 1 - 1 0 C:40",
            ),
            (
                "Char.1:30:1:0:0:0:273:-:B",
                "C1",
                "OK 1 - 1 0 C:41",
                "OK 1 - 1 0 C:41",
            ),
            (
                "VarChar.9:32:9:0:0:0:0:-:B",
                "000140",
                "OK 3 - 1 0 V:40",
                "OK 3 - 1 0 V:20",
            ),
            (
                "LongVarChar:34:9:0:0:0:65535:-:B",
                "000140",
                "OK 3 - 1 0 V:40",
                "OK 3 - 1 0 V:20",
            ),
            (
                "Graphic.1:36:1:0:0:0:1200:-:B",
                "40",
                "OK 1 - 1 0 C:40",
                "OK 1 - 1 0 C:20",
            ),
            (
                "Graphic.2:36:2:0:0:0:1200:-:B",
                "0040",
                "OK 2 - 1 0 C:40",
                "OK 2 - 1 0 C:40",
            ),
            (
                "Graphic.1:36:1:0:0:0:1200:-:L",
                "0040",
                "OK 2 - 1 0 C:40",
                "OK 2 - 1 0 C:40",
            ),
            (
                "Graphic.2:36:2:0:0:0:300:-:B",
                "4040",
                "OK 2 - 2 0 C:4040",
                "OK 2 - 2 0 C:2020",
            ),
            (
                "VarGraphic.9:38:9:0:0:0:13488:-:L",
                "000140",
                "OK 3 - 1 0 V:40",
                "OK 3 - 1 0 V:20",
            ),
            (
                "VarGraphic.9:38:9:0:0:0:1200:-:L",
                "00010040",
                "OK 4 - 1 0 V:40",
                "OK 4 - 1 0 V:40",
            ),
            (
                "VarGraphic.9:38:9:0:0:0:1200:-:B",
                "00020040",
                "OK 4 - 1 0 V:40",
                "OK 4 - 1 0 V:40",
            ),
            (
                "LobChar.1:51:1:0:0:0:0:-:B",
                "40",
                "OK 1 - 1 0 K:40",
                "OK 1 - 1 0 K:20",
            ),
            (
                "LobBytes.1:50:1:0:0:0:0:-:B",
                "40",
                "OK 1 - 1 0 V:40",
                "OK 1 - 1 0 V:20",
            ),
            (
                "LobBytes.1:50:1:0:0:0:0:-:B",
                "25",
                "OK 1 - 1 0 V:25",
                "OK 1 - 1 0 V:0A",
            ),
            (
                "LobBytes.1:50:1:0:0:0:0:-:B",
                "C1",
                "OK 1 - 0 0 O:0:C1",
                "OK 1 - 0 0 O:0:C1",
            ),
            (
                "Time:22:8:0:0:0:0:-:B",
                "4040404040404040",
                "OK 8 - 8 0 t:4040404040404040",
                "OK 8 - 8 0 t:2020202020202020",
            ),
            (
                "Clob:CA:9:0:0:0:0:-:B",
                "0000000140",
                "OK 5 - 1 0 K:40",
                "OK 5 - 1 0 K:40",
            ),
            (
                "DbClob:CC:9:0:0:0:1200:-:B",
                "0000000140",
                "OK 5 - 1 0 K:40",
                "OK 5 - 1 0 K:40",
            ),
            (
                "Xml:DC:0:0:0:0:273:-:B",
                "0000000140",
                "OK 5 - 1 0 X:40",
                "OK 5 - 1 0 X:40",
            ),
            ("Char.2:30:2:0:0:0:273:-:B", "40", "SHORT 2 1", "SHORT 2 1"),
        ] {
            for (release, wanted) in [(PORTED, at_2), (BY_037, at_3)] {
                let line = format!("h {release} 1 {column}:U R {row}");
                assert_eq!(shown(&line), wanted, "{line}");
            }
            assert_eq!(shown(&format!("h 4 1 {column}:U R {row}")), "REFUSE22");
        }
    }

    /// A SmallInt by its words: with each of three origins it is the same column to a row, and the number 3 is no origin.
    #[test]
    fn origins_by_the_words() {
        let of_word = |word: u64| answer(&List::of_words(vec![word, 0]), &[0, 42], PORTED);
        let plain = of_word(0);
        assert_eq!(plain.shown(Form::Shared, &[]), "OK 2 - 0 S:42");
        assert_eq!(
            [1, 2].map(|origin| of_word(origin << 51)),
            [(); 2].map(|()| plain.clone())
        );
        for word in (53..64).map(|bit| 1 << bit).chain([3 << 51]) {
            assert_eq!(of_word(word).outcome, Outcome::Refusal(102), "{word:X}");
        }
    }
}
