//! What values, types, columns, rows and refusals look like.
mod common;

use common::VALUES;
use vejupa::{
    decode_row, decode_row_into, parse_qrydsc, parse_whole_qrydsc, Buffers, Column, Columns,
    Db2Type, Origin, Refusal, Rows, Value,
};

#[test]
fn values_as_text() {
    for (value, text) in [
        (Value::Null, "null"),
        (Value::SmallInt(-2), "-2"),
        (Value::Integer(7), "7"),
        (Value::BigInt(i64::MIN), "-9223372036854775808"),
        (Value::Real(1.5), "1.5"),
        (Value::Double(-0.0), "-0"),
        (Value::Double(f64::NAN), "NaN"),
        (Value::Decimal("-0.05"), "-0.05"),
        (Value::Char("ab  "), "ab  "),
        (Value::VarChar("é"), "é"),
        (Value::Binary(&[0x8B, 0x1A]), "8B1A"),
        (Value::Blob(&[]), ""),
        (Value::Clob("LOB locator 0x80"), "LOB locator 0x80"),
        (Value::RowId("0x0ABC"), "0x0ABC"),
        (Value::Date("2026-03-02"), "2026-03-02"),
        (Value::Time("13.45.00"), "13.45.00"),
        (Value::Timestamp("2026-03-02-13.45"), "2026-03-02-13.45"),
        (Value::Boolean(true), "true"),
        (Value::Xml("<a/>"), "<a/>"),
    ] {
        assert_eq!(value.to_string(), text);
        assert_eq!(value.into_owned().to_string(), text);
    }
}

/// Numbers stand to the right, all else to the left, as with Rust's own types.
#[test]
fn values_with_a_width() {
    for (value, padded) in [
        (Value::Null, "null  |  null| null |*null*"),
        (Value::SmallInt(-2), "    -2|    -2|  -2  |**-2**"),
        (Value::Integer(7), "     7|     7|  7   |**7***"),
        (Value::BigInt(123), "   123|   123| 123  |*123**"),
        (Value::Real(1.5), "   1.5|   1.5| 1.5  |*1.5**"),
        (Value::Double(1.5), "   1.5|   1.5| 1.5  |*1.5**"),
        (Value::Decimal("1.50"), "  1.50|  1.50| 1.50 |*1.50*"),
        (Value::Decimal("-0.5"), "  -0.5|  -0.5| -0.5 |*-0.5*"),
        (Value::Char("ab"), "ab    |    ab|  ab  |**ab**"),
        (Value::VarChar("é"), "é     |     é|  é   |**é***"),
        (Value::Binary(&[0x8B]), "8B    |    8B|  8B  |**8B**"),
        (Value::Blob(&[0x8B]), "8B    |    8B|  8B  |**8B**"),
        (Value::Clob("ab"), "ab    |    ab|  ab  |**ab**"),
        (Value::RowId("0x0A"), "0x0A  |  0x0A| 0x0A |*0x0A*"),
        (Value::Date("2026"), "2026  |  2026| 2026 |*2026*"),
        (Value::Time("13"), "13    |    13|  13  |**13**"),
        (Value::Timestamp("20"), "20    |    20|  20  |**20**"),
        (Value::Boolean(true), "true  |  true| true |*true*"),
        (Value::Xml("<a/>"), "<a/>  |  <a/>| <a/> |*<a/>*"),
    ] {
        assert_eq!(
            format!("{value:6}|{value:>6}|{value:^6}|{value:*^6}"),
            padded
        );
        let owned = value.into_owned();
        assert_eq!(
            format!("{owned:6}|{owned:>6}|{owned:^6}|{owned:*^6}"),
            padded
        );
    }
    for value in VALUES {
        assert_eq!(format!("{value:1}"), value.to_string());
    }
}

#[test]
fn values_with_other_flags() {
    assert_eq!(format!("{:06}", Value::Integer(-7)), "-00007");
    assert_eq!(format!("{:06}", Value::Decimal("-7.5")), "-007.5");
    assert_eq!(format!("{:+}", Value::Decimal("7.5")), "+7.5");
    assert_eq!(format!("{:.2}", Value::Double(1.005)), "1.00");
    assert_eq!(format!("{:7.1}", Value::Real(2.25)), "    2.2");
    assert_eq!(format!("{:.1}", Value::Decimal("7.55")), "7.55");
    // A precision cuts nothing but floats.
    assert_eq!(format!("{:.2}", Value::Char("abc")), "abc");
    assert_eq!(format!("{:6.2}|", Value::Binary(&[0x8B, 0x1A])), "8B1A  |");
    assert_eq!(format!("{:>6.2}|", Value::Null), "  null|");
    assert_eq!(format!("{:.2}", Value::Boolean(true)), "true");
}

#[test]
fn values_for_a_programmer() {
    for (value, shown) in [
        (Value::Null, "Null"),
        (Value::SmallInt(-2), "SmallInt(-2)"),
        (Value::Integer(7), "Integer(7)"),
        (Value::BigInt(7), "BigInt(7)"),
        (Value::Real(1.0), "Real(1.0)"),
        (Value::Double(1.0), "Double(1.0)"),
        (Value::Decimal("1.50"), "Decimal(\"1.50\")"),
        (Value::Char("a\t"), "Char(\"a\\t\")"),
        (Value::VarChar("é"), "VarChar(\"é\")"),
        (Value::Binary(&[0x8B, 0x1A]), "Binary(X'8B1A')"),
        (Value::Blob(&[]), "Blob(X'')"),
        (Value::Clob("a"), "Clob(\"a\")"),
        (Value::RowId("0x0A"), "RowId(\"0x0A\")"),
        (Value::Date("2026"), "Date(\"2026\")"),
        (Value::Time("13"), "Time(\"13\")"),
        (Value::Timestamp("20"), "Timestamp(\"20\")"),
        (Value::Boolean(false), "Boolean(false)"),
        (Value::Xml("<a/>"), "Xml(\"<a/>\")"),
    ] {
        assert_eq!(format!("{value:?}"), shown);
        assert_eq!(format!("{:?}", value.into_owned()), shown);
    }
}

#[test]
fn many_bytes_are_shortened_for_a_programmer() {
    let bytes = [0xAB; 65];
    let all = format!("Blob(X'{}')", "AB".repeat(64));
    assert_eq!(format!("{:?}", Value::Blob(&bytes[..64])), all);
    let first = format!("Blob(X'{}..' of 65 bytes)", "AB".repeat(64));
    assert_eq!(format!("{:?}", Value::Blob(&bytes)), first);
    assert_eq!(Value::Blob(&bytes).to_string(), "AB".repeat(65));
}

#[test]
fn types() {
    let decimal = Db2Type::Decimal {
        precision: 5,
        scale: 2,
    };
    assert_eq!(decimal.to_string(), "Decimal(5,2)");
    assert_eq!(Db2Type::Char(8).to_string(), "Char(8)");
    assert_eq!(Db2Type::Integer.to_string(), "Integer");
    assert_eq!(
        format!("{decimal:14}|{:>9}|{:-^9}|", Db2Type::Char(8), Db2Type::Xml),
        "Decimal(5,2)  |  Char(8)|---Xml---|"
    );
}

#[test]
fn origins() {
    for (origin, text) in [
        (Origin::Sda, "SDA"),
        (Origin::UndeclaredLid, "undeclared LID"),
        (Origin::DeclaredLid, "declared LID"),
    ] {
        assert_eq!(origin.to_string(), text);
        assert_eq!(
            format!("{origin:16}|{origin:>16}|{origin:-^17}|{origin:.2}"),
            format!("{text:16}|{text:>16}|{text:-^17}|{text}")
        );
    }
}

#[test]
fn refusals() {
    let all = [
        Refusal::QrydscTooLong,
        Refusal::TooManyColumns,
        Refusal::CountTooLarge,
        Refusal::InputTooLong,
        Refusal::DecFloatColumn,
        Refusal::DecimalEmpty,
        Refusal::DecimalTooLong,
        Refusal::BufferTooShort {
            column: 2,
            expected: 4,
            actual: 3,
        },
        Refusal::TextBufferTooShort { needed: 4 },
        Refusal::DecimalDigit,
        Refusal::DecimalSign,
        Refusal::DecimalOutOfRange,
        Refusal::QrydscBrokenOff,
        Refusal::UnknownRelease,
    ];
    for (number, refusal) in (1..=9).chain(12..=15).chain([22]).zip(all) {
        let text = refusal.to_string();
        assert_eq!(refusal.number(), number);
        assert!(text.starts_with(&format!("refusal {number}: ")), "{text}");
        assert_eq!(format!("{refusal:90}|"), format!("{text:90}|"));
        assert_eq!(format!("{refusal:>90}|"), format!("{text:>90}|"));
        assert_eq!(format!("{refusal:.9}"), text);
    }
    assert_eq!(
        all[7].to_string(),
        "refusal 8: too short in column 2: 4 bytes expected, 3 there"
    );
    assert_eq!(
        all[8].to_string(),
        "refusal 9: the text buffer is too short: 4 bytes needed"
    );
    assert_eq!(
        all[9].to_string(),
        "refusal 12: a packed decimal with a digit above 9"
    );
    assert_eq!(
        all[10].to_string(),
        "refusal 13: a packed decimal with a sign below A"
    );
    assert_eq!(
        all[11].to_string(),
        "refusal 14: a packed decimal that no signed number of 64 bits holds"
    );
    assert_eq!(
        all[12].to_string(),
        "refusal 15: the description breaks off"
    );
    assert_eq!(
        all[13].to_string(),
        "refusal 22: a host release that is neither 2 nor 3"
    );
}

#[test]
fn lists_of_columns() {
    let columns = [Column::new(Db2Type::Integer), Column::new(Db2Type::Date)];
    let list = format!("[{:?}, {:?}]", columns[0], columns[1]);
    let packed = Columns::from(&columns[..]);
    assert!(list.contains("db2_type: Date"), "{list}");
    assert!(list.contains("origin: Sda"), "{list}");
    assert_eq!(format!("{packed:?}"), list);
    assert_eq!(format!("{:?}", packed.iter()), list);
    let mut left = packed.into_iter();
    left.next();
    assert_eq!(format!("{left:?}"), format!("[{:?}]", columns[1]));
}

#[test]
fn descriptions() {
    let cut_off = parse_qrydsc(&DESCRIPTION[..1]).unwrap();
    assert_eq!(
        format!("{cut_off:?}"),
        "Description { columns: [], broken_off: true }"
    );
    let whole = parse_qrydsc(DESCRIPTION).unwrap();
    let shown = format!("{whole:?}");
    assert!(shown.contains("db2_type: Blob"), "{shown}");
    assert!(shown.ends_with("], broken_off: false }"), "{shown}");
}

const DESCRIPTION: &[u8] = &[
    0x0C, 0x76, 0xD0, 0x05, 0x00, 0x02, 0x60, 0x00, 0x02, 0xC8, 0x80, 0x04,
];
const ROW: &[u8] = &[0x00, 0x00, 0x2A, 0x8B, 0x1A, 0x00, 0x00, 0x00, 0x07];
const SHOWN: &str =
    "{ values: [SmallInt(42), Binary(X'8B1A'), Blob(X'00000007')], external_columns: [2], used: 9, replaced: 0 }";

#[test]
fn rows() {
    let columns = Columns::parse_whole(DESCRIPTION).unwrap();
    let mut buffers = Buffers::new();
    let row = decode_row_into(ROW, &columns, 2, &mut buffers).unwrap();
    assert_eq!(format!("{row:?}"), format!("Row {SHOWN}"));
    let mut values = row.values();
    values.next();
    assert_eq!(
        format!("{values:?}"),
        "[Binary(X'8B1A'), Blob(X'00000007')]"
    );
    let row = decode_row(ROW, &parse_whole_qrydsc(DESCRIPTION).unwrap(), 2).unwrap();
    assert_eq!(format!("{row:?}"), format!("OwnedRow {SHOWN}"));
}

/// How much room there is and how much is left, and not the bytes.
#[test]
fn what_holds_bytes() {
    let columns = Columns::parse_whole(DESCRIPTION).unwrap();
    let mut buffers = Buffers::with_text(1000);
    assert_eq!(
        format!("{buffers:?}"),
        "Buffers { values: 0, text_bytes: 1000 }"
    );
    decode_row_into(ROW, &columns, 2, &mut buffers).unwrap();
    assert_eq!(
        format!("{buffers:?}"),
        "Buffers { values: 3, text_bytes: 1000 }"
    );
    let mut rows = Rows::new(ROW, &columns, 2);
    assert_eq!(
        format!("{rows:?}"),
        "Rows { columns: 3, rest_bytes: 9, ended: false }"
    );
    rows.next();
    assert_eq!(
        format!("{rows:?}"),
        "Rows { columns: 3, rest_bytes: 0, ended: true }"
    );
}
