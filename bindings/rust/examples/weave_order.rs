//! Weave orders, from a host's bytes to a table: the same as examples/weave_order.c at the repository's root, which says what the bytes
//! are, and with the same output.
use vejupa::{
    decode_character_bytes, decode_packed_whole, decode_row_into, Buffers, Columns, Db2Type,
    PackedWhole, Refusal, Row, Rows, Value,
};

/// The release of the host, 2 or 3, which each call that converts texts by CCSID is told. It belongs to the host and not to the program: a
/// controller reads it from where it keeps the host's address.
const RELEASE: u32 = 2;

/// What the host sends once: the description.
const DESCRIPTION: &[u8] = &[
    0x03, 0x78, 0x31, // 40 stands for a Char that may be null, with CCSID 37
    0x08, 0x70, 0x40, 0x00, 0x00, 0x00, 0x00, 0x25, //
    0x1E, 0x76, 0xD0, // the columns follow, three bytes for each
    0x02, 0x00, 0x04, // the order's number
    0x40, 0x00, 0x08, // the pattern
    0x0E, 0x05, 0x02, // the pile height in millimetres
    0x05, 0x00, 0x02, // how many colours
    0x0A, 0x00, 0x08, // the warp's tension
    0x20, 0x00, 0x0A, // when it is due
    0x33, 0x00, 0x28, // a note
    0x62, 0x00, 0x10, // the yarns' numbers
    0xCA, 0x80, 0x04, // the drawing, sent apart
];

/// And then a block: three rows, each with FF 00 before it, the third with a text that lost a byte, and the end of the query, which is no row.
const BLOCK: &[u8] = b"\xFF\x00\x00\x01\x13\x0C\x00\xD2\xC1\xE2\xC2\xC1\xC8\x60\xF4\x01\x25\x0C\x00\x00\x06\
\x40\x35\x80\x00\x00\x00\x00\x002026-03-02\x00\x00\x0Ccr\xC3\xA8me field\x00\x03\x1A\x2B\x3C\x00\x00\x01\x07\
\xFF\x00\x00\x01\x13\x0D\xFF\x00\x07\x5D\xFF\x7F\xF8\x00\x00\x00\x00\x00\x002026-03-09\xFF\x00\x00\x00\x00\x00\x00\
\xFF\x00\x00\x01\x13\x0E\x00\xD2\xC1\xE2\xC2\xC1\xC8\x60\xF5\x00\x80\x0C\x00\x00\x04\
\x40\x34\x00\x00\x00\x00\x00\x002026-03-16\x00\x00\x05cr\xC3me\x00\x01\x4D\x00\x00\x01\x08\
\x00\x00\x00\x00\x6402000CSS10140\x00\x00\x00\x00\x00\x00\x00\x00\x00\x00\x00\x00\x02\x00\x00\x00\x00\
\x00\x00\x00\x00\x00\x00\x00\x00\x20\x20\x20\x20\x20\x20\x20\x20\x20\x20\x20\x00\x00\x00\x00\x00\x00\xFF\xFF";

fn print_columns(columns: &Columns) {
    println!("{} columns", columns.len());
    for column in columns {
        let null = if column.nullable { " or null" } else { "" };
        print!("{} {}{null}", column.column_index, column.db2_type);
        if column.ccsid != 0 {
            print!(", CCSID {}", column.ccsid);
        }
        println!(", {}", column.origin);
    }
}

fn shown(value: Value) -> String {
    match value {
        Value::Double(x) if x.is_nan() => "no number".into(),
        _ if value.as_bytes() == Some(&[]) => "empty".into(),
        _ => value.to_string(),
    }
}

fn print_row(row: Result<Row, Refusal>) {
    let row = match row {
        Ok(row) => row,
        Err(Refusal::BufferTooShort {
            column,
            expected,
            actual,
        }) => {
            return println!(
                "refusal 8 at column {column}: {expected} bytes expected, {actual} there"
            )
        }
        Err(refusal) => return println!("{refusal}"),
    };
    let (used, text) = (row.used(), row.text().len());
    println!("{used} bytes used, {text} bytes of text");
    if row.replaced() > 0 {
        // A name may be another than the host's: let someone look at it.
        println!(
            "beware: {} malformed in its texts, shown as U+FFFD",
            row.replaced()
        );
    }
    for (k, value) in row.values().enumerate() {
        let apart = match row.is_external(k) {
            true => ", sent apart",
            false => "",
        };
        println!("{k} {}{apart}", shown(value));
    }
}

/// The pile height's column.
const HEIGHT: usize = 2;

/// The pile height as the loom takes it: a number, with scale 2 in hundredths of a millimetre. A row has its text, and does not say where its
/// packed bytes begin. Decoded by the columns before it alone, it says how many bytes these use: there the column begins, with an indicator
/// where it may be null. (Nor is the place a fixed one: the pattern before it may be null.)
fn height(row: Row, data: &[u8], columns: &Columns) -> Result<Option<PackedWhole>, Refusal> {
    let (Some(column), Some(Value::Decimal(_))) = (columns.get(HEIGHT), row.get(HEIGHT)) else {
        return Ok(None); // null
    };
    let Db2Type::Decimal { precision, scale } = column.db2_type else {
        return Ok(None);
    };
    let before: Columns = columns.iter().take(HEIGHT).collect();
    let begins = before.decode_row(data, RELEASE)?.used + usize::from(column.nullable);
    let packed = &data[begins..begins + (usize::from(precision) + 2) / 2];
    decode_packed_whole(packed, scale).map(Some)
}

fn print_height(height: Result<Option<PackedWhole>, Refusal>) {
    match height {
        Ok(Some(height)) => println!("pile height {}, scale {}", height.number, height.scale),
        Ok(None) => (),
        // No digits, or no sign: nothing for a loom, whatever the text looks like.
        Err(refusal) => println!("no pile height: {refusal}"),
    }
}

/// The rows of a block. What such a loop must heed:
/// - A row may use no byte: `Rows` ends there by itself, and after a refusal.
/// - This host sends FF 00 before each row. What begins otherwise is no row: stop before it. With the one SmallInt of 06 76 D0 04 00 02 the
///   62 bytes of a query's end are read as 30 rows. (Where rows follow a status that is no query's end, its length is the caller's to find.)
/// - Where a host does not send them, no row must begin FF, which is skipped with the byte behind it, be it the indicator of a Null or a
///   number below 0. With the two SmallInts or null of 09 76 D0 05 00 02 05 00 02 the rows FF 00 00 07 (null and 7) and 00 00 01 00 00 02
///   (1 and 2) come out as one, 1792 and 256.
fn print_rows(columns: &Columns) {
    let mut rows = Rows::new(BLOCK, columns, RELEASE);
    let mut at = 0;
    while rows.rest().starts_with(&[0xFF, 0x00]) {
        let Some(row) = rows.next_row() else { break };
        print!("\nthe row at {at}: ");
        print_row(row);
        if let Ok(row) = row {
            print_height(height(row, &BLOCK[at..], columns));
        }
        at = BLOCK.len() - rows.rest().len();
    }
    println!("\n{} bytes are left, from {at} on", rows.rest().len());
}

/// What the release decides: a text whose CCSID the library does not know, as 1047, is guessed at release 2, and is code page 037 at release 3.
/// A blank field shows it.
fn print_blank_field(release: u32) {
    print!("a blank field of CCSID 1047 at release {release}: ");
    match decode_character_bytes(&[0x40; 4], 1047, release) {
        Ok(blanks) => println!("{:?}", blanks.text),
        Err(refusal) => println!("{refusal}"),
    }
}

fn main() -> Result<(), Refusal> {
    // A description that breaks off is refused here. Columns may be missing in one: rows would lack their values, and each next row would be
    // looked for within the one before it.
    let columns = Columns::parse_whole(DESCRIPTION)?;
    print_columns(&columns);
    print_rows(&columns);
    print!("\nthe first row, cut off: ");
    let mut buffers = Buffers::new();
    print_row(decode_row_into(
        &BLOCK[..21],
        &columns,
        RELEASE,
        &mut buffers,
    ));
    println!();
    print_blank_field(2);
    print_blank_field(3);
    Ok(())
}
