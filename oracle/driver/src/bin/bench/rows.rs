//! The row call: columns, rows of them, and the times of the Rust, of the port through the boundary and by value, and of a plain reading and
//! writing of the same bytes.
use crate::{batch, by_value, Call, Lent, Line, BATCH};
use db2_proto::fdoca::{decode_row, ColumnDescriptor};
use differential::descriptions::rust_side::parsed;
use differential::descriptions::COLUMN_LIMIT;
use differential::random::Random;
use differential::releases::PORTED;
use differential::rows::port_side::{ample, Archive, Asked, PortSide};
use differential::rows::{rust_side, Answer, List};
use differential::samples::{
    ascii, ebcdic, malformed, packed, uniform, utf16_mixed, utf8_cjk, utf8_mixed, Maker,
};
use differential::timing::by_turns;
use port::value::VALUE_WORDS;
use std::hint::black_box;
use std::rc::Rc;

/// Words for the values of any row.
pub const VALUES: usize = VALUE_WORDS * COLUMN_LIMIT;

/// By value a row is decoded so many times, with columns read once; a long row once.
pub const AGAIN: usize = 256;

/// So many rows are decoded by value, each that many times.
const ROWS_BY_VALUE: usize = 8;

/// How the row call is made.
#[derive(Clone, Copy)]
pub enum Form {
    /// Columns and values as words in lent buffers.
    Boundary,
    /// A list and an answer of 128 places each.
    ByValue,
    /// No call: the columns' words and the row are read, the values' words and the texts are written.
    Floor,
}

/// A description, in the form that each side needs, and the release at which rows are asked about.
pub struct Table {
    description: Vec<u8>,
    words: Vec<u64>,
    columns: Vec<ColumnDescriptor>,
    release: u32,
}

impl Table {
    fn of(kinds: &[Kind]) -> Table {
        Table::at(kinds, PORTED)
    }

    pub fn at(kinds: &[Kind], release: u32) -> Table {
        let description: Vec<u8> = kinds.iter().flat_map(Kind::triplet).collect();
        let mut words = vec![0; 2 * kinds.len()];
        let described = port::parse_qrydsc(&description, &mut words);
        assert_eq!(
            (described.number, described.count),
            (0, kinds.len()),
            "the description is read"
        );
        Table {
            columns: parsed(&description),
            description,
            words,
            release,
        }
    }

    fn count(&self) -> usize {
        self.columns.len()
    }

    /// The Rust's answer in the words and the text of the port.
    pub fn answer(&self, row: &[u8]) -> Answer {
        rust_side::answer(&List::of_words(self.words.clone()), row, self.release)
    }
}

/// A column: what the description says of it, and a maker of its bytes in a row.
pub struct Kind {
    code: u8,
    length: u16,
    /// The CCSID, or precision and scale.
    numbers: [u8; 2],
    value: Value,
}

enum Value {
    /// So many bytes.
    Plain(Maker, usize),
    /// The same, behind two bytes with their number or, where a unit has two bytes, with the number of units.
    Counted(Maker, usize, usize),
    /// The same, behind four bytes with their number.
    Inline(Maker, usize),
}

impl Kind {
    fn new(code: u8, length: u16, ccsid: u16, value: Value) -> Kind {
        Kind {
            code,
            length,
            numbers: ccsid.to_be_bytes(),
            value,
        }
    }

    /// A number, a part of the row, or a text without CCSID.
    fn plain(code: u8, length: u16) -> Kind {
        Kind::new(code, length, 0, Value::Plain(uniform, length.into()))
    }

    fn decimal(code: u8, precision: u8, scale: u8) -> Kind {
        let length = (usize::from(precision) + 2) / 2;
        Kind {
            code,
            length: length as u16,
            numbers: [precision, scale],
            value: Value::Plain(packed, length),
        }
    }

    fn text(code: u8, length: u16, ccsid: u16, maker: Maker) -> Kind {
        Kind::new(code, length, ccsid, Value::Plain(maker, length.into()))
    }

    fn varying(code: u8, length: usize, ccsid: u16, maker: Maker) -> Kind {
        let unit = if ccsid == 1200 { 2 } else { 1 };
        let value = Value::Counted(maker, length, unit);
        Kind::new(code, (length / unit).min(0x7FFF) as u16, ccsid, value)
    }

    /// An SDA.
    fn triplet(&self) -> Vec<u8> {
        let [high, low] = self.length.to_be_bytes();
        let [first, second] = self.numbers;
        vec![7, 0x70, self.code, high, low, first, second]
    }

    fn put(&self, random: &mut Random, row: &mut Vec<u8>) {
        // An odd code is nullable: an indicator stands in front, and one value of ten is Null.
        if self.code % 2 == 1 {
            let null = random.one_in(10);
            row.push(if null { 0xFF } else { 0 });
            if null {
                return;
            }
        }
        let (maker, length) = match self.value {
            Value::Plain(maker, length) => (maker, length),
            Value::Counted(maker, length, unit) => {
                row.extend(((length / unit) as u16).to_be_bytes());
                (maker, length)
            }
            Value::Inline(maker, length) => {
                row.extend((length as u32).to_be_bytes());
                (maker, length)
            }
        };
        row.extend(maker(random, length));
    }
}

pub fn row(random: &mut Random, kinds: &[Kind]) -> Vec<u8> {
    let mut row = Vec::new();
    // An FF in front would be skipped.
    while row.first().is_none_or(|first| *first == 0xFF) {
        row.clear();
        for kind in kinds {
            kind.put(random, &mut row);
        }
    }
    row
}

fn four() -> Vec<Kind> {
    vec![
        Kind::plain(0x02, 4),
        Kind::text(0x30, 8, 1208, ascii),
        Kind::decimal(0x0C, 5, 2),
        Kind::plain(0x04, 2),
    ]
}

/// All of them nullable.
fn twenty() -> Vec<Kind> {
    vec![
        Kind::plain(0x03, 4),
        Kind::plain(0x05, 2),
        Kind::plain(0x17, 8),
        Kind::plain(0x0B, 4),
        Kind::plain(0x0F, 8),
        Kind::decimal(0x0D, 9, 2),
        Kind::decimal(0x0D, 15, 4),
        Kind::text(0x31, 10, 1208, ascii),
        Kind::text(0x31, 10, 37, ebcdic),
        Kind::text(0x31, 10, 819, ascii),
        Kind::varying(0x33, 20, 1208, ascii),
        Kind::varying(0x33, 24, 1208, utf8_mixed),
        Kind::varying(0x33, 20, 37, ebcdic),
        Kind::varying(0x3F, 20, 1200, utf16_mixed),
        Kind::text(0x21, 10, 1208, ascii),
        Kind::text(0x23, 8, 1208, ascii),
        Kind::text(0x25, 26, 1208, ascii),
        Kind::plain(0x61, 16),
        Kind::plain(0xBF, 1),
        Kind::plain(0x03, 4),
    ]
}

fn integers() -> Vec<Kind> {
    (0..COLUMN_LIMIT).map(|_| Kind::plain(0x02, 4)).collect()
}

/// One text that takes a row as long as a row may be. Only the texts of LOBs can be so long, and those are UTF-8.
fn one_text(maker: Maker) -> Vec<Kind> {
    let length = differential::rows::ROW_LIMIT - 4;
    vec![Kind::new(0xCA, 4096, 1208, Value::Inline(maker, length))]
}

pub fn sixteen_texts(code: u8, ccsid: u16, maker: Maker) -> Vec<Kind> {
    (0..16)
        .map(|_| Kind::varying(code, 65000, ccsid, maker))
        .collect()
}

/// Columns and rows of them; the few are for the calls by value.
struct Input {
    name: &'static str,
    table: Rc<Table>,
    rows: Rc<Vec<Vec<u8>>>,
    few: Rc<Vec<Vec<u8>>>,
    is_small: bool,
}

/// The lines of the row call: through the boundary, by value, and the floor of rows that are mostly no text.
pub fn lines(random: &mut Random) -> Vec<Line> {
    let small = [
        ("4 columns", four()),
        ("20 mixed columns", twenty()),
        ("128 Integers", integers()),
    ];
    let large = [
        ("one text, UTF-8 ASCII", one_text(ascii)),
        ("one text, UTF-8 mixed", one_text(utf8_mixed)),
        ("16 texts, UTF-8 ASCII", sixteen_texts(0x32, 1208, ascii)),
        (
            "16 texts, UTF-8 mixed",
            sixteen_texts(0x32, 1208, utf8_mixed),
        ),
        ("16 texts, UTF-8 CJK", sixteen_texts(0x32, 1208, utf8_cjk)),
        (
            "16 texts, UTF-8, 1 % malformed",
            sixteen_texts(0x32, 1208, malformed),
        ),
        ("16 texts, 037", sixteen_texts(0x32, 37, ebcdic)),
        ("16 texts, 819 ASCII", sixteen_texts(0x32, 819, ascii)),
        (
            "16 texts, 819, random bytes",
            sixteen_texts(0x32, 819, uniform),
        ),
        (
            "16 texts, other CCSID, ASCII",
            sixteen_texts(0x32, 1047, ascii),
        ),
        (
            "16 texts, other CCSID, EBCDIC",
            sixteen_texts(0x32, 1047, ebcdic),
        ),
        (
            "16 texts, UTF-16 mixed",
            sixteen_texts(0x3E, 1200, utf16_mixed),
        ),
    ];
    let mut inputs = Vec::new();
    for (place, (name, kinds)) in small.into_iter().chain(large).enumerate() {
        let first = row(random, &kinds);
        let more = (BATCH / first.len()).max(1) - 1;
        let mut rows = vec![first];
        rows.extend((0..more).map(|_| row(random, &kinds)));
        let few = rows[..rows.len().min(ROWS_BY_VALUE)].to_vec();
        inputs.push(Input {
            name,
            table: Rc::new(Table::of(&kinds)),
            rows: Rc::new(rows),
            few: Rc::new(few),
            is_small: place < 3,
        });
    }
    let forms = [
        ("decode_row", Form::Boundary),
        ("decode_row by value", Form::ByValue),
        ("floor of decode_row", Form::Floor),
    ];
    let mut lines = Vec::new();
    for (call, form) in forms {
        for input in &inputs {
            let rows = match form {
                Form::Boundary => &input.rows,
                Form::ByValue => &input.few,
                Form::Floor if input.is_small => &input.rows,
                Form::Floor => continue,
            };
            lines.push(Line {
                name: format!("{call}, {}", input.name),
                call: Call::Row(form, Rc::clone(&input.table)),
                texts: Rc::clone(rows),
            });
        }
    }
    lines
}

/// Whether the port's answer is the Rust's; by value the number of each value.
pub fn same(form: Form, table: &Table, row: &[u8], lent: &mut Lent) -> bool {
    let answer = table.answer(row);
    match form {
        Form::Boundary => {
            let asked = Asked {
                columns: &table.words,
                data: row,
                release: table.release,
            };
            *PortSide::new(Archive).answer(asked) == answer
        }
        Form::ByValue => {
            let text = &mut lent.text[..ample(table.count(), row.len())];
            let Table {
                description,
                release,
                ..
            } = table;
            let number =
                |place: usize| by_value::number_at(description, row, *release, text, 1, place);
            let numbers: Vec<u64> = (0..table.count()).map(number).collect();
            let words = answer.values.chunks(VALUE_WORDS).map(|words| words[1]);
            words.eq(numbers) && lent.text.starts_with(&answer.text)
        }
        Form::Floor => true,
    }
}

pub fn measure(form: Form, table: &Table, rows: &[Vec<u8>], lent: &mut Lent) -> [f64; 3] {
    match form {
        Form::Boundary => measure_boundary(table, rows, lent),
        Form::ByValue => measure_by_value(table, rows, lent),
        Form::Floor => measure_floor(table, rows, lent),
    }
}

pub fn any(table: &Table, row: &[u8]) -> usize {
    ample(table.count(), row.len())
}

fn measure_boundary(table: &Table, rows: &[Vec<u8>], lent: &mut Lent) -> [f64; 3] {
    let any: Vec<usize> = rows.iter().map(|row| any(table, row)).collect();
    let exact: Vec<usize> = rows
        .iter()
        .map(|row| table.answer(row).text.len())
        .collect();
    by_turns(
        lent,
        [
            &|_| batch(rows, |row| decoded(table, row)),
            &|lent| port_rows(table, rows, &any, lent),
            &|lent| port_rows(table, rows, &exact, lent),
        ],
    )
}

/// The Rust's values and texts, made, looked at and freed.
fn decoded(table: &Table, row: &[u8]) -> u64 {
    let (values, used) = decode_row(row, &table.columns).expect("the row is whole");
    black_box(&values);
    used as u64
}

pub fn port_rows(table: &Table, rows: &[Vec<u8>], sizes: &[usize], lent: &mut Lent) -> u64 {
    let mut sizes = sizes.iter();
    let words = VALUE_WORDS * table.count();
    batch(rows, |row| {
        let size = *sizes.next().expect("a size for each row");
        let values = &mut lent.values[..words];
        let text = &mut lent.text[..size];
        let words = black_box(&table.words);
        let decoded = port::decode_row(words, row, table.release, values, text);
        black_box((values, text));
        decoded.used as u64
    })
}

/// The times of one decoding of each row: the columns are read once for all decodings of a row.
fn measure_by_value(table: &Table, rows: &[Vec<u8>], lent: &mut Lent) -> [f64; 3] {
    let again = if rows[0].len() < BATCH { AGAIN } else { 1 };
    let any: Vec<usize> = rows.iter().map(|row| any(table, row)).collect();
    let exact: Vec<usize> = rows
        .iter()
        .map(|row| table.answer(row).text.len())
        .collect();
    let times = by_turns(
        lent,
        [
            &|_| {
                batch(rows, |row| {
                    (0..again).fold(0, |sum, _| sum + decoded(table, black_box(row)))
                })
            },
            &|lent| rows_by_value(table, rows, again, &any, lent),
            &|lent| rows_by_value(table, rows, again, &exact, lent),
        ],
    );
    times.map(|time| time / again as f64)
}

/// The place of the last column is asked for, which the compiler of the port does not know.
pub fn rows_by_value(
    table: &Table,
    rows: &[Vec<u8>],
    again: usize,
    sizes: &[usize],
    lent: &mut Lent,
) -> u64 {
    let mut sizes = sizes.iter();
    let last = black_box(table.count() - 1);
    batch(rows, |row| {
        let size = *sizes.next().expect("a size for each row");
        let text = &mut lent.text[..size];
        let Table {
            description,
            release,
            ..
        } = table;
        let number = by_value::number_at(description, row, *release, text, again, last);
        black_box(text);
        number
    })
}

fn measure_floor(table: &Table, rows: &[Vec<u8>], lent: &mut Lent) -> [f64; 3] {
    let answers: Vec<Answer> = rows.iter().map(|row| table.answer(row)).collect();
    let [rust, floor] = by_turns(
        lent,
        [&|_| batch(rows, |row| decoded(table, row)), &|lent| {
            let mut answers = answers.iter();
            batch(rows, |row| {
                copied(table, row, answers.next().expect("an answer each"), lent)
            })
        }],
    );
    [rust, floor, f64::NAN]
}

/// Reads the columns and the row, and writes values and texts that are ready.
fn copied(table: &Table, row: &[u8], answer: &Answer, lent: &mut Lent) -> u64 {
    let values = &mut lent.values[..answer.values.len()];
    let text = &mut lent.text[..answer.text.len()];
    values.copy_from_slice(black_box(&answer.values));
    text.copy_from_slice(black_box(&answer.text));
    black_box((values, text));
    let words = black_box(&table.words)
        .iter()
        .fold(0, |sum: u64, word| sum.wrapping_add(*word));
    row.iter()
        .fold(words, |sum, byte| sum.wrapping_add(u64::from(*byte)))
}
