//! Rows to ask about.
use crate::inputs::{fill, random_style, Style, EDGE_BYTES};
use crate::leaf::Leaf;
use crate::random::Random;
use port::column::{Column, Name, Order};

/// Bits of floats of 32 and 64 bits: zeros, subnormals, infinities, NaNs with and without a signal.
const REALS: [u32; 12] = [
    0x0000_0000,
    0x8000_0000,
    0x0000_0001,
    0x807F_FFFF,
    0x0080_0000,
    0x7F7F_FFFF,
    0x7F80_0000,
    0xFF80_0000,
    0x7F80_0001,
    0xFFBF_FFFF,
    0x7FC0_0000,
    0xFFC0_0001,
];

const DOUBLES: [u64; 12] = [
    0x0000_0000_0000_0000,
    0x8000_0000_0000_0000,
    0x0000_0000_0000_0001,
    0x800F_FFFF_FFFF_FFFF,
    0x0010_0000_0000_0000,
    0x7FEF_FFFF_FFFF_FFFF,
    0x7FF0_0000_0000_0000,
    0xFFF0_0000_0000_0000,
    0x7FF0_0000_0000_0001,
    0xFFF7_FFFF_FFFF_FFFF,
    0x7FF8_0000_0000_0000,
    0xFFF8_0000_0000_0001,
];

/// What makes values, with memory that is used again.
pub struct Values {
    scratch: Vec<u8>,
    /// Which bytes give a text something to decide goes by the release too.
    release: u32,
}

impl Values {
    pub fn new(release: u32) -> Self {
        Values {
            scratch: Vec::new(),
            release,
        }
    }

    /// A row of values for these columns, with indicators and, now and then, what is skipped before them.
    pub fn row(&mut self, random: &mut Random, columns: &[Column], row: &mut Vec<u8>) {
        row.clear();
        if random.one_in(4) {
            row.push(0xFF);
            row.push(random.pick(&[0x00, 0x00, 0xFF, 0x01, 0x80]));
        }
        for column in columns {
            if column.nullable {
                let indicator = random_indicator(random);
                row.push(indicator);
                if indicator == 0xFF {
                    continue;
                }
            }
            // Seldom whole: it would cost as much as thousands of others.
            if is_wide(column) && !random.one_in(256) {
                return noise(random, row);
            }
            self.value(random, column, row);
        }
    }

    /// Adds bytes for a value, mostly such as are accepted.
    pub fn value(&mut self, random: &mut Random, column: &Column, row: &mut Vec<u8>) {
        let own = usize::from(column.db2_type.numbers);
        let length = usize::from(column.length);
        let character = Leaf::character(column.ccsid).at(self.release);
        let graphic = Leaf::graphic(column.ccsid).at(self.release);
        match column.db2_type.name {
            Name::SmallInt => number(random, column, 2, row),
            Name::Integer | Name::Real => number(random, column, 4, row),
            Name::BigInt | Name::Double => number(random, column, 8, row),
            Name::Decimal => {
                let [precision, _] = column.db2_type.precision_and_scale();
                let length = (usize::from(precision) + 2) / 2;
                self.bytes(random, Leaf::decimal(0), length, row);
            }
            Name::DecFloat => number(random, column, 8, row),
            Name::Char => self.bytes(random, character, own, row),
            Name::VarChar | Name::VarGraphic if own & 0x8000 != 0 => {
                header(random, own & 0x7FFF, row)
            }
            Name::VarChar | Name::LongVarChar => self.counted(random, character, 1, row),
            Name::VarGraphic => {
                let of_one = if doubled(column) { 2 } else { 1 };
                self.counted(random, graphic, of_one, row);
            }
            Name::VarBinary => self.counted(random, Leaf::RowId, 1, row),
            Name::Binary | Name::RowId => self.bytes(random, Leaf::RowId, own, row),
            Name::Date => self.bytes(random, character, 10, row),
            Name::Time => self.bytes(random, character, 8, row),
            Name::Timestamp => {
                let length = if length == 0 { 26 } else { length };
                self.bytes(random, character, length, row);
            }
            Name::Boolean => sparse(random, length.max(1), row),
            Name::Graphic => {
                let length = if doubled(column) { 2 * own } else { own };
                self.bytes(random, graphic, length, row);
            }
            Name::Blob | Name::Clob | Name::DbClob | Name::Xml => match column.reference {
                Some(width) => reference(random, width.into(), row),
                None => self.lob(random, row),
            },
            Name::BlobLocator | Name::ClobLocator | Name::DbClobLocator => sparse(random, 4, row),
            Name::LobBytes | Name::LobChar => self.materialized(random, column, row),
            Name::Null => {}
        }
    }

    /// So many bytes of a style that gives the call something to decide.
    fn bytes(&mut self, random: &mut Random, leaf: Leaf, length: usize, row: &mut Vec<u8>) {
        if length == 0 {
            return;
        }
        let style = match random.below(4) {
            // Letters are what most rows hold, and cheap.
            0 if !matches!(leaf, Leaf::Decimal { .. }) => Style::Ascii,
            _ => random_style(random, leaf),
        };
        fill(random, style, length, &mut self.scratch);
        row.extend_from_slice(&self.scratch);
    }

    /// A length of two bytes and what it counts.
    fn counted(&mut self, random: &mut Random, leaf: Leaf, of_one: usize, row: &mut Vec<u8>) {
        let length = random_length(random);
        row.extend_from_slice(&(length as u16).to_be_bytes());
        self.bytes(random, leaf, of_one * length, row);
    }

    /// A LOB without a reference length: a reference, a length and its bytes, or a length of any size.
    fn lob(&mut self, random: &mut Random, row: &mut Vec<u8>) {
        match random.below(16) {
            0..=3 => reference(random, 9, row),
            4 => sparse(random, 4, row),
            5 => {
                row.push(0x02);
                sparse(random, 3, row);
            }
            6 => {
                let length = random.pick(&[0xFFFF_FFFF, 0x8000_0000, 0x0001_0000, 0x0200_0000]);
                row.extend_from_slice(&u32::to_be_bytes(length));
            }
            _ => {
                let length = random_length(random);
                row.extend_from_slice(&(length as u32).to_be_bytes());
                self.bytes(random, Leaf::character(1208), length, row);
            }
        }
    }

    fn materialized(&mut self, random: &mut Random, column: &Column, row: &mut Vec<u8>) {
        let length = usize::from(column.db2_type.numbers & 0x7FFF);
        if length < 1000 || (length < 3000 && random.one_in(4)) || random.one_in(200) {
            let leaf = match random.below(3) {
                0 => Leaf::character(column.ccsid).at(self.release),
                _ => Leaf::Likely,
            };
            return self.bytes(random, leaf, length, row);
        }
        // Around sixteen digits among around as many bytes.
        let digits = 14 + random.below(4);
        let others = match random.below(4) {
            0..=1 => 0,
            _ => random.below(6),
        };
        for place in 0..digits + others {
            let is_other = place % 3 == 2 && place / 3 < others || place >= digits + others.min(2);
            row.push(match random.below(8) {
                _ if is_other => random.pick(b"Gg/:@`\x00\xB0"),
                0..=2 => random.pick(b"0189"),
                3..=4 => random.pick(b"AFBE"),
                _ => random.pick(b"afbe"),
            });
        }
    }
}

/// A text and what others are where it is unlike them: well-formed among malformed ones or the other way about, short and long enough for blocks.
pub fn unlike() -> [[&'static [u8]; 2]; 5] {
    const GOOD: &[u8] = b"a\xC3\xA9";
    const BAD: &[u8] = b"\xC3a";
    const SENT: &[u8] = b"\xEF\xBF\xBD";
    const LONG: &[u8] = &[b'z'; 80];
    const LONG_BAD: &[u8] = &[0x80; 80];
    [
        [GOOD, BAD],
        [BAD, GOOD],
        [LONG, LONG_BAD],
        [LONG_BAD, LONG],
        [BAD, SENT],
    ]
}

/// A row of `columns::texts`, with one text at a place and another at all others, of which some are Null.
pub fn texts(columns: &[Column], place: usize, one: &[u8], others: &[u8], row: &mut Vec<u8>) {
    row.clear();
    for (at, column) in columns.iter().enumerate() {
        let text = if at == place { one } else { others };
        let length = text.len() as u32;
        if column.nullable {
            let is_null = at != place && at % 2 == 1;
            row.push(if is_null { 0xFF } else { 0x00 });
            if is_null {
                continue;
            }
        }
        match column.db2_type.name {
            Name::SmallInt => row.extend([0, 1]),
            Name::Clob => {
                row.extend(length.to_be_bytes());
                row.extend(text);
            }
            _ => {
                row.extend((length as u16).to_be_bytes());
                row.extend(text);
            }
        }
    }
}

/// Whether the column's lengths count characters of two bytes.
fn doubled(column: &Column) -> bool {
    column.ccsid == 1200 && column.order == Order::Little
}

fn random_indicator(random: &mut Random) -> u8 {
    match random.below(16) {
        0..=10 => 0x00,
        11..=12 => 0xFF,
        13 => random.pick(&[0x01, 0x7F, 0x80, 0xFE]),
        _ => random.byte(),
    }
}

/// Mostly short; seldom longer than a byte can say.
fn random_length(random: &mut Random) -> usize {
    match random.below(1024) {
        0 => random.below(700),
        1..=100 => random.below(64),
        101..=300 => 0,
        _ => random.below(12),
    }
}

fn number(random: &mut Random, column: &Column, length: usize, row: &mut Vec<u8>) {
    let bits = match random.below(8) {
        0 => 0,
        1 => u64::MAX,
        2 => 1 << (8 * length - 1),
        3 => (1 << (8 * length - 1)) - 1,
        4..=5 if length == 4 => random.pick(&REALS).into(),
        4..=5 if length == 8 => random.pick(&DOUBLES),
        _ => random.number(),
    };
    let mut bytes = bits.to_be_bytes();
    let bytes = &mut bytes[8 - length..];
    // Now and then in the other order.
    if (column.order == Order::Little) != random.one_in(16) {
        bytes.reverse();
    }
    row.extend_from_slice(bytes);
}

/// Zeros, among them none or one or some that are not.
fn sparse(random: &mut Random, length: usize, row: &mut Vec<u8>) {
    let start = row.len();
    row.resize(start + length, 0);
    if length == 0 {
        return;
    }
    match random.below(4) {
        0 => {}
        1..=2 => {
            let place = match random.below(4) {
                0 => length - 1,
                1 => length.min(9) - 1,
                _ => random.below(length),
            };
            row[start + place] = random.pick(&[1, 2, 0x80, 0xFF]);
        }
        _ => row[start..]
            .iter_mut()
            .for_each(|byte| *byte = random.byte()),
    }
}

/// A reference: 02 and zeros, or nearly so, or zeros only.
fn reference(random: &mut Random, width: usize, row: &mut Vec<u8>) {
    let start = row.len();
    sparse(random, width, row);
    if width > 0 && !random.one_in(4) {
        row[start] = 0x02;
    }
}

/// A flagged VarChar's: of the descriptor's length, or of its own.
fn header(random: &mut Random, length: usize, row: &mut Vec<u8>) {
    if random.one_in(2) {
        return reference(random, length, row);
    }
    let length = match random.below(4) {
        0..=1 => random.below(4) + 8,
        _ => random_length(random),
    };
    row.extend_from_slice(&(0x8000 | length as u16).to_be_bytes());
    reference(random, length, row);
}

/// Changes a few places: a byte changed, taken out, put in, the end cut off or bytes put behind it.
pub fn damage(random: &mut Random, row: &mut Vec<u8>) {
    for _ in 0..1 + random.below(2) {
        if row.is_empty() {
            return row.push(random.byte());
        }
        let place = random.below(row.len());
        match random.below(8) {
            0 => row[place] = random.byte(),
            1 => row[place] = random.pick(&EDGE_BYTES),
            2 => row[place] = random.pick(&[0x00, 0x02, 0xFF]),
            3 => drop(row.remove(place)),
            4 => row.insert(place, random.byte()),
            5..=6 => row.truncate(place),
            _ => extend(random, row),
        }
    }
}

/// Bytes behind a row, mostly few.
pub fn extend(random: &mut Random, row: &mut Vec<u8>) {
    let count = match random.below(32) {
        0 => random.below(200),
        _ => 1 + random.below(12),
    };
    for _ in 0..count {
        row.push(random.pick(&EDGE_BYTES));
    }
}

/// Bytes that go by no rule.
pub fn noise(random: &mut Random, row: &mut Vec<u8>) {
    for _ in 0..random.below(24) {
        let byte = match random.below(4) {
            0 => random.byte(),
            1 => 0,
            2 => random.pick(&EDGE_BYTES),
            _ => random.pick(&[0x00, 0x01, 0x02, 0x09, 0x80, 0xFF]),
        };
        row.push(byte);
    }
}

/// Whether a value of the column would be very long.
fn is_wide(column: &Column) -> bool {
    const LONG: u16 = 4000;
    let own = column.db2_type.numbers;
    match column.db2_type.name {
        Name::Char | Name::Binary | Name::Graphic | Name::RowId => own > LONG,
        Name::VarChar | Name::VarGraphic => own & 0x8000 != 0 && own & 0x7FFF > LONG,
        Name::Timestamp | Name::Boolean => column.length > LONG,
        Name::Blob | Name::Clob | Name::DbClob | Name::Xml => column.reference > Some(LONG),
        _ => false,
    }
}
