//! Columns to ask about.
use super::List;
use crate::descriptions::COLUMN_LIMIT;
use crate::inputs::{ccsids, random_ccsid, random_scale, CCSIDS};
use crate::random::Random;
use crate::releases::PORTED;
use port::column::{Column, Name, Numbers, Order, Origin, Type, NAMES, ORIGINS};

/// Lengths that a type holds, around those that matter to some type.
const OWN_LENGTHS: [u16; 20] = [
    0, 1, 2, 3, 8, 9, 10, 16, 17, 40, 0x8000, 0x8001, 0x8002, 0x8003, 0x8009, 0x800A, 0x800C, 255,
    256, 0x8010,
];

/// Around the length at which LobBytes and LobChar may be a reference.
const LOB_LENGTHS: [u16; 8] = [1023, 1024, 1025, 2000, 0x83FF, 0x8400, 0x7FFF, 0xFFFF];

const DECIMALS: [(u8, u8); 12] = [
    (0, 0),
    (1, 0),
    (1, 1),
    (2, 0),
    (2, 5),
    (3, 1),
    (5, 2),
    (8, 8),
    (31, 5),
    (31, 31),
    (254, 0),
    (255, 255),
];

/// Lengths of a column, for the types that look at it.
const LENGTHS: [u16; 7] = [0, 1, 2, 9, 10, 26, 40];

const REFERENCES: [Option<u16>; 10] = [
    None,
    Some(0),
    Some(1),
    Some(3),
    Some(4),
    Some(5),
    Some(8),
    Some(9),
    Some(10),
    Some(20),
];

pub fn is_lob(name: Name) -> bool {
    matches!(name, Name::Blob | Name::Clob | Name::DbClob | Name::Xml)
}

fn is_materialized(name: Name) -> bool {
    matches!(name, Name::LobBytes | Name::LobChar)
}

/// Whether the CCSID has a part in the values of a type.
pub fn has_text(name: Name) -> bool {
    matches!(
        name,
        Name::Char
            | Name::VarChar
            | Name::LongVarChar
            | Name::Date
            | Name::Time
            | Name::Timestamp
            | Name::Graphic
            | Name::VarGraphic
            | Name::LobBytes
            | Name::LobChar
            | Name::Clob
            | Name::DbClob
            | Name::Xml
    )
}

fn looks_at_length(name: Name) -> bool {
    let by_length = matches!(name, Name::Timestamp | Name::Boolean);
    by_length || matches!(name, Name::Blob | Name::Clob | Name::DbClob | Name::Xml)
}

/// A column of a type, in which nothing else is said.
pub fn plain(db2_type: Type) -> Column {
    Column {
        index: 0,
        db2_type,
        code: 0,
        length: 0,
        precision: 0,
        scale: 0,
        nullable: false,
        ccsid: 0,
        reference: None,
        order: Order::Big,
        origin: Origin::Sda,
    }
}

/// The code page of some texts among others: 037, by its name or, above release 2, without.
fn other_ccsid(release: u32) -> u16 {
    match release {
        PORTED => 37,
        _ => 273,
    }
}

/// So many columns: texts of one type, and texts of several types among numbers.
pub fn texts(count: usize, release: u32) -> [List; 2] {
    let text = Column {
        ccsid: 1208,
        ..plain(Name::VarChar.with(100))
    };
    let several = [
        text,
        plain(Name::SmallInt.plain()),
        Column {
            nullable: true,
            ..text
        },
        Column {
            length: 1,
            ..plain(Name::Clob.plain())
        },
        Column {
            ccsid: other_ccsid(release),
            ..text
        },
    ];
    let several = several.into_iter().cycle().take(count).collect();
    [vec![text; count], several].map(List::numbered)
}

/// A description of so many columns, texts of several types among numbers.
pub fn described_texts(count: usize, release: u32) -> Vec<u8> {
    let [high, low] = other_ccsid(release).to_be_bytes();
    let several: [[u8; 7]; 5] = [
        [7, 0x70, 0x32, 0, 100, 0x04, 0xB8],
        [7, 0x70, 0x04, 0, 2, 0, 0],
        [7, 0x70, 0x33, 0, 100, 0x04, 0xB8],
        [7, 0x70, 0xCA, 0, 1, 0, 0],
        [7, 0x70, 0x32, 0, 100, high, low],
    ];
    let triplets = several.iter().cycle().take(count);
    triplets.flatten().copied().collect()
}

fn types(name: Name) -> Vec<Type> {
    match name.numbers() {
        Numbers::None => vec![name.plain()],
        Numbers::Digits => vec![name.with(16), name.with(34)],
        Numbers::PrecisionAndScale => DECIMALS.map(|(p, s)| Type::decimal(p, s)).to_vec(),
        Numbers::Length => {
            let mut types = OWN_LENGTHS.map(|length| name.with(length)).to_vec();
            if is_materialized(name) {
                types.extend(LOB_LENGTHS.map(|length| name.with(length)));
            }
            // A fixed length takes all its bits: rows so long are for other stages.
            types.retain(|own| own.numbers < 0x8000 || varies(name));
            types
        }
    }
}

/// Whether a value of the type is not always as long as its number says.
fn varies(name: Name) -> bool {
    matches!(
        name,
        Name::VarChar | Name::VarGraphic | Name::VarBinary | Name::LobBytes | Name::LobChar
    )
}

/// Every type with numbers, lengths, CCSIDs, orders and reference lengths of every class that matters to it, nullable and not. Above release 2 those in which a
/// text may be.
pub fn shapes(release: u32) -> Vec<Column> {
    let mut all = Vec::new();
    let names = NAMES.into_iter();
    let names = names.filter(|name| release == PORTED || has_text(*name));
    for db2_type in names.flat_map(types) {
        let name = db2_type.name;
        let own = [db2_type.numbers, db2_type.numbers ^ 5];
        let lengths = if looks_at_length(name) {
            &LENGTHS[..]
        } else {
            &own
        };
        let ccsids = match (name, release) {
            _ if is_lob(name) && release == PORTED => &CCSIDS[..4],
            _ if is_lob(name) => &[273, 1200],
            _ if has_text(name) => ccsids(release),
            _ => &[0, 1200],
        };
        let references = if is_lob(name) {
            &REFERENCES[..]
        } else {
            &[None, Some(4)]
        };
        for &length in lengths {
            for &ccsid in ccsids {
                for &reference in references {
                    for bits in 0..4 {
                        all.push(Column {
                            length,
                            ccsid,
                            reference,
                            nullable: bits & 1 == 1,
                            order: if bits & 2 == 2 {
                                Order::Little
                            } else {
                                Order::Big
                            },
                            ..plain(db2_type)
                        });
                    }
                }
            }
        }
    }
    all
}

/// A column of each type, nullable and not, with the numbers and the length of a plain one.
pub fn one_of_each() -> Vec<Column> {
    let usual = |name: Name| match name {
        Name::Decimal => Type::decimal(3, 1),
        Name::DecFloat => name.with(16),
        _ if name.numbers() == Numbers::Length => name.with(1),
        _ => name.plain(),
    };
    let mut all = Vec::new();
    for db2_type in NAMES.map(usual) {
        for nullable in [false, true] {
            let column = Column {
                nullable,
                length: 1,
                ccsid: 1208,
                ..plain(db2_type)
            };
            all.push(column);
        }
    }
    // Those whose first two bytes decide most.
    for db2_type in [
        Name::VarChar.with(0x8000),
        Name::VarChar.with(0x8001),
        Name::VarGraphic.with(0x8002),
        Name::Graphic.with(2),
        Name::LobBytes.with(2),
        Name::LobChar.with(2),
        Name::Boolean.plain(),
    ] {
        all.push(Column {
            length: 2,
            ccsid: 1200,
            order: Order::Little,
            ..plain(db2_type)
        });
    }
    for reference in [0, 1, 2] {
        for name in [Name::Blob, Name::Clob, Name::Xml] {
            all.push(Column {
                reference: Some(reference),
                ..plain(name.plain())
            });
        }
    }
    all
}

/// The same to be asked about at a release: above release 2 columns in which a text may be, by an unnamed CCSID.
pub fn one_of_each_at(release: u32) -> Vec<Column> {
    let mut all = one_of_each();
    if release != PORTED {
        all.retain(|column| has_text(column.db2_type.name) && column.reference.is_none());
        for column in &mut all {
            column.ccsid = if column.ccsid == 1208 {
                273
            } else {
                column.ccsid
            };
        }
    }
    all
}

fn random_own_length(random: &mut Random, name: Name) -> u16 {
    let most = if random.one_in(64) { 600 } else { 12 };
    match random.below(16) {
        0..=1 => random.pick(&OWN_LENGTHS) & if varies(name) { 0xFFFF } else { 0x7FFF },
        2..=6 if matches!(name, Name::VarChar | Name::VarGraphic) => {
            0x8000 | random.below(most) as u16
        }
        2..=6 if is_materialized(name) => random.pick(&LOB_LENGTHS),
        7 if random.one_in(200) => random.number() as u16,
        _ => random.below(most) as u16,
    }
}

fn random_type(random: &mut Random) -> Type {
    let name = match random.below(64) {
        0..=11 => random.pick(&[Name::Blob, Name::Clob, Name::DbClob, Name::Xml]),
        12..=19 => random.pick(&[Name::LobBytes, Name::LobChar]),
        20..=27 => random.pick(&[Name::VarChar, Name::VarGraphic, Name::Graphic, Name::Char]),
        _ => loop {
            let name = random.pick(&NAMES);
            // One of them refuses the whole list.
            if name != Name::DecFloat || random.one_in(40) {
                break name;
            }
        },
    };
    match name.numbers() {
        Numbers::None => name.plain(),
        Numbers::Digits => name.with(u16::from(random.byte())),
        Numbers::Length => name.with(random_own_length(random, name)),
        Numbers::PrecisionAndScale => {
            let precision = match random.below(8) {
                0 => random.byte(),
                _ => random.below(32) as u8,
            };
            Type::decimal(precision, random_scale(random))
        }
    }
}

pub fn random_column(random: &mut Random, release: u32) -> Column {
    let db2_type = random_type(random);
    let name = db2_type.name;
    let reference = match random.below(16) {
        _ if !is_lob(name) && !random.one_in(8) => None,
        0..=6 => None,
        7..=13 => random.pick(&REFERENCES),
        14 => Some(random.below(300) as u16),
        // All 16 bits count, and the Rust takes its time for hex so long.
        _ if random.one_in(2000) => Some(random.number() as u16),
        _ => Some(9),
    };
    let length = match random.below(8) {
        0..=3 => db2_type.numbers,
        4..=6 => random.pick(&LENGTHS),
        _ if random.one_in(50) => random.number() as u16,
        _ => random.below(60) as u16,
    };
    Column {
        code: random.byte(),
        length,
        precision: random.byte(),
        scale: random.byte(),
        nullable: random.one_in(3),
        ccsid: random_ccsid(random, release),
        reference,
        order: random.pick(&[Order::Big, Order::Little]),
        origin: random.pick(&ORIGINS),
        ..plain(db2_type)
    }
}

/// A caller's own list: mostly a few columns; now and then many, or around the limit.
pub fn random_list(random: &mut Random, release: u32) -> List {
    let count = match random.below(4096) {
        0..=3 => COLUMN_LIMIT - 2 + random.below(5),
        4..=63 => random.below(40),
        64..=127 => 0,
        128..=1400 => 1,
        _ => 1 + random.below(5),
    };
    let columns = (0..count).map(|_| random_column(random, release));
    let list = List::numbered(columns.collect());
    match random.below(512) {
        0..=3 => damaged(random, list),
        4..=7 => renumbered(random, list),
        _ => list,
    }
}

/// Type codes of every type, and some that are none.
const CODES: [u8; 34] = [
    0x02, 0x04, 0x0A, 0x0C, 0x0E, 0x16, 0x18, 0x1A, 0x1C, 0x1E, 0x20, 0x22, 0x24, 0x30, 0x32, 0x34,
    0x36, 0x38, 0x3C, 0x3E, 0x50, 0x51, 0x60, 0x62, 0xBE, 0xC8, 0xCA, 0xCC, 0xCE, 0xDC, 0xC8, 0xCA,
    0x50, 0x06,
];

/// A description whose columns have short values: SDAs, groups, and LIDs declared before them.
pub fn random_description(random: &mut Random, release: u32, data: &mut Vec<u8>) {
    data.clear();
    for _ in 0..1 + random.below(4) {
        let code = random.pick(&CODES) | random.byte() & 1;
        let length = match random.below(4) {
            0 => 0x8000 | random.below(12) as u16,
            1 if code & 0xFE == 0x50 => random.pick(&LOB_LENGTHS),
            _ => random.below(12) as u16,
        };
        let [high, low] = length.to_be_bytes();
        let [ccsid_high, ccsid_low] = random_ccsid(random, release).to_be_bytes();
        match random.below(4) {
            0 => data.extend([6, 0x76, 0xD0, code, high, low]),
            1 => {
                data.extend([3, 0x78, code]);
                data.extend([8, 0x70, 0x44, 0, 0, 0, ccsid_high, ccsid_low]);
                data.extend([6, 0x76, 0xD0, 0x44, high, low]);
            }
            _ if code & 0xFE == 0x0C => data.extend([7, 0x70, code, high, low, low, high & 3]),
            _ => data.extend([7, 0x70, code, high, low, ccsid_high, ccsid_low]),
        }
    }
}

/// Words in which a bit or two are turned, or one is lost or added.
fn damaged(random: &mut Random, list: List) -> List {
    let mut words = list.words;
    match random.below(8) {
        0 => drop(words.pop()),
        1 => words.push(random.number()),
        _ => {
            for _ in 0..1 + random.below(2) {
                if !words.is_empty() {
                    let place = random.below(words.len());
                    words[place] ^= 1 << random.below(64);
                }
            }
        }
    }
    List::of_words(words)
}

/// Columns with any numbers: they take no part, up to the largest.
fn renumbered(random: &mut Random, list: List) -> List {
    let mut columns = list.columns;
    for column in &mut columns {
        column.index = match random.below(16) {
            0 => 256,
            1 => random.number() as u16,
            _ => random.below(256) as u16,
        };
    }
    List::of(&columns)
}
