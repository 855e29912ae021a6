//! The lines of the table: which calls, on which inputs.
use crate::{rows, Call, Line, BATCH};
use differential::descriptions::Parser;
use differential::leaf::{Leaf, TEXT_LIMIT};
use differential::random::Random;
use differential::samples::{packed, packed_number, signed_number, uniform, Maker, CLASSES};
use std::rc::Rc;

/// The lengths of short texts, and of those in which blocks begin to count.
const SHORT: [usize; 5] = [4, 8, 16, 32, 64];
const MEDIUM: [usize; 4] = [96, 128, 256, 512];

const HEX_LENGTH: usize = 1 << 16;

/// All of them.
pub fn text_lengths() -> impl Iterator<Item = usize> {
    SHORT.into_iter().chain(MEDIUM)
}

pub fn lines() -> Vec<Line> {
    let mut random = Random::new(1);
    let mut lines = Vec::new();
    for (name, leaf, maker) in CLASSES {
        for length in text_lengths().chain([TEXT_LIMIT]) {
            let call = Call::Leaf(leaf);
            lines.push(line(&mut random, name, call, maker, length));
        }
    }
    lines.push(line(&mut random, "memcpy", Call::Copy, uniform, TEXT_LIMIT));
    for (name, leaf) in [("Locator", Leaf::Locator), ("Row id", Leaf::RowId)] {
        for length in SHORT.into_iter().chain([HEX_LENGTH]) {
            let call = Call::Leaf(leaf);
            lines.push(line(&mut random, name, call, uniform, length));
        }
    }
    for length in [3, 8, 128] {
        let call = Call::Leaf(Leaf::decimal(2));
        lines.push(line(&mut random, "Packed decimal", call, packed, length));
    }
    lines.extend(description_lines(&mut random));
    lines.extend(rows::lines(&mut random));
    // Last, so that the inputs of all others are what they were, and lie where they lay.
    lines.extend(number_lines(&mut random));
    lines
}

/// Packed decimals as whole numbers, all plus, and with either sign.
fn number_lines(random: &mut Random) -> Vec<Line> {
    let makers: [(&str, Maker); 2] = [("", packed_number), (", either sign", signed_number)];
    let mut lines = Vec::new();
    for (signs, maker) in makers {
        for length in [3, 8, 10, 16, 128] {
            let name = format!("Packed decimal as a number{signs}");
            let call = Call::Leaf(Leaf::PackedWhole { scale: 2 });
            lines.push(line(random, &name, call, maker, length));
        }
    }
    lines
}

/// Descriptions of several lengths, by groups, by SDAs and by references to declared LIDs, and one of triplets that say nothing, all of them whole; through the
/// boundary and by value, by both calls.
fn description_lines(random: &mut Random) -> Vec<Line> {
    let forms: [(&str, Maker); 3] = [
        ("in groups", grouped_columns),
        ("as SDAs", single_columns),
        ("in groups, declared", declared_columns),
    ];
    let mut inputs = Vec::new();
    for columns in [4, 20, 128] {
        for (form, maker) in forms {
            let count = (BATCH / (7 * columns)).max(1);
            let texts: Vec<Vec<u8>> = (0..count).map(|_| maker(random, columns)).collect();
            inputs.push((format!("{columns} columns {form}"), Rc::new(texts)));
        }
    }
    let unknown = vec![[2, 0x99].repeat(1000); BATCH / 2000];
    inputs.push(("1,000 unknown triplets".to_string(), Rc::new(unknown)));
    let calls = [
        ("parse_qrydsc", Call::Description(Parser::Ported)),
        (
            "parse_qrydsc by value",
            Call::DescriptionByValue(Parser::Ported),
        ),
        ("parse_whole_qrydsc", Call::Description(Parser::Whole)),
        (
            "parse_whole_qrydsc by value",
            Call::DescriptionByValue(Parser::Whole),
        ),
    ];
    let mut lines = Vec::new();
    for (name, call) in calls {
        for (form, texts) in &inputs {
            lines.push(Line {
                name: format!("{name}, {form}"),
                call: call.clone(),
                texts: Rc::clone(texts),
            });
        }
    }
    lines
}

/// Types that columns have most: numbers, texts, decimals, dates.
const COMMON: [u8; 12] = [
    0x03, 0x02, 0x05, 0x17, 0x0B, 0x0D, 0x0F, 0x31, 0x33, 0x33, 0x21, 0x25,
];

/// Groups of as many columns as fit, with the LIDs that `lid` gives.
fn groups(random: &mut Random, columns: usize, lid: fn(&mut Random) -> u8) -> Vec<u8> {
    let mut text = Vec::new();
    let mut left = columns;
    while left > 0 {
        let count = left.min(84);
        text.extend([3 + 3 * count as u8, 0x76, 0xD0]);
        for _ in 0..count {
            text.extend([lid(random), 0, 8 + random.byte() % 16]);
        }
        left -= count;
    }
    text
}

fn grouped_columns(random: &mut Random, columns: usize) -> Vec<u8> {
    groups(random, columns, |random| random.pick(&COMMON))
}

fn single_columns(random: &mut Random, columns: usize) -> Vec<u8> {
    let column = |random: &mut Random| [7, 0x70, random.pick(&COMMON), 0, 8, 0x04, 0xB8];
    (0..columns).flat_map(|_| column(random)).collect()
}

/// Four declarations, as Db2 for z/OS sends them, and groups that refer to them.
fn declared_columns(random: &mut Random, columns: usize) -> Vec<u8> {
    let mut text = Vec::new();
    for (lid, code) in [(0x50, 0x31), (0x51, 0x33), (0x52, 0x30), (0x53, 0x32)] {
        text.extend([3, 0x78, code, 9, 0x70, lid, 0x7F, 0xFF, 0, 0x00, 0x25, 0x01]);
    }
    text.extend(groups(random, columns, |random| 0x50 + random.byte() % 4));
    text
}

pub fn line(random: &mut Random, name: &str, call: Call, maker: Maker, length: usize) -> Line {
    let count = (BATCH / length).max(1);
    Line {
        name: name.to_string(),
        call,
        texts: Rc::new((0..count).map(|_| maker(random, length)).collect()),
    }
}
