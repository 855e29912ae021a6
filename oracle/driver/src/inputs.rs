//! Calls and bytes to ask about.
use crate::leaf::{Leaf, PRECISION, TEXT_LIMIT};
use crate::packed_whole::inputs::{digits_of, packed as packed_digits};
use crate::random::Random;
use crate::releases::{BY_037, PORTED};
use crate::run::Flow;

/// Takes a case: a call and its bytes.
pub type Case<'a> = &'a mut dyn FnMut(Leaf, &[u8]) -> Flow;

/// A CCSID of each class, and some that have no meaning here.
pub const CCSIDS: [u16; 10] = [1208, 819, 37, 500, 1200, 13488, 0, 1252, 850, 65535];

/// The same where the release is what matters: most of them are unnamed.
const CCSIDS_BY_037: [u16; 8] = [1208, 819, 37, 1200, 13488, 0, 273, 65535];

/// Unnamed ones, of Germany, Norway, Britain and Japan among them.
const UNNAMED: [u16; 9] = [0, 273, 277, 285, 300, 1140, 1200, 13488, 65535];

/// CCSIDs to ask about by rule at a release.
pub fn ccsids(release: u32) -> &'static [u16] {
    match release {
        BY_037 => &CCSIDS_BY_037,
        _ => &CCSIDS,
    }
}

/// Neighbours of the CCSIDs that have a meaning, and numbers that agree with one in their low byte.
const NEAR_CCSIDS: [u16; 18] = [
    36, 38, 293, 499, 501, 244, 818, 820, 51, 1199, 1201, 176, 1207, 1209, 184, 13487, 13489, 45060,
];

/// Scales below, at and above the digits of short decimals, and the largest.
pub const SCALES: [u8; 10] = [0, 1, 2, 3, 4, 5, 31, 200, 254, 255];

/// Scales of whole numbers: what a refusal gives, what an unwritten one looks like, and one between.
const WHOLE_SCALES: [u8; 3] = [0, 2, 255];

const PRECISIONS: [u8; 4] = [PRECISION, 0, 1, 255];

/// First and last bytes of the ranges that UTF-8, UTF-16, the test for text and packed decimals tell apart.
pub const EDGE_BYTES: [u8; 32] = [
    0x00, 0x09, 0x0A, 0x0D, 0x1F, 0x20, 0x41, 0x7E, 0x7F, 0x80, 0x8F, 0x90, 0x9F, 0xA0, 0xBF, 0xC0,
    0xC1, 0xC2, 0xD7, 0xD8, 0xDB, 0xDC, 0xDF, 0xE0, 0xED, 0xEE, 0xEF, 0xF0, 0xF1, 0xF4, 0xF5, 0xFF,
];

/// First and last scalar values of the ranges that UTF-8, UTF-16 and the test for text tell apart.
const EDGE_SCALARS: [char; 24] = [
    '\0',
    '\t',
    '\n',
    '\r',
    '\u{1F}',
    ' ',
    '~',
    '\u{7F}',
    '\u{80}',
    '\u{9F}',
    '\u{A0}',
    '\u{FF}',
    '\u{100}',
    '\u{7FF}',
    '\u{800}',
    '\u{FFF}',
    '\u{1000}',
    '\u{D7FF}',
    '\u{E000}',
    '\u{FFFD}',
    '\u{FFFF}',
    '\u{10000}',
    '\u{FFFFF}',
    '\u{10FFFF}',
];

/// UTF-8, well formed and not, to stand at every place of a block of ASCII.
pub const SEQUENCES: [&[u8]; 32] = [
    b"",
    b"\x00",
    b"\x7F",
    b"\x80",
    b"\xC2",
    b"\xC2\x80",
    b"\xC2\xA0",
    b"\xDF\xBF",
    b"\xC1\xBF",
    b"\xE0\xA0\x80",
    b"\xE0\x9F\xBF",
    b"\xE0\xA0",
    b"\xE2\x82\xAC",
    b"\xE2\x82",
    b"\xED\x9F\xBF",
    b"\xED\xA0\x80",
    b"\xEF\xBF\xBD",
    b"\xF0\x90\x80\x80",
    b"\xF0\x8F\xBF\xBF",
    b"\xF0\x90\x80",
    b"\xF1\x80\x80\x80",
    b"\xF1\x80\xC2\x80",
    b"\xF4\x8F\xBF\xBF",
    b"\xF4\x90\x80\x80",
    b"\xF5\x80\x80\x80",
    b"\xF8\x88\x80\x80\x80",
    b"\xFF",
    b"\x80\xBF\x80\xBF",
    b"\xF0\x90\xF0\x90\x80\x80",
    b"\xE2\x82\xE2\x82\xAC",
    b"\xD8\x00\xDC\x00",
    b"\xDC\x00\xD8\x00",
];

/// Lengths around the blocks in which code may go.
const BLOCK_LENGTHS: [usize; 18] = [
    0, 1, 7, 8, 9, 15, 16, 17, 31, 32, 33, 63, 64, 65, 127, 128, 129, 255,
];

pub const LONG_LENGTHS: [usize; 3] = [4095, 4096, 4097];

pub const LIMIT_LENGTHS: [usize; 3] = [TEXT_LIMIT - 1, TEXT_LIMIT, TEXT_LIMIT + 1];

/// Every kind of call, each with every class of its number. Above release 2 only those that state a release: the others have been asked about.
pub fn leaves(release: u32) -> Vec<Leaf> {
    let mut all = Vec::new();
    let ccsids = ccsids(release).iter();
    all.extend(
        ccsids
            .clone()
            .map(|ccsid| Leaf::character(*ccsid).at(release)),
    );
    all.extend(ccsids.map(|ccsid| Leaf::graphic(*ccsid).at(release)));
    if release != PORTED {
        return all;
    }
    all.extend(SCALES.map(Leaf::decimal));
    all.extend(WHOLE_SCALES.map(|scale| Leaf::PackedWhole { scale }));
    all.extend([Leaf::Likely, Leaf::Locator, Leaf::RowId]);
    all
}

/// Whether a call is asked about inputs at the limit.
pub fn is_long(leaf: Leaf) -> bool {
    match leaf {
        Leaf::Character { ccsid, release } | Leaf::Graphic { ccsid, release } => {
            release == PORTED || matches!(ccsid, 0 | 1200)
        }
        _ => true,
    }
}

/// Any call; those whose code has most to decide come most often. Above release 2 one that states a release.
pub fn random_leaf(random: &mut Random, release: u32) -> Leaf {
    let end = match release {
        PORTED => 20,
        _ => 9,
    };
    match random.below(end) {
        0..=4 => Leaf::character(random_ccsid(random, release)).at(release),
        5..=8 => Leaf::graphic(random_ccsid(random, release)).at(release),
        9..=10 => Leaf::Likely,
        11..=13 => Leaf::Decimal {
            precision: random.pick(&PRECISIONS),
            scale: random_scale(random),
        },
        14 => Leaf::Locator,
        15 => Leaf::RowId,
        _ => Leaf::PackedWhole {
            scale: random_scale(random),
        },
    }
}

pub fn random_ccsid(random: &mut Random, release: u32) -> u16 {
    if release == BY_037 && !random.one_in(4) {
        return random.pick(&UNNAMED);
    }
    match random.below(16) {
        0..=4 => 1208,
        5..=12 => random.pick(&CCSIDS),
        13..=14 => random.pick(&NEAR_CCSIDS),
        _ => random.number() as u16,
    }
}

pub fn random_scale(random: &mut Random) -> u8 {
    match random.below(4) {
        0..=1 => random.below(20) as u8,
        2 => random.pick(&SCALES),
        _ => random.byte(),
    }
}

/// Mostly short; now and then long; seldom at the limit, where a case costs as much as ten thousand others.
pub fn random_length(random: &mut Random) -> usize {
    if random.one_in(1_000_000) {
        return random.pick(&LIMIT_LENGTHS);
    }
    match random.below(512) {
        0 => random.pick(&LONG_LENGTHS),
        1..=7 => random.below(600),
        8..=63 => random.pick(&BLOCK_LENGTHS),
        64..=159 => random.below(70),
        _ => random.below(21),
    }
}

/// What bytes are like.
#[derive(Debug, Clone, Copy, PartialEq, Eq)]
pub enum Style {
    Uniform,
    Edges,
    Ascii,
    AsciiWithEdges,
    AsciiWithOneHigh,
    /// Of code page 037, alone or among letters. Alone they are `@` in ASCII.
    Blanks,
    Utf8,
    DamagedUtf8,
    Utf16,
    DamagedUtf16,
    Packed,
    PackedWhole,
    DamagedPackedWhole,
}

/// Those that every call is asked about.
pub const STYLES: [Style; 10] = [
    Style::Uniform,
    Style::Edges,
    Style::Ascii,
    Style::AsciiWithEdges,
    Style::AsciiWithOneHigh,
    Style::Utf8,
    Style::DamagedUtf8,
    Style::Utf16,
    Style::DamagedUtf16,
    Style::Packed,
];

/// A style that gives the call something to decide, for the most part.
pub fn random_style(random: &mut Random, leaf: Leaf) -> Style {
    if random.one_in(3) {
        return random.pick(&STYLES);
    }
    match leaf {
        Leaf::Character { ccsid: 1208, .. } | Leaf::Likely => random.pick(&[
            Style::Utf8,
            Style::DamagedUtf8,
            Style::DamagedUtf8,
            Style::AsciiWithEdges,
        ]),
        Leaf::Graphic {
            ccsid: 1200 | 13488,
            release,
        } => match release {
            PORTED => random.pick(&[Style::Utf16, Style::DamagedUtf16, Style::DamagedUtf16]),
            _ => random.pick(&[
                Style::Utf16,
                Style::DamagedUtf16,
                Style::Ascii,
                Style::Blanks,
            ]),
        },
        Leaf::Character {
            release: BY_037, ..
        }
        | Leaf::Graphic {
            release: BY_037, ..
        } => random.pick(&[
            Style::Ascii,
            Style::Blanks,
            Style::AsciiWithOneHigh,
            Style::AsciiWithEdges,
            Style::Uniform,
        ]),
        Leaf::Character { .. } | Leaf::Graphic { .. } => random.pick(&[
            Style::Ascii,
            Style::AsciiWithOneHigh,
            Style::AsciiWithEdges,
            Style::Uniform,
        ]),
        Leaf::Decimal { .. } => Style::Packed,
        Leaf::PackedWhole { .. } => random.pick(&[
            Style::PackedWhole,
            Style::PackedWhole,
            Style::DamagedPackedWhole,
            Style::Packed,
        ]),
        Leaf::Locator | Leaf::RowId => Style::Uniform,
    }
}

/// Puts `length` bytes of a style into `data`.
pub fn fill(random: &mut Random, style: Style, length: usize, data: &mut Vec<u8>) {
    data.clear();
    match style {
        Style::Uniform => data.extend((0..length).map(|_| random.byte())),
        Style::Edges => data.extend((0..length).map(|_| random.pick(&EDGE_BYTES))),
        Style::Ascii => data.extend((0..length).map(|_| random.byte() % 128)),
        Style::AsciiWithEdges => data.extend((0..length).map(|_| match random.below(8) {
            0 => random.pick(&EDGE_BYTES),
            _ => random.byte() % 128,
        })),
        Style::AsciiWithOneHigh => {
            data.extend((0..length).map(|_| random.byte() % 128));
            if length > 0 {
                let place = random.below(length);
                data[place] |= 0x80;
            }
        }
        Style::Blanks => {
            let letters = random.one_in(2);
            data.extend((0..length).map(|_| match random.below(4) {
                0 if letters => 0x81 + random.byte() % 9,
                _ => 0x40,
            }));
        }
        Style::Utf8 | Style::DamagedUtf8 => {
            while data.len() < length {
                let scalar = random_scalar(random);
                data.extend_from_slice(scalar.encode_utf8(&mut [0; 4]).as_bytes());
            }
        }
        Style::Utf16 | Style::DamagedUtf16 => {
            while data.len() < length {
                let scalar = random_scalar(random);
                for unit in scalar.encode_utf16(&mut [0; 2]) {
                    data.extend_from_slice(&unit.to_be_bytes());
                }
            }
        }
        Style::Packed => packed(random, length, data),
        Style::PackedWhole | Style::DamagedPackedWhole => packed_whole(random, length, data),
    }
    match style {
        Style::DamagedUtf8 | Style::DamagedUtf16 => damage(random, data),
        Style::DamagedPackedWhole => damage_nibbles(random, data),
        _ => {}
    }
    // A cut sequence at the end is one more kind of damage; a text that lost bytes is filled up.
    data.resize(length, 0x20);
}

fn random_scalar(random: &mut Random) -> char {
    let end = match random.below(8) {
        0..=1 => 0x80,
        2 => 0x100,
        3 => 0x800,
        4 => 0x1_0000,
        5 => 0x11_0000,
        _ => return random.pick(&EDGE_SCALARS),
    };
    // A surrogate is no scalar value: the last before them stands in.
    char::from_u32(random.below(end) as u32).unwrap_or('\u{D7FF}')
}

/// Digits, zeros in front now and then, and a sign; now and then nibbles that are no digits.
fn packed(random: &mut Random, length: usize, data: &mut Vec<u8>) {
    let zeros = match random.below(2) {
        0 => 0,
        _ => random.below(length + 1),
    };
    let digits = if random.one_in(4) { 16 } else { 10 };
    let mut nibble = |place: usize| match place {
        _ if place < 2 * zeros => 0,
        _ => random.below(digits) as u8,
    };
    data.extend((0..length).map(|place| nibble(2 * place) << 4 | nibble(2 * place + 1)));
    if let Some(last) = data.last_mut() {
        let sign = match random.below(4) {
            0 => random.below(16) as u8,
            1 => 0xD,
            2 => 0xC,
            _ => 0xF,
        };
        *last = *last & 0xF0 | sign;
    }
}

/// A whole number, mostly in the range of 64 bits or next to it, with zeros in front, or cut where it has no room, and mostly a sign behind.
fn packed_whole(random: &mut Random, length: usize, data: &mut Vec<u8>) {
    let number = match random.below(4) {
        0 => (1 << 63) - 50 + random.below(100) as u128,
        1 => 10_u128.pow(random.below(22) as u32) - 1 + random.below(3) as u128,
        2 => u128::from(random.number()) % 10_u128.pow(random.below(21) as u32),
        _ => u128::from(random.number() >> random.below(64)),
    };
    let sign = match random.below(8) {
        0 => random.below(16),
        _ => 0xA + random.below(6),
    };
    data.extend(packed_digits(&digits_of(number), sign as u8, length));
}

/// Puts another nibble at a few places.
fn damage_nibbles(random: &mut Random, data: &mut [u8]) {
    if data.is_empty() {
        return;
    }
    for _ in 0..=random.below(3) {
        let place = random.below(data.len());
        let nibble = random.below(16) as u8;
        data[place] = match random.below(2) {
            0 => data[place] & 0xF0 | nibble,
            _ => data[place] & 0x0F | nibble << 4,
        };
    }
}

/// Damages a few places: a byte or a sixteen-bit unit changed, taken out, put in, doubled or exchanged with its neighbour.
fn damage(random: &mut Random, data: &mut Vec<u8>) {
    for _ in 0..1 + random.below(1 + data.len() / 8) {
        if data.len() < 4 {
            return;
        }
        let place = random.below(data.len() - 3);
        let even = place & !1;
        match random.below(9) {
            0 => data[place] = random.byte(),
            1 => data[place] = random.pick(&EDGE_BYTES),
            2 => data[place] ^= 1 << random.below(8),
            3 if data.len() < 5000 => drop(data.remove(place)),
            4 if data.len() < 5000 => data.insert(place, random.pick(&EDGE_BYTES)),
            5 => data[place + 1] = data[place],
            6 => data.swap(place, place + 1),
            7 => data[even] = 0xD8 + random.byte() % 8,
            _ => {
                data.swap(even, even + 2);
                data.swap(even + 1, even + 3);
            }
        }
    }
}

#[cfg(test)]
mod tests {
    use super::*;

    #[test]
    fn every_style_gives_the_length_that_is_asked_for() {
        let mut random = Random::new(1);
        let mut data = Vec::new();
        let others = [Style::Blanks, Style::PackedWhole, Style::DamagedPackedWhole];
        for style in STYLES.into_iter().chain(others) {
            for length in (0..70).chain(LONG_LENGTHS) {
                fill(&mut random, style, length, &mut data);
                assert_eq!(data.len(), length, "{style:?}");
            }
        }
    }

    #[test]
    fn good_texts_are_good_and_damaged_ones_mostly_not() {
        let mut random = Random::new(2);
        let mut data = Vec::new();
        let mut malformed = 0;
        for _ in 0..1000 {
            fill(&mut random, Style::Utf8, 400, &mut data);
            let good = std::str::from_utf8(&data);
            assert!(good.map_or_else(|error| error.valid_up_to() > 396, |_| true));
            fill(&mut random, Style::DamagedUtf8, 400, &mut data);
            malformed += usize::from(std::str::from_utf8(&data).is_err());
        }
        assert!(malformed > 900);
    }
}
