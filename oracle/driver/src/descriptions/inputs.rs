//! Descriptions to ask about.
use super::{COLUMN_LIMIT, DESCRIPTION_LIMIT};
use crate::random::Random;
use std::ops::Range;

pub const SDA: u8 = 0x70;
pub const RLO: u8 = 0x71;
pub const GDA: u8 = 0x76;
pub const MDD: u8 = 0x78;
/// The first byte of a group of LIDs.
pub const COMPACT: u8 = 0xD0;

/// Triplets of every kind, to stand in sequences. LID 44 is declared where an MDD with data stands before one of its SDAs; an SDA
/// that no such MDD precedes is a column. The first two are declarations, so that short sequences have two of them and a
/// reference. The last four end the reading.
pub const KINDS: [&[u8]; 40] = [
    &[3, MDD, 0x33, 3, SDA, 0x44],
    &[3, MDD, 0x51, 8, SDA, 0x44, 0x00, 0x00, 0x00, 0x01, 0xF4],
    // MDDs: without data, and with types that the two tables or the nullable bit tell apart.
    &[2, MDD],
    &[3, MDD, 0x00],
    &[3, MDD, 0x30],
    &[3, MDD, 0x31],
    &[3, MDD, 0x50],
    &[3, MDD, 0x51],
    &[4, MDD, 0x31, 0x0C],
    &[3, MDD, 0x0A],
    &[3, MDD, 0xCE],
    &[3, MDD, 0xC8],
    // SDAs: without data, with one byte, with two CCSIDs at the place where a declaration has it, and columns.
    &[2, SDA],
    &[3, SDA, 0x44],
    &[8, SDA, 0x44, 0x00, 0x00, 0x00, 0x04, 0xB8],
    &[8, SDA, 0x44, 0x00, 0x00, 0x00, 0x00, 0x25],
    &[5, SDA, 0x02, 0x00, 0x04],
    &[7, SDA, 0x30, 0x00, 0x0A, 0x04, 0xB8],
    &[5, SDA, 0x33, 0x80, 0x0A],
    &[9, SDA, 0x0D, 0x00, 0x03, 0x05, 0x02, 0x00, 0x25],
    &[5, SDA, 0xC9, 0x80, 0x0A],
    &[5, SDA, 0x51, 0x00, 0x08],
    // Groups: LID 44, with a rest of one byte and of two, others, and too short for one column.
    &[6, GDA, COMPACT, 0x44, 0x80, 0x05],
    &[7, GDA, COMPACT, 0x44, 0x00, 0x03, 0x44],
    &[
        11, GDA, COMPACT, 0x0A, 0x00, 0x08, 0x02, 0x00, 0x04, 0x30, 0x00,
    ],
    &[9, GDA, COMPACT, 0x0F, 0x05, 0x02, 0x44, 0x00, 0x09],
    &[6, GDA, COMPACT, 0xCE, 0x80, 0x0A],
    &[5, GDA, COMPACT, 0x44, 0x00],
    // Groups of inner triplets: a column, a column behind an unknown one, lengths 0, 1 and too long, the last behind what would be an entry outside, no data.
    &[7, GDA, 5, SDA, 0x02, 0x00, 0x04],
    &[10, GDA, 3, 0x99, 0x00, 5, SDA, 0x31, 0x00, 0x05],
    &[8, GDA, 3, SDA, 0x44, 0, SDA, 0x02],
    &[5, GDA, 1, SDA, 0x02],
    &[12, GDA, 3, MDD, 0x31, 3, SDA, 0x44, 5, SDA, 0x02, 0x00],
    &[2, GDA],
    &[3, RLO, 0x44],
    &[3, 0x75, 0x44],
    &[0, SDA, 0x02],
    &[1, SDA],
    &[0xFF, SDA],
    &[5],
];

/// Lengths around those that types and reference lengths tell apart.
const LENGTHS: [u16; 12] = [
    0, 1, 3, 7, 8, 9, 0x00FF, 0x0100, 0x7FFF, 0x8000, 0x8004, 0xFFFF,
];

/// What follows an SDA's length: two bytes CCSID, or two of precision and scale and two of CCSID.
const TAILS: [[u8; 5]; 4] = [
    [0x00, 0x00, 0x00, 0x00, 0x00],
    [0x00, 0x25, 0x00, 0x00, 0x01],
    [0x04, 0xB8, 0x00, 0x25, 0x09],
    [0xFF, 0x00, 0x01, 0x00, 0xFF],
];

/// Attribute bytes: as precision and scale, or as a length.
const ATTRIBUTES: [u8; 8] = [0, 1, 2, 5, 31, 0x7F, 0x80, 0xFF];

/// A triplet of a type and data of at most 253 bytes.
pub fn triplet(kind: u8, data: &[u8]) -> Vec<u8> {
    let length = u8::try_from(data.len() + 2).expect("fits a length byte");
    [&[length, kind], data].concat()
}

/// Every place at which a byte says which type is meant, or which triplet, with this byte there.
pub fn of_code(code: u8) -> Vec<Vec<u8>> {
    let mut all = Vec::new();
    for length in LENGTHS {
        let [high, low] = length.to_be_bytes();
        for [a, b, c, d, e] in TAILS {
            let data = [code, high, low, a, b, c, d, e];
            for end in 1..=data.len() {
                let column = triplet(SDA, &data[..end]);
                all.push(triplet(GDA, &column));
                all.push(column);
            }
        }
        for lid in [code, 0x44, 0x0E, 0x00, 0xFF] {
            let data = [lid, 0x12, 0x34, 0x56, 0x04, 0xB8, 0x78, 0x9A];
            for end in 1..=data.len() {
                all.push(declared(code, &data[..end], &[lid, high, low]));
            }
        }
        all.push(triplet(GDA, &[COMPACT, code, high, low]));
    }
    for high in ATTRIBUTES {
        for low in ATTRIBUTES {
            all.push(triplet(GDA, &[COMPACT, code, high, low]));
        }
    }
    // As the type of a triplet that pending may outlive, of an inner one, as a group's first byte and as a length.
    let column = [5, SDA, 0x31, 0x00, 0x04];
    let pending = [3, MDD, 0x31];
    let group = [6, GDA, COMPACT, 0x31, 0x00, 0x04];
    for data in [&[][..], &[0x31], &[COMPACT, 0x02, 0x00, 0x04]] {
        all.push([&pending, &triplet(code, data)[..], &column, &group].concat());
        all.push(triplet(GDA, &[&triplet(code, data)[..], &column].concat()));
    }
    all.push(triplet(GDA, &[&[code], &column[..], &column].concat()));
    all.push([&[code], &column[..]].concat().repeat(50));
    all.extend(declared_or_not(code));
    all
}

/// Groups with a LID, before its entry and behind it, and behind what is no entry for it.
fn declared_or_not(lid: u8) -> Vec<Vec<u8>> {
    let group = [6, GDA, COMPACT, lid, 0x00, 0x04];
    let other = [lid ^ 0x40, 0x00, 0x04];
    let both = triplet(GDA, &[&group[2..], &other, &group[3..]].concat());
    let (mdd, sda) = ([3, MDD, 0x31], [3, SDA, lid]);
    let entry = [mdd, sda].concat();
    vec![
        [&group[..], &entry, &group, &group].concat(),
        [&entry[..], &entry, &both].concat(),
        [&both[..], &entry, &both].concat(),
        [&triplet(GDA, &entry)[..], &group].concat(),
        [&[2, MDD], &sda[..], &group].concat(),
        [&mdd[..], &[2, SDA], &group].concat(),
        [&mdd[..], &[2, 0x99], &sda, &group].concat(),
        [&mdd[..], &group, &sda, &group].concat(),
    ]
}

/// A declaration by an MDD of a type and an SDA with this data, and a group of one column.
fn declared(code: u8, sda: &[u8], column: &[u8; 3]) -> Vec<u8> {
    let group = [&[COMPACT], &column[..]].concat();
    [
        triplet(MDD, &[code]),
        triplet(SDA, sda),
        triplet(GDA, &group),
    ]
    .concat()
}

/// Descriptions at the two limits, and at both at once.
pub fn at_limits() -> Vec<Vec<u8>> {
    let mut all = Vec::new();
    let counts = COLUMN_LIMIT - 2..=COLUMN_LIMIT + 3;
    let begun: Vec<Vec<u8>> = counts.flat_map(with_columns).collect();
    for begun in &begun {
        for end in [&[][..], &[2, 0x99], &[0], &[0xFF, SDA]] {
            all.push([&begun[..], end].concat());
        }
    }
    for begun in &begun {
        for length in DESCRIPTION_LIMIT - 1..=DESCRIPTION_LIMIT + 1 {
            all.push(padded(begun, &[2, 0x99], length));
            all.push(padded(begun, &[0], length));
        }
    }
    for length in DESCRIPTION_LIMIT - 3..=DESCRIPTION_LIMIT + 3 {
        for part in [
            &[0][..],
            &[0xFF],
            &[2, 0x99],
            &[2, SDA],
            &[2, GDA],
            &[3, MDD, 0x31],
            &[3, SDA, 0x31],
            &[255, 0x99],
        ] {
            all.push(padded(&[], part, length));
        }
    }
    all
}

/// So many columns by SDAs, by groups of several sizes, by inner SDAs, and by one after another of these.
pub fn with_columns(count: usize) -> Vec<Vec<u8>> {
    let single = |count: usize| [5, SDA, 0x02, 0x00, 0x04].repeat(count);
    let inner = |count: usize| triplet(GDA, &[3, SDA, 0x05].repeat(count));
    let compact = |count: usize| {
        let threes = [0x05, 0x00, 0x02].repeat(count);
        triplet(GDA, &[&[COMPACT], &threes[..]].concat())
    };
    // A group holds at most 84 columns.
    let groups = |group: &dyn Fn(usize) -> Vec<u8>, count: usize, size: usize| {
        let mut all = group(size).repeat(count / size);
        all.extend(group(count % size));
        all
    };
    let mut all = vec![
        single(count),
        groups(&compact, count, 1),
        groups(&compact, count, 84),
        groups(&inner, count, 84),
    ];
    for last in [1, 2, 3, 83, 84] {
        let first = count - last;
        all.push([single(first), compact(last)].concat());
        all.push([single(first), inner(last)].concat());
        all.push([groups(&compact, first, 84), inner(last)].concat());
        all.push([groups(&inner, first, 84), single(last)].concat());
    }
    all
}

/// Bytes with a part behind them again and again, up to a length; the last part may be cut.
fn padded(begun: &[u8], part: &[u8], length: usize) -> Vec<u8> {
    let rest = part.iter().cycle();
    begun.iter().chain(rest).take(length).copied().collect()
}

/// The triplets that the outer reading finds.
pub fn triplets(data: &[u8]) -> Vec<Range<usize>> {
    let mut all = Vec::new();
    let mut start = 0;
    while start + 2 <= data.len() {
        let length = usize::from(data[start]);
        if length < 2 || start + length > data.len() {
            break;
        }
        all.push(start..start + length);
        start += length;
    }
    all
}

/// Type codes and LIDs that have a meaning somewhere, and neighbours.
const CODES: [u8; 64] = [
    0x00, 0x01, 0x02, 0x03, 0x04, 0x05, 0x0A, 0x0B, 0x0C, 0x0D, 0x0E, 0x0F, 0x16, 0x17, 0x18, 0x1A,
    0x1C, 0x1D, 0x1E, 0x1F, 0x20, 0x22, 0x24, 0x25, 0x30, 0x31, 0x32, 0x33, 0x34, 0x35, 0x36, 0x37,
    0x38, 0x39, 0x3A, 0x3B, 0x3C, 0x3D, 0x3E, 0x3F, 0x44, 0x50, 0x51, 0x52, 0x60, 0x62, 0xBA, 0xBB,
    0xBE, 0xC6, 0xC7, 0xC8, 0xC9, 0xCA, 0xCB, 0xCC, 0xCD, 0xCE, 0xCF, 0xD0, 0xD1, 0xDC, 0xDD, 0xFF,
];

/// The LIDs that random descriptions declare most, so that they are declared again and referred to.
const LIDS: [u8; 6] = [0x40, 0x44, 0x0A, 0x0E, 0x51, 0xC8];

fn random_code(random: &mut Random) -> u8 {
    match random.below(8) {
        0 => random.byte(),
        1 => random.pick(&LIDS),
        _ => random.pick(&CODES),
    }
}

fn random_lid(random: &mut Random) -> u8 {
    match random.below(4) {
        0 => random_code(random),
        _ => random.pick(&LIDS),
    }
}

fn random_pair(random: &mut Random) -> [u8; 2] {
    match random.below(4) {
        0 => [random.byte(), random.byte()],
        1 => [random.pick(&ATTRIBUTES), random.pick(&ATTRIBUTES)],
        _ => random.pick(&LENGTHS).to_be_bytes(),
    }
}

/// Some bytes, mostly few.
fn random_bytes(random: &mut Random, most: usize) -> Vec<u8> {
    let most = if random.one_in(50) { most } else { most.min(6) };
    (0..random.below(most + 1)).map(|_| random.byte()).collect()
}

/// An SDA's data: whole or cut, seldom with more behind it.
fn random_sda(random: &mut Random, first: u8) -> Vec<u8> {
    let mut data = vec![first];
    for _ in 0..3 {
        data.extend(random_pair(random));
    }
    data.push(random.byte());
    match random.below(8) {
        0 => data.truncate(random.below(data.len() + 1)),
        1..=3 => data.truncate(5),
        4 => data.truncate(3),
        5 => data.extend(random_bytes(random, 200)),
        _ => {}
    }
    data
}

fn random_group(random: &mut Random) -> Vec<u8> {
    let count = match random.below(64) {
        0 => random.below(84),
        _ => random.below(6),
    };
    let mut data = vec![COMPACT];
    for _ in 0..count {
        data.push(random_lid(random));
        data.extend(random_pair(random));
    }
    if random.one_in(4) {
        data.extend(random_bytes(random, 2));
    }
    data
}

fn random_inner(random: &mut Random) -> Vec<u8> {
    let mut data = Vec::new();
    for _ in 0..random.below(4) {
        let code = random_code(random);
        let mut inner = match random.below(8) {
            0 => triplet(MDD, &[code]),
            1 => triplet(GDA, &random_group(random)[..1]),
            2 => triplet(random.byte(), &random_bytes(random, 6)),
            _ => triplet(SDA, &random_sda(random, code)),
        };
        if random.one_in(12) {
            inner[0] = random_bad_length(random);
        }
        data.extend(inner);
    }
    data.truncate(253);
    data
}

fn random_bad_length(random: &mut Random) -> u8 {
    match random.below(4) {
        0 => 0,
        1 => 1,
        2 => 0xFF,
        _ => random.byte(),
    }
}

/// One triplet, or a declaration of two.
fn random_triplets(random: &mut Random) -> Vec<u8> {
    let code = random_code(random);
    match random.below(32) {
        0..=1 => triplet(MDD, &random_bytes(random, 253)),
        2..=3 => triplet(MDD, &[code]),
        4 => triplet(SDA, &[]),
        5..=11 => triplet(SDA, &random_sda(random, code)),
        12..=17 => {
            let lid = random_lid(random);
            [
                triplet(MDD, &[code]),
                triplet(SDA, &random_sda(random, lid)),
            ]
            .concat()
        }
        18..=25 => triplet(GDA, &random_group(random)),
        26..=28 => triplet(GDA, &random_inner(random)),
        29 => triplet(RLO, &random_bytes(random, 253)),
        30 => triplet(random.byte(), &random_bytes(random, 253)),
        _ => [
            &[random_bad_length(random), SDA],
            &random_sda(random, code)[..],
        ]
        .concat(),
    }
}

/// Changes a few places: a byte changed, taken out, put in, or the end cut off.
fn damage(random: &mut Random, data: &mut Vec<u8>) {
    for _ in 0..1 + random.below(3) {
        if data.is_empty() {
            return;
        }
        let place = random.below(data.len());
        match random.below(6) {
            0 => data[place] = random.byte(),
            1 => data[place] = random_code(random),
            2 => data[place] = random.pick(&[0, 1, 2, 3, SDA, GDA, MDD, COMPACT]),
            3 => drop(data.remove(place)),
            4 => data.insert(place, random_code(random)),
            _ => data.truncate(place),
        }
    }
}

/// Mostly a few triplets, good or damaged; now and then so many columns as are just accepted or refused, seldom so many bytes.
pub fn random_description(random: &mut Random, data: &mut Vec<u8>) {
    data.clear();
    let count = match random.below(1024) {
        0..=7 => return data.extend((0..random.below(24)).map(|_| random.byte())),
        8..=15 => 40 + random.below(40),
        16..=100 => random.below(40),
        _ => 1 + random.below(8),
    };
    for _ in 0..count {
        data.extend(random_triplets(random));
    }
    if random.one_in(3) {
        damage(random, data);
    }
    if random.one_in(50_000) {
        let length = DESCRIPTION_LIMIT - 2 + random.below(5);
        data.extend(padded(&[], &[2, 0x99], length.saturating_sub(data.len())));
    }
}

#[cfg(test)]
mod tests {
    use super::*;
    use crate::descriptions::rust_side::parsed;

    #[test]
    fn columns_as_many_as_asked_for() {
        for count in [126, 128, 131] {
            for data in with_columns(count) {
                assert_eq!(parsed(&data).len(), count, "{data:02X?}");
            }
        }
    }

    #[test]
    fn the_kinds_are_triplets_but_for_the_last_four() {
        let (good, bad) = KINDS.split_at(KINDS.len() - 4);
        assert_eq!(triplets(good[0]), [0..3, 3..6]);
        assert_eq!(triplets(good[1]), [0..3, 3..11]);
        for kind in &good[2..] {
            assert_eq!(triplets(kind), [0..kind.len()], "{kind:02X?}");
        }
        for kind in bad {
            assert_eq!(triplets(kind), [], "{kind:02X?}");
        }
    }
}
