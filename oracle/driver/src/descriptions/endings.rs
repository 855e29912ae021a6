//! How descriptions end, and descriptions that end in every way.
use super::inputs::{triplet, triplets, with_columns, COMPACT, GDA, KINDS, MDD, RLO, SDA};
use super::{COLUMN_LIMIT, DESCRIPTION_LIMIT};

/// What ends the outer reading.
#[derive(Debug, Clone, Copy, PartialEq, Eq)]
pub enum Ending {
    /// No byte is left: the description is whole. All others break off.
    Whole,
    /// One byte is left.
    OneByte,
    /// Two zeros or more are, and nothing else.
    Zeros,
    /// A length of 0, and behind it not only zeros.
    LengthZero,
    LengthOne,
    /// A length past the end.
    PastEnd,
}

pub const ENDINGS: [Ending; 6] = [
    Ending::Whole,
    Ending::OneByte,
    Ending::Zeros,
    Ending::LengthZero,
    Ending::LengthOne,
    Ending::PastEnd,
];

impl Ending {
    pub fn of(data: &[u8]) -> Ending {
        match left(data) {
            [] => Ending::Whole,
            [_] => Ending::OneByte,
            left if left.iter().all(|byte| *byte == 0) => Ending::Zeros,
            [0, ..] => Ending::LengthZero,
            [1, ..] => Ending::LengthOne,
            _ => Ending::PastEnd,
        }
    }
}

/// The bytes that the outer reading leaves.
pub fn left(data: &[u8]) -> &[u8] {
    let read = triplets(data).last().map_or(0, |last| last.end);
    &data[read..]
}

/// What lets no description break off.
#[derive(Debug, Clone, Copy, PartialEq, Eq)]
pub enum Inside {
    /// The description has no byte.
    Nothing,
    /// A type is pending at the end.
    Pending,
    /// In a group of inner triplets a length of 0 or 1 or past the group's end,
    InnerBreak,
    /// or one or two bytes that are left over.
    InnerRest,
    /// One byte or two behind the columns of a group of LIDs.
    GroupRest,
    /// An SDA without a length.
    NoFields,
}

pub const INSIDES: [Inside; 6] = [
    Inside::Nothing,
    Inside::Pending,
    Inside::InnerBreak,
    Inside::InnerRest,
    Inside::GroupRest,
    Inside::NoFields,
];

impl Inside {
    /// Which of them are in a description.
    pub fn all(data: &[u8]) -> [bool; INSIDES.len()] {
        let mut all = INSIDES.map(|inside| inside == Inside::Nothing && data.is_empty());
        let triplets = triplets(data);
        for place in &triplets {
            for inside in INSIDES {
                all[inside as usize] |= inside.is_of(&data[place.clone()]);
            }
        }
        let last = triplets.last().map(|place| &data[place.clone()]);
        all[Inside::Pending as usize] = matches!(last, Some([_, MDD, _, ..]));
        all
    }

    /// Whether it is one of a triplet's.
    fn is_of(self, triplet: &[u8]) -> bool {
        match (self, triplet) {
            (Inside::GroupRest, [_, GDA, COMPACT, columns @ ..]) => columns.len() % 3 != 0,
            (_, [_, GDA, COMPACT, ..]) => false,
            // The inner reading does not look at two bytes that are left.
            (Inside::InnerRest, [_, GDA, inner @ ..]) => matches!(left(inner), [_] | [_, _]),
            (Inside::InnerBreak, [_, GDA, inner @ ..]) => left(inner).len() > 2,
            (Inside::NoFields, [_, SDA, data @ ..]) => data.len() < 3,
            _ => false,
        }
    }
}

/// Descriptions that are whole, of several sorts.
fn beginnings() -> Vec<Vec<u8>> {
    let column = [5, SDA, 0x02, 0x00, 0x04];
    let group = [6, GDA, COMPACT, 0x02, 0x00, 0x04];
    let inner = |rest: &[u8]| triplet(GDA, &[&column[..], rest].concat());
    let declared = |lid: u8| [3, MDD, 0x31, 3, SDA, lid];
    vec![
        vec![],
        column.to_vec(),
        group.to_vec(),
        inner(&[]),
        [column.to_vec(), group.to_vec(), inner(&[])].concat(),
        // An SDA without fields, one without data; a type that is pending, one that was.
        vec![3, SDA, 0x44],
        vec![2, SDA],
        [&column[..], &[3, MDD, 0x31]].concat(),
        vec![3, MDD, 0x31, 2, MDD],
        // Groups: with a rest, without a column, and all that one can hold.
        triplet(GDA, &[&group[2..], &[0x44]].concat()),
        triplet(GDA, &[&group[2..], &[0x44, 0x00]].concat()),
        vec![3, GDA, COMPACT],
        vec![4, GDA, COMPACT, 0x44],
        triplet(
            GDA,
            &[&[COMPACT], &[0x05, 0x00, 0x02].repeat(84)[..]].concat(),
        ),
        // Groups whose inside breaks off: a length of 0, of 1, past the end by one and by many; bytes left over; nothing else.
        inner(&[0, SDA, 0x02]),
        inner(&[1, SDA, 0x02]),
        inner(&[4, SDA, 0x02]),
        inner(&[0xFF, SDA, 0x02]),
        inner(&[5]),
        inner(&[0, 0]),
        vec![5, GDA, 0, SDA, 0x02],
        vec![3, GDA, 0x05],
        vec![2, GDA],
        // Declared LIDs, G's among them: the one that the second opinion puts behind.
        [&declared(0x44)[..], &[6, GDA, COMPACT, 0x44, 0x00, 0x04]].concat(),
        [&declared(0x04)[..], &[6, GDA, COMPACT, 0x04, 0x00, 0x02]].concat(),
        // Triplets that say nothing, a short one and the longest.
        vec![2, 0x99],
        vec![3, RLO, 0x44],
        triplet(0x99, &[0xFF; 253]),
    ]
}

/// A triplet's first bytes: the length is `length`, and `there` bytes are there, with what would be columns in them.
fn cut(kind: u8, length: usize, there: usize) -> Vec<u8> {
    let data: &[u8] = match kind {
        GDA => &[COMPACT, 0x04, 0x00, 0x02, 0x05, 0x00, 0x02],
        _ => &[0x02, 0x00, 0x04, 0x04, 0xB8],
    };
    let all = [length as u8, kind];
    let all = all.into_iter().chain(data.iter().copied().cycle());
    all.take(there).collect()
}

/// The kinds of triplets that are cut.
const KINDS_CUT: [u8; 6] = [SDA, RLO, GDA, MDD, COMPACT, 0x00];

/// What ends a description, the lengths past the end aside: each byte, a length of 0 or 1 with bytes behind it, zeros.
fn plain_endings() -> Vec<Vec<u8>> {
    let mut all: Vec<Vec<u8>> = (0..=0xFF).map(|byte| vec![byte]).collect();
    let column = [5, SDA, 0x02, 0x00, 0x04];
    let group = [6, GDA, COMPACT, 0x04, 0x00, 0x02];
    for length in [0, 1] {
        for kind in [0, 1, 2, SDA, GDA, MDD, 0xFF] {
            all.push(vec![length, kind]);
            all.push([&[length, kind], &column[..]].concat());
        }
        all.push([&[length], &column[..]].concat());
        all.push([&[length], &group[..]].concat());
        all.push([&[length], &column.repeat(100)[..]].concat());
    }
    for zeros in (2..=8).chain([16, 63, 64, 253, 254, 255, 256, 257, 1000]) {
        all.push(vec![0; zeros]);
        all.push([&vec![0; zeros][..], &group].concat());
    }
    // Behind it all is read again, or breaks off a second time.
    all.push([&[2, 0x99, 0], &column[..]].concat());
    all.push([&column[..], &[0xFF]].concat());
    all.push([&[2, 0x99], &group[..], &[1, 1]].concat());
    all
}

/// Lengths past the end, by one and by more: of every length with few bytes there and with few lacking, or of some.
fn cut_endings(every: bool) -> Vec<Vec<u8>> {
    let lengths: Vec<usize> = match every {
        true => (2..=0xFF).collect(),
        false => vec![2, 3, 4, 5, 6, 7, 8, 9, 12, 0x70, 0x76, 0xD0, 0xFE, 0xFF],
    };
    let mut all = Vec::new();
    for kind in KINDS_CUT {
        for length in &lengths {
            let mut there: Vec<usize> = (2..10).chain([length / 2]).collect();
            there.extend(length.saturating_sub(6).max(10)..*length);
            there.retain(|there| there < length);
            all.extend(there.iter().map(|there| cut(kind, *length, *there)));
        }
    }
    all
}

/// All first bytes of descriptions that are whole.
fn cuts() -> Vec<Vec<u8>> {
    let (good, _) = KINDS.split_at(KINDS.len() - 4);
    let mut whole = vec![good.concat()];
    whole.extend(with_columns(COLUMN_LIMIT).into_iter().take(4));
    let mut all = Vec::new();
    for whole in whole {
        for end in 0..=whole.len() {
            all.push(whole[..end].to_vec());
            all.push([&whole[..end], &[0]].concat());
            all.push([&whole[..end], &[0, 0, 5, SDA, 0x02, 0x00, 0x04]].concat());
        }
    }
    all
}

/// Short descriptions that end in every way.
pub fn short() -> Vec<Vec<u8>> {
    let beginnings = beginnings();
    let plain = plain_endings();
    let (some, every) = (cut_endings(false), cut_endings(true));
    let mut all = beginnings.clone();
    for (place, begun) in beginnings.iter().enumerate() {
        let cut = if place < 3 { &every } else { &some };
        let endings = plain.iter().chain(cut);
        all.extend(endings.map(|end| [&begun[..], end].concat()));
    }
    all.extend(cuts());
    all
}

/// Some endings of every class.
fn few() -> Vec<Vec<u8>> {
    vec![
        vec![],
        vec![2, 0x99],
        vec![3, MDD, 0x31],
        vec![5, GDA, 0, SDA, 0x02],
        vec![5, GDA, COMPACT, 0x44, 0x00],
        vec![0],
        vec![1],
        vec![5],
        vec![0xFF],
        vec![0, 0],
        vec![0; 300],
        vec![0, SDA, 0x02],
        vec![1, SDA],
        vec![2],
        vec![4, SDA, 0x02],
        vec![5, SDA],
        vec![6, GDA, COMPACT],
        vec![0xFF, SDA, 0x02],
        cut(GDA, 0xFF, 0xFE),
        vec![0, 5, SDA, 0x02, 0x00, 0x04],
    ]
}

/// Some endings behind as many columns as a list just holds and does not hold.
pub fn behind_columns() -> Vec<Vec<u8>> {
    let mut all = Vec::new();
    for count in COLUMN_LIMIT - 1..=COLUMN_LIMIT + 3 {
        for begun in with_columns(count) {
            all.extend(few().iter().map(|end| [&begun[..], end].concat()));
        }
    }
    all
}

/// Some endings of as many bytes as are just accepted and refused, with few columns and with too many.
pub fn behind_bytes() -> Vec<Vec<u8>> {
    let mut all = Vec::new();
    for count in [0, 1, COLUMN_LIMIT, COLUMN_LIMIT + 1] {
        let begun = [5, SDA, 0x02, 0x00, 0x04].repeat(count);
        for end in few() {
            for length in DESCRIPTION_LIMIT - 2..=DESCRIPTION_LIMIT + 2 {
                let filled = filled(&begun, length - end.len());
                all.push([&filled[..], &end].concat());
            }
        }
    }
    all
}

/// Bytes with triplets behind them that say nothing, up to a length.
fn filled(begun: &[u8], length: usize) -> Vec<u8> {
    let mut all = begun.to_vec();
    while all.len() < length {
        // No rest of one byte, which is no triplet.
        let size = match length - all.len() {
            256 => 0xFE,
            left => left.min(0xFF),
        };
        all.extend(triplet(0x99, &vec![0x99; size - 2]));
    }
    all
}

#[cfg(test)]
mod tests {
    use super::*;

    #[test]
    fn beginnings_are_whole_and_filled_ones_too() {
        for begun in beginnings() {
            assert_eq!(Ending::of(&begun), Ending::Whole, "{begun:02X?}");
        }
        for length in 1000..1300 {
            let filled = filled(&[2, 0x99], length);
            assert_eq!(Ending::of(&filled), Ending::Whole);
            assert_eq!(filled.len(), length);
        }
    }

    /// Every class of ending and of what is no break, in each of the three lists.
    #[test]
    fn every_class_is_there() {
        for (list, least) in [(short(), 25), (behind_columns(), 100), (behind_bytes(), 20)] {
            for ending in ENDINGS {
                let count = list
                    .iter()
                    .filter(|data| Ending::of(data) == ending)
                    .count();
                assert!(count >= least, "{ending:?}: {count}");
            }
        }
        for inside in INSIDES {
            let whole = short().into_iter().filter(|data| left(data).is_empty());
            let count = whole
                .filter(|data| Inside::all(data)[inside as usize])
                .count();
            assert!(count >= 1, "{inside:?}: {count}");
        }
    }

    #[test]
    fn known_endings() {
        for (data, ending) in [
            (&[][..], Ending::Whole),
            (&[2, 0x99], Ending::Whole),
            (&[0], Ending::OneByte),
            (&[2, 0x99, 7], Ending::OneByte),
            (&[0, 0], Ending::Zeros),
            (&[2, 0x99, 0, 0, 0], Ending::Zeros),
            (&[0, 1], Ending::LengthZero),
            (&[0, 0, 1], Ending::LengthZero),
            (&[1, 0], Ending::LengthOne),
            (&[2, 0x99, 3, 0x70], Ending::PastEnd),
        ] {
            assert_eq!(Ending::of(data), ending, "{data:02X?}");
        }
    }
}
