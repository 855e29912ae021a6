//! Descriptions: where they break off, what is refused, and in which order.
mod common;

use common::Random;
use vejupa::raw::{self, ACCEPTED, TOO_FEW_WORDS};
use vejupa::{parse_qrydsc, parse_whole_qrydsc, Columns, Description, Refusal, MAX_QRYDSC};

const INTEGER: [u8; 5] = [0x05, 0x70, 0x02, 0x00, 0x04];

/// So many Integers, and then something else.
fn integers_and(count: usize, last: &[u8]) -> Vec<u8> {
    [INTEGER.repeat(count), last.to_vec()].concat()
}

/// With any of these behind whole triplets, a description breaks off.
const ENDINGS: [&[u8]; 17] = [
    // One byte is left.
    &[0x00],
    &[0x01],
    &[0x02],
    &[0x05],
    &[0xFF],
    // A length of 0, of 1.
    &[0x00, 0x70],
    &[0x00, 0x70, 0x02, 0x00, 0x04],
    &[0x01, 0x70],
    &[0x01, 0x70, 0x02, 0x00, 0x04],
    // A length past the end.
    &[0x03, 0x70],
    &[0x05, 0x70, 0x02, 0x00],
    &[0x06, 0x70, 0x02, 0x00, 0x04],
    &[0xFF, 0x76, 0xD0, 0x02, 0x00, 0x04],
    // Zeros.
    &[0x00, 0x00],
    &[0x00; 40],
    // Whole triplets behind it are not read.
    &[0x00, 0x05, 0x70, 0x02, 0x00, 0x04],
    &[0x01, 0x70, 0x05, 0x70, 0x02, 0x00, 0x04],
];

/// With these it does not, and has so many columns more.
const NO_ENDINGS: [(&[u8], usize); 17] = [
    // Nothing: the empty description, or a cut between two triplets.
    (&[], 0),
    // An SDA without data, or without some of its fields.
    (&[0x02, 0x70], 0),
    (&[0x03, 0x70, 0x02], 1),
    (&[0x04, 0x70, 0x02, 0x00], 1),
    // A type that no SDA follows.
    (&[0x02, 0x78], 0),
    (&[0x03, 0x78, 0x31], 0),
    // Triplets that are passed over.
    (&[0x02, 0x71], 0),
    (&[0x05, 0x7F, 0x02, 0x00, 0x04], 0),
    // A rest within a D0 group.
    (&[0x03, 0x76, 0xD0], 0),
    (&[0x05, 0x76, 0xD0, 0x02, 0x00], 0),
    (&[0x08, 0x76, 0xD0, 0x02, 0x00, 0x04, 0x02, 0x00], 1),
    // Within another group: a rest, a length of 0, of 1, one that runs out of it.
    (&[0x03, 0x76, 0x05], 0),
    (&[0x09, 0x76, 0x05, 0x70, 0x02, 0x00, 0x04, 0x05, 0x70], 1),
    (
        &[0x0A, 0x76, 0x05, 0x70, 0x02, 0x00, 0x04, 0x00, 0x70, 0x02],
        1,
    ),
    (
        &[0x0A, 0x76, 0x05, 0x70, 0x02, 0x00, 0x04, 0x01, 0x70, 0x02],
        1,
    ),
    (
        &[0x0A, 0x76, 0x05, 0x70, 0x02, 0x00, 0x04, 0x04, 0x70, 0x02],
        1,
    ),
    (
        &[0x0A, 0x76, 0x05, 0x70, 0x02, 0x00, 0x04, 0xFF, 0x70, 0x02],
        1,
    ),
];

/// Both calls accept it, with the same columns, and it does not break off.
fn is_whole(data: &[u8], count: usize) {
    let description = parse_qrydsc(data).unwrap();
    assert!(!description.broken_off, "{data:X?}");
    assert_eq!(description.columns.len(), count, "{data:X?}");
    assert_eq!(Columns::parse_whole(data).unwrap(), description.columns);
    let one_by_one: Vec<_> = description.columns.iter().collect();
    assert_eq!(parse_whole_qrydsc(data), Ok(one_by_one));
}

/// It breaks off, with these columns up to there.
fn breaks_off(data: &[u8], columns: &Columns) {
    let description = parse_qrydsc(data).unwrap();
    assert!(description.broken_off, "{data:X?}");
    assert_eq!(&description.columns, columns, "{data:X?}");
    is_refused_as_a_whole(data, Refusal::QrydscBrokenOff);
}

fn is_refused_as_a_whole(data: &[u8], refusal: Refusal) {
    assert_eq!(parse_whole_qrydsc(data), Err(refusal));
    assert_eq!(Columns::parse_whole(data), Err(refusal));
}

#[test]
fn endings_that_break_off() {
    for count in [0, 1, 2, 127, 128] {
        let columns = Columns::parse_whole(&INTEGER.repeat(count)).unwrap();
        for ending in ENDINGS {
            breaks_off(&integers_and(count, ending), &columns);
        }
    }
}

/// A type that is pending does not change it, nor does a group before it.
#[test]
fn endings_behind_other_triplets() {
    for (before, count) in NO_ENDINGS {
        let columns = Columns::parse_whole(before).unwrap();
        assert_eq!(columns.len(), count);
        for ending in ENDINGS {
            breaks_off(&[before, ending].concat(), &columns);
        }
    }
}

#[test]
fn endings_that_do_not_break_off() {
    for count in [0, 1, 2, 127] {
        for (last, more) in NO_ENDINGS {
            is_whole(&integers_and(count, last), count + more);
        }
    }
    assert_eq!(parse_qrydsc(&[]), Ok(Description::default()));
}

/// An environment entry, a D0 group, an SDA and a group of one, cut anywhere: between two triplets it is whole.
#[test]
fn every_cut() {
    let triplets: [&[u8]; 5] = [
        &[0x03, 0x78, 0x31],
        &[0x08, 0x70, 0x40, 0x00, 0x00, 0x00, 0x00, 0x25],
        &[0x09, 0x76, 0xD0, 0x02, 0x00, 0x04, 0x40, 0x00, 0x08],
        &INTEGER,
        &[0x07, 0x76, 0x05, 0x70, 0x02, 0x00, 0x04],
    ];
    let counts = [0, 0, 0, 2, 3, 4];
    for whole in 0..=triplets.len() {
        let mut data = triplets[..whole].concat();
        is_whole(&data, counts[whole]);
        let columns = Columns::parse_whole(&data).unwrap();
        let next = triplets.get(whole).copied().unwrap_or_default();
        for byte in next.iter().take(next.len().saturating_sub(1)) {
            data.push(*byte);
            breaks_off(&data, &columns);
        }
    }
}

/// Whether bytes are left behind the last whole triplet, counted here once more.
fn are_left(mut rest: &[u8]) -> bool {
    while let [length @ 2..=u8::MAX, _, ..] = *rest {
        match rest.get(usize::from(length)..) {
            Some(behind) => rest = behind,
            None => break,
        }
    }
    !rest.is_empty()
}

/// Triplets, and now and then what is none, one behind the other.
fn some_description(random: &mut Random) -> Vec<u8> {
    let mut data = Vec::new();
    for _ in 0..random.below(12) {
        match random.below(24) {
            0 => data.extend(random.pick(&ENDINGS)),
            1 => data.push(random.below(256) as u8),
            _ => data.extend(random.pick(&NO_ENDINGS).0),
        }
    }
    data
}

#[test]
fn some_descriptions() {
    let mut random = Random(0x9E37_79B9_7F4A_7C15);
    let (mut broken_off, mut whole) = (0, 0);
    for _ in 0..50_000 {
        let data = some_description(&mut random);
        let description = parse_qrydsc(&data).unwrap();
        match are_left(&data) {
            true => {
                breaks_off(&data, &description.columns);
                broken_off += 1;
            }
            false => {
                is_whole(&data, description.columns.len());
                whole += 1;
            }
        }
    }
    assert!(
        broken_off > 10_000 && whole > 10_000,
        "{broken_off} {whole}"
    );
}

/// So many bytes that have no column, of whole triplets.
fn passed_over(bytes: usize) -> Vec<u8> {
    let mut data = Vec::new();
    while data.len() < bytes {
        // No length of 1 is left over for the last one.
        let length = (bytes - data.len()).min(200);
        data.extend([length as u8, 0x71]);
        data.resize(data.len() + length - 2, 0);
    }
    data
}

#[test]
fn refusals_in_their_order() {
    let too_long = [vec![0; MAX_QRYDSC + 1], passed_over(MAX_QRYDSC + 1)];
    for data in too_long {
        assert_eq!(data.len(), MAX_QRYDSC + 1);
        assert_eq!(parse_qrydsc(&data), Err(Refusal::QrydscTooLong));
        is_refused_as_a_whole(&data, Refusal::QrydscTooLong);
    }
    is_whole(&passed_over(MAX_QRYDSC), 0);
    breaks_off(&[0; MAX_QRYDSC], &Columns::default());

    is_whole(&INTEGER.repeat(128), 128);
    let too_many = INTEGER.repeat(129);
    assert_eq!(parse_qrydsc(&too_many), Err(Refusal::TooManyColumns));
    is_refused_as_a_whole(&too_many, Refusal::TooManyColumns);
    for ending in ENDINGS {
        let data = integers_and(129, ending);
        assert_eq!(parse_qrydsc(&data), Err(Refusal::TooManyColumns));
        is_refused_as_a_whole(&data, Refusal::QrydscBrokenOff);
    }

    let all_three = [INTEGER.repeat(129), vec![0; MAX_QRYDSC]].concat();
    assert_eq!(parse_qrydsc(&all_three), Err(Refusal::QrydscTooLong));
    is_refused_as_a_whole(&all_three, Refusal::QrydscTooLong);
}

/// What stands in words that are not written.
const UNTOUCHED: u64 = 0xA5A5_A5A5_A5A5_A5A5;

/// The first words are those of so many Integers, where they were accepted. No other is changed.
fn are_written(words: &[u64], number: u32, count: usize) {
    let columns = if number == ACCEPTED { count } else { 0 };
    for (k, column) in words.chunks(2).enumerate() {
        let integer = [0x0002_0000_0200_0001 | (k as u64) << 32, 4];
        match k < columns {
            true => assert_eq!(column, integer),
            false => assert!(column.iter().all(|word| *word == UNTOUCHED)),
        }
    }
}

/// What the raw calls answer on a description of Integers, with so many words: `parse_qrydsc` number, count and flag, `parse_whole_qrydsc`
/// number and count.
fn in_words(data: &[u8], room: usize) -> ((u32, usize, u32), (u32, usize)) {
    let mut words = vec![UNTOUCHED; room];
    let any = raw::parse_qrydsc(data, &mut words);
    are_written(&words, any.number, any.count);

    words.fill(UNTOUCHED);
    let whole = raw::parse_whole_qrydsc(data, &mut words);
    are_written(&words, whole.number, whole.count);
    (
        (any.number, any.count, any.broken_off),
        (whole.number, whole.count),
    )
}

/// Where there are too few words both say how many columns there are, and neither flag nor word is set. Breaking off comes before it.
#[test]
fn too_few_words() {
    let two = INTEGER.repeat(2);
    for room in 0..8 {
        let expected = match room {
            0..=3 => ((TOO_FEW_WORDS, 2, 0), (TOO_FEW_WORDS, 2)),
            _ => ((ACCEPTED, 2, 0), (ACCEPTED, 2)),
        };
        assert_eq!(in_words(&two, room), expected);
        for ending in ENDINGS {
            let expected = match room {
                0..=3 => ((TOO_FEW_WORDS, 2, 0), (15, 0)),
                _ => ((ACCEPTED, 2, 1), (15, 0)),
            };
            assert_eq!(in_words(&integers_and(2, ending), room), expected);
        }
    }
    assert_eq!(in_words(&[], 0), ((ACCEPTED, 0, 0), (ACCEPTED, 0)));
    assert_eq!(in_words(&[0], 0), ((ACCEPTED, 0, 1), (15, 0)));
}

/// After a refusal count and flag are 0, and no word is changed, however many there are.
#[test]
fn refusals_in_words() {
    for room in [0, 1, 2, 256, 258, 300] {
        let too_long = [0; MAX_QRYDSC + 1];
        assert_eq!(in_words(&too_long, room), ((1, 0, 0), (1, 0)));
        let too_many = INTEGER.repeat(129);
        assert_eq!(in_words(&too_many, room), ((2, 0, 0), (2, 0)));
        let and_a_byte = integers_and(129, &[0x05]);
        assert_eq!(in_words(&and_a_byte, room), ((2, 0, 0), (15, 0)));
    }
}
