//! What a wrong library says of whether a description breaks off: the part of `faults` that is about that, by both calls and by value.
use super::endings::{left, Ending, Inside};
use super::faults::Fault;
use super::inputs::{triplets, GDA, MDD, RLO, SDA};
use super::port_side::{Archive, Library, AMPLE};
use super::{Parser, BREAKS_OFF, COLUMN_LIMIT};
use port::{by_value, Described, TOO_FEW_WORDS};

/// What a call answers, with the words that belong to it.
pub fn parse(fault: Fault, parser: Parser, data: &[u8], words: &mut [u64]) -> Described {
    if (fault, parser) == (Fault::OneColumnFewer, Parser::Whole) {
        return one_fewer(data, words);
    }
    let Some(broken_off) = breaks_off(fault, data) else {
        let answer = Archive.parse(parser, data, words);
        return match parser {
            Parser::Ported => wrong_flag(fault, data, answer, words.len()),
            Parser::Whole => wrong_number(fault, data, answer, words.len()),
        };
    };
    if parser == Parser::Whole && broken_off && ported(data).number != 1 {
        return refused(BREAKS_OFF);
    }
    let answer = Archive.parse(Parser::Ported, data, words);
    let is_set = parser == Parser::Ported && answer.number == 0 && broken_off;
    Described {
        broken_off: u32::from(is_set),
        ..answer
    }
}

/// What `Parser::Ported` answers without words.
fn ported(data: &[u8]) -> Described {
    Archive.parse(Parser::Ported, data, &mut [])
}

fn refused(number: u32) -> Described {
    Described {
        number,
        count: 0,
        broken_off: 0,
    }
}

/// Whether a description breaks off, by a library with a wrong notion of that; None where the fault is another.
fn breaks_off(fault: Fault, data: &[u8]) -> Option<bool> {
    let left = left(data);
    // What ends the reading is no byte, or the byte that is a length.
    let first = left.first().copied();
    let lacks = first.map_or(0, |length| usize::from(length).saturating_sub(left.len()));
    let is_broken = first.is_some();
    let has = |inside: Inside| Inside::all(data)[inside as usize];
    let ending = Ending::of(data);
    Some(match fault {
        Fault::OneByteIsWhole => is_broken && ending != Ending::OneByte,
        Fault::OneZeroIsWhole => is_broken && left != [0],
        Fault::TwoBytesAreWhole => is_broken && left.len() != 2,
        Fault::ZerosAreWhole => is_broken && ending != Ending::Zeros,
        Fault::LengthZeroIsWhole => is_broken && ending != Ending::LengthZero,
        Fault::LengthOneIsWhole => is_broken && ending != Ending::LengthOne,
        Fault::PastEndIsWhole => is_broken && ending != Ending::PastEnd,
        Fault::OnePastIsWhole => is_broken && lacks != 1,
        Fault::ManyPastIsWhole => is_broken && lacks < 0x80,
        Fault::FullIsWhole => is_broken && columns(data) != Some(COLUMN_LIMIT),
        Fault::NoColumnIsWhole => is_broken && columns(data) != Some(0),
        Fault::AllWhole => false,
        Fault::EmptyIsBroken => is_broken || has(Inside::Nothing),
        Fault::PendingIsBroken => is_broken || has(Inside::Pending),
        Fault::InnerBreakIsBroken => is_broken || has(Inside::InnerBreak),
        Fault::InnerRestIsBroken => is_broken || has(Inside::InnerRest),
        Fault::GroupRestIsBroken => is_broken || has(Inside::GroupRest),
        Fault::NoFieldsIsBroken => is_broken || has(Inside::NoFields),
        Fault::NoDataIsBroken => is_broken || last(data).is_some_and(|last| last.len() == 2),
        Fault::UnknownIsBroken => {
            let known = [SDA, RLO, GDA, MDD];
            is_broken || last(data).is_some_and(|last| !known.contains(&last[1]))
        }
        Fault::NoColumnIsBroken => is_broken || columns(data) == Some(0),
        Fault::AllBroken => true,
        Fault::BrokenSwapped => !is_broken,
        _ => return None,
    })
}

/// The last triplet that is read.
fn last(data: &[u8]) -> Option<&[u8]> {
    triplets(data).last().map(|place| &data[place.clone()])
}

/// How many columns there are; None where there are too many, or too many bytes.
fn columns(data: &[u8]) -> Option<usize> {
    match ported(data) {
        Described {
            number: 0 | TOO_FEW_WORDS,
            count,
            ..
        } => Some(count),
        _ => None,
    }
}

/// A right answer of `Parser::Ported` with a wrong flag, where the fault is one.
fn wrong_flag(fault: Fault, data: &[u8], answer: Described, lent: usize) -> Described {
    let flag = |is_set: bool| Described {
        broken_off: u32::from(is_set),
        ..answer
    };
    let is_broken = Ending::of(data) != Ending::Whole;
    match (fault, answer.number) {
        (Fault::FlagIsTwo, 0) => Described {
            broken_off: 2 * answer.broken_off,
            ..answer
        },
        (Fault::FlagBesideOne, 1) => flag(is_broken),
        (Fault::FlagBesideTwo, 2) => flag(is_broken),
        (Fault::FlagBeside101, TOO_FEW_WORDS) => flag(is_broken),
        (Fault::FlagUnwritten, 2) => Described {
            broken_off: u32::MAX,
            ..answer
        },
        (Fault::FlagLostInExact, 0) if lent == 2 * answer.count => flag(false),
        _ => answer,
    }
}

/// A right answer of `Parser::Whole` with a wrong number, where the fault is one.
fn wrong_number(fault: Fault, data: &[u8], answer: Described, lent: usize) -> Described {
    let is_broken = Ending::of(data) != Ending::Whole;
    match (fault, answer.number) {
        (Fault::TwoFirst, BREAKS_OFF) if columns(data).is_none() => refused(2),
        (Fault::FifteenFirst, 1) if is_broken => refused(BREAKS_OFF),
        (Fault::TooFewBeforeFifteen, BREAKS_OFF)
            if columns(data).is_some_and(|count| lent < 2 * count) =>
        {
            ported(data)
        }
        (Fault::FifteenIsTwo, BREAKS_OFF) => refused(2),
        (Fault::TwoIsFifteen, 2) => refused(BREAKS_OFF),
        (Fault::FifteenWithCount, BREAKS_OFF) => Described {
            count: columns(data).unwrap_or(0),
            ..answer
        },
        _ => answer,
    }
}

/// What `Parser::Whole` answers, with the last column left out.
fn one_fewer(data: &[u8], words: &mut [u64]) -> Described {
    let mut own = [0; AMPLE];
    let answer = Archive.parse(Parser::Whole, data, &mut own);
    let count = answer.count.saturating_sub(1);
    let used = 2 * count;
    let number = match answer.number {
        0 if words.len() < used => TOO_FEW_WORDS,
        number => number,
    };
    if number == 0 {
        words[..used].copy_from_slice(&own[..used]);
    }
    Described {
        number,
        count,
        broken_off: 0,
    }
}

/// By value, `Parser::Ported`'s flag.
pub fn broken_off_by_value(fault: Fault, data: &[u8]) -> u64 {
    match fault {
        Fault::ByValueAllWhole => 0,
        Fault::ByValueFlagBesideTwo if ported(data).number == 2 => {
            u64::from(Ending::of(data) != Ending::Whole)
        }
        _ => Archive.broken_off_by_value(data),
    }
}

/// By value, `Parser::Whole`'s number.
pub fn number_by_value(fault: Fault, data: &[u8]) -> u64 {
    let right = Archive.whole_number_by_value(data);
    let breaks_off = right == u64::from(BREAKS_OFF);
    match fault {
        Fault::ByValueNoFifteen if breaks_off => 0,
        Fault::ByValueTwoFirst if breaks_off && columns(data).is_none() => 2,
        _ => right,
    }
}

/// By value, a length of `Parser::Whole`'s list.
pub fn length_by_value(fault: Fault, data: &[u8], place: usize) -> u64 {
    let number = Archive.whole_number_by_value(data);
    let count = columns(data).unwrap_or(0);
    match fault {
        Fault::ByValueColumnsOnFifteen if number == u64::from(BREAKS_OFF) => {
            by_value::length_at(data, place)
        }
        Fault::ByValueOneColumnFewer if place + 1 == count => 0,
        Fault::ByValueNotBlank if number == 0 && place == count => 4,
        _ => Archive.whole_length_by_value(data, place),
    }
}
