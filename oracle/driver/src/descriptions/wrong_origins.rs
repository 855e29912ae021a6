//! The origins that a wrong library gives: the part of `faults` that is about them. Most are those of a right library for another description, whose
//! columns stand at the same places.
use super::faults::Fault;
use super::inputs::{triplets, COMPACT, GDA, MDD, SDA};
use super::port_side::{Archive, Library, AMPLE};
use super::Parser;
use port::column::{Column, Origin};
use std::ops::Range;

/// Puts a fault into the origins of a description's columns, where it is one of them.
pub fn put(fault: Fault, data: &[u8], columns: &mut [Column]) {
    if let Some(other) = other(fault, data) {
        for (column, origin) in columns.iter_mut().zip(origins(&other)) {
            column.origin = origin;
        }
    }
    match fault {
        Fault::PreviousOrigin => {
            for place in (1..columns.len()).rev() {
                columns[place].origin = columns[place - 1].origin;
            }
        }
        Fault::SdaOfDeclaredCode => {
            let lids = entries(data).into_iter().filter_map(|entry| entry.lid());
            let lids: Vec<u8> = lids.collect();
            for column in columns.iter_mut() {
                if column.origin == Origin::Sda && lids.contains(&column.code) {
                    column.origin = Origin::DeclaredLid;
                }
            }
        }
        Fault::FirstOfGroup
        | Fault::FirstUse
        | Fault::SameTypeUndeclared
        | Fault::EntriesForOneGroup
        | Fault::InnerSdaIsLid => in_groups(fault, data, columns),
        _ => columns
            .iter_mut()
            .for_each(|column| column.origin = alone(fault, column.origin)),
    }
}

/// A column's wrong origin, where it goes by the right one alone.
fn alone(fault: Fault, origin: Origin) -> Origin {
    match (fault, origin) {
        (Fault::AllUndeclared | Fault::OriginsSwapped, Origin::DeclaredLid) => {
            Origin::UndeclaredLid
        }
        (Fault::AllDeclared | Fault::OriginsSwapped, Origin::UndeclaredLid) => Origin::DeclaredLid,
        (Fault::SdaIsLid, Origin::Sda) => Origin::UndeclaredLid,
        _ => origin,
    }
}

/// The wrong origins that go by a column's group and its LID there.
fn in_groups(fault: Fault, data: &[u8], columns: &mut [Column]) {
    let mut first_used: [Option<Origin>; 256] = [None; 256];
    let mut last_group = 0;
    let entries = entries(data);
    for (place, numbers) in with_columns(data) {
        let columns = &mut columns[numbers];
        let [_, GDA, COMPACT, lids @ ..] = &data[place.clone()] else {
            if data[place.start + 1] == GDA && fault == Fault::InnerSdaIsLid {
                let called = |column: &mut Column| column.origin = Origin::UndeclaredLid;
                columns.iter_mut().for_each(called);
            }
            continue;
        };
        let first = columns.first().map(|column| column.origin);
        for (column, [lid, ..]) in columns.iter_mut().zip(lids.as_chunks::<3>().0) {
            let is_of = |entry: &Entry| (last_group..place.start).contains(&entry.place.start);
            column.origin = match (fault, first) {
                (Fault::FirstOfGroup, Some(origin)) => origin,
                (Fault::FirstUse, _) => *first_used[usize::from(*lid)].get_or_insert(column.origin),
                (Fault::SameTypeUndeclared, _) if *lid == column.code => Origin::UndeclaredLid,
                (Fault::EntriesForOneGroup, _)
                    if !entries
                        .iter()
                        .any(|entry| entry.lid() == Some(*lid) && is_of(entry)) =>
                {
                    Origin::UndeclaredLid
                }
                _ => column.origin,
            };
        }
        last_group = place.end;
    }
}

/// The origins that the archive gives; none where it refuses.
fn origins(data: &[u8]) -> Vec<Origin> {
    let mut words = [0; AMPLE];
    let answer = Archive.parse(Parser::Ported, data, &mut words);
    let used = match answer.number {
        0 => 2 * answer.count,
        _ => 0,
    };
    let pairs = words[..used].as_chunks::<2>().0.iter();
    let columns = pairs.map(|pair| Column::from_words(*pair).expect("the archive's columns"));
    columns.map(|column| column.origin).collect()
}

/// An entry of the environment: where its two triplets stand, its type, and its SDA's data.
struct Entry<'a> {
    place: Range<usize>,
    of_type: u8,
    data: &'a [u8],
}

impl Entry<'_> {
    fn lid(&self) -> Option<u8> {
        self.data.first().copied()
    }

    fn ccsid(&self) -> u16 {
        match self.data {
            [_, _, _, _, high, low, ..] => u16::from_be_bytes([*high, *low]),
            _ => 0,
        }
    }
}

/// An MDD with data and an SDA right behind it, again and again.
fn entries(data: &[u8]) -> Vec<Entry<'_>> {
    let all = triplets(data);
    let pairs =
        all.windows(2).filter_map(
            |pair| match (&data[pair[0].clone()], &data[pair[1].clone()]) {
                ([_, MDD, .., of_type], [_, SDA, rest @ ..]) => Some(Entry {
                    place: pair[0].start..pair[1].end,
                    of_type: *of_type,
                    data: rest,
                }),
                _ => None,
            },
        );
    pairs.collect()
}

/// The outer triplets, each with the places of its columns.
fn with_columns(data: &[u8]) -> Vec<(Range<usize>, Range<usize>)> {
    let mut all = Vec::new();
    let mut pending = false;
    let mut next = 0;
    for place in triplets(data) {
        let triplet = &data[place.clone()];
        let count = match triplet[1] {
            SDA if pending => 0,
            SDA | GDA => Archive.parse(Parser::Ported, triplet, &mut []).count,
            _ => 0,
        };
        pending = matches!(triplet, [_, MDD, _, ..]);
        all.push((place, next..next + count));
        next += count;
    }
    all
}

/// The description whose origins a right library gives where this one is asked.
fn other(fault: Fault, data: &[u8]) -> Option<Vec<u8>> {
    match fault {
        Fault::LaterEntryDeclares => {
            let entries = entries(data).into_iter().map(|entry| &data[entry.place]);
            Some([&entries.collect::<Vec<_>>().concat(), data].concat())
        }
        Fault::InnerEntryDeclares => Some(with_more(data, |_, triplet| match triplet {
            [_, GDA, COMPACT, ..] => Vec::new(),
            [_, GDA, inner @ ..] => {
                let entries = entries(inner).into_iter().map(|entry| &inner[entry.place]);
                entries.collect::<Vec<_>>().concat()
            }
            _ => Vec::new(),
        })),
        Fault::EmptyMddDeclares => {
            Some(with_more(data, |before, triplet| match (before, triplet) {
                ([2, MDD], [_, SDA, lid, ..]) => vec![3, MDD, 0, 3, SDA, *lid],
                _ => Vec::new(),
            }))
        }
        Fault::EmptySdaDeclares => {
            Some(with_more(data, |before, triplet| match (before, triplet) {
                ([_, MDD, _, ..], [2, SDA]) => vec![3, MDD, 0, 3, SDA, 0],
                _ => Vec::new(),
            }))
        }
        Fault::TypeZeroUndeclared => Some(without_entries(data, |entry| entry.of_type == 0)),
        Fault::CcsidZeroUndeclared => Some(without_entries(data, |entry| entry.ccsid() == 0)),
        Fault::LidZeroUndeclared => Some(without_entries(data, |entry| entry.lid() == Some(0))),
        Fault::SecondEntryUndeclares => Some(undeclared_twice(data)),
        _ => None,
    }
}

/// The description with more behind some of its triplets; `more` sees the triplet before each too.
fn with_more(data: &[u8], more: impl Fn(&[u8], &[u8]) -> Vec<u8>) -> Vec<u8> {
    let mut all = Vec::new();
    let mut before = 0..0;
    for place in triplets(data) {
        let triplet = &data[place.clone()];
        all.extend_from_slice(triplet);
        all.extend(more(&data[before], triplet));
        before = place;
    }
    all
}

/// The description in which a triplet that no one knows stands for some entries.
fn without_entries(data: &[u8], drop: impl Fn(&Entry) -> bool) -> Vec<u8> {
    let mut all = Vec::new();
    let mut next = 0;
    for entry in entries(data).iter().filter(|entry| drop(entry)) {
        all.extend_from_slice(&data[next..entry.place.start]);
        all.extend_from_slice(&[2, 0x99]);
        next = entry.place.end;
    }
    all.extend_from_slice(&data[next..]);
    all
}

/// The description in which a LID that was declared twice before a group stands there as one that never is.
fn undeclared_twice(data: &[u8]) -> Vec<u8> {
    let mut all = data.to_vec();
    let Some(free) = (0..=0xFF).find(|lid| !data.contains(lid)) else {
        return all;
    };
    let entries = entries(data);
    for place in triplets(data) {
        let before = entries
            .iter()
            .filter(|entry| entry.place.end <= place.start);
        let lids: Vec<u8> = before.filter_map(|entry| entry.lid()).collect();
        if let [_, GDA, COMPACT, columns @ ..] = &mut all[place] {
            for [lid, ..] in columns.as_chunks_mut::<3>().0 {
                if lids.iter().filter(|declared| *declared == lid).count() > 1 {
                    *lid = free;
                }
            }
        }
    }
    all
}
