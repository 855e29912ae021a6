//! The fewest bytes that complete a row that is too short (N14e of docs/RULES.md), tried on the compiled code: with them it is accepted and every byte of it used,
//! and with fewer, of whatever kind, it is too short. That holds where each column carries its own end.
//!
//! What a column lacks is a second opinion, by the published Rust, as in `waiting`.
use super::beginnings::carries_own_end;
use super::compare::Run;
use super::port_side::Library;
use super::waiting::value_taken;
use super::walk::skip;
use super::{rust_side, List, Outcome, ROW_LIMIT};
use crate::random::Random;
use crate::run::Flow;
use port::column::{Column, Name};
use std::ops::ControlFlow::Continue;

/// The bytes that complete a row; None where it is too long then.
pub type Fill = fn(&List, &[u8]) -> Option<Vec<u8>>;

/// What is tried with.
pub struct Fewest {
    /// Of its own, as in `waiting`.
    random: Random,
    fill: Fill,
}

impl Fewest {
    pub fn new(seed: u64) -> Self {
        Fewest {
            random: Random::new(seed.reverse_bits()),
            fill: fewest,
        }
    }

    /// A row with so many bytes behind it, of any kind.
    fn with_any(&mut self, data: &[u8], count: usize) -> Vec<u8> {
        let mut all = data.to_vec();
        all.extend((0..count).map(|_| match self.random.one_in(4) {
            true => self.random.byte(),
            false => self.random.pick(&TELLING),
        }));
        all
    }
}

/// What it was tried on.
#[derive(Debug, Default)]
pub struct Tried {
    /// Rows with the fewest bytes,
    pub filled: u64,
    /// and with fewer.
    pub fewer: u64,
    /// Rows for which the limit has no room,
    pub beyond: u64,
    /// and those of them that were tried with as many bytes as it leaves.
    pub full: u64,
}

impl Tried {
    /// Each count, and what was counted.
    pub fn told(&self) -> Vec<(u64, String)> {
        let all = [
            (self.filled, "accepted with the fewest bytes"),
            (self.fewer, "with fewer bytes of any kind too short"),
            (self.beyond, "the limit has no room for the fewest bytes"),
            (self.full, "of them too short with as many as it leaves"),
        ];
        all.map(|(count, words)| (count, format!("N14: {words}")))
            .into()
    }
}

/// The fewest bytes behind a row: zeros; but a column of which nothing is there is Null where it may be, and a header of which nothing is there says that
/// nothing is behind it.
pub fn fewest(list: &List, data: &[u8]) -> Option<Vec<u8>> {
    filling(list, data, NULL, EMPTY_HEADER)
}

const NULL: &[u8] = &[0xFF];
const EMPTY_HEADER: &[u8] = &[0x80, 0x00];

fn filling(list: &List, data: &[u8], null: &[u8], header: &[u8]) -> Option<Vec<u8>> {
    let mut rest = &data[skip(data)..];
    let mut filling = Vec::new();
    for both @ (column, _) in list.columns.iter().zip(&list.published) {
        let value = match (column.nullable, rest) {
            (true, [0xFF, behind @ ..]) => {
                rest = behind;
                continue;
            }
            (true, []) => {
                filling.extend(null);
                continue;
            }
            (true, [_, value @ ..]) => value,
            (false, value) => value,
        };
        if value.is_empty() && is_header(column) {
            filling.extend(header);
            rest = value;
            continue;
        }
        let taken = value_taken(both, value);
        let there = taken.min(value.len());
        let length = filling.len().checked_add(taken - there)?;
        if length > ROW_LIMIT - data.len() {
            return None;
        }
        filling.resize(length, 0);
        rest = &value[there..];
    }
    (data.len() + filling.len() <= ROW_LIMIT).then_some(filling)
}

/// A value that is a header of a LOB outside of the row.
fn is_header(column: &Column) -> bool {
    let varies = matches!(column.db2_type.name, Name::VarChar | Name::VarGraphic);
    varies && column.db2_type.numbers & 0x8000 != 0
}

/// Of so many rows for which the limit has no room one is tried with all that it leaves.
const OF_FULL: usize = 400;

/// Bytes that mean something where they begin a column.
const TELLING: [u8; 6] = [0x00, 0x01, 0x02, 0x80, 0xFE, 0xFF];

impl<L: Library> Run<L> {
    /// A row that is too short, with the fewest bytes that complete it and with fewer; always where these are few.
    pub(super) fn least_filled(&mut self, list: &List, data: &[u8], few: usize) -> Flow {
        if !list.columns.iter().all(carries_own_end) {
            return Continue(());
        }
        let Some(filling) = (self.fewest.fill)(list, data) else {
            self.counts.fewest.beyond += 1;
            return match self.fewest.random.one_in(OF_FULL) {
                true => self.full(list, data),
                false => Continue(()),
            };
        };
        let count = filling.len();
        if count > few && self.fewest.random.below(count) >= few {
            return Continue(());
        }
        let filled = [data, &filling].concat();
        let rust = rust_side::answer(list, &filled, self.release);
        if !matches!(rust.outcome, Outcome::Accepted { used, .. } if used == filled.len())
            || !self.port.gives(list.asked(&filled, self.release), &rust)
        {
            return self.broken("N14: the fewest bytes", list, data, &filled);
        }
        self.counts.fewest.filled += 1;
        let other = self.fewest.with_any(data, count - 1);
        let any = data.len() + self.fewest.random.below(count);
        for less in [&filled[..filled.len() - 1], &other, &other[..any]] {
            self.counts.fewest.fewer += 1;
            if !self
                .port
                .is_too_short(list.asked(less, self.release), rust.text.len())
            {
                return self.broken("N14: fewer than the fewest bytes", list, data, less);
            }
        }
        Continue(())
    }

    /// A row for which the limit has no room, with as many bytes as it leaves.
    fn full(&mut self, list: &List, data: &[u8]) -> Flow {
        let full = self.fewest.with_any(data, ROW_LIMIT - data.len());
        self.counts.fewest.full += 1;
        match self.port.is_too_short(list.asked(&full, self.release), 0) {
            true => Continue(()),
            false => self.broken("N14: all that the limit leaves", list, data, &full),
        }
    }
}

#[cfg(test)]
mod tests {
    use super::*;
    use crate::releases::{BY_037, PORTED};
    use crate::rows::columns::plain;
    use crate::rows::compare::Stage;
    use crate::rows::port_side::Archive;
    use crate::run::Until;

    #[test]
    fn fillings_of_known_rows() {
        let small = plain(Name::SmallInt.plain());
        let null = Column {
            nullable: true,
            ..small
        };
        let varchar = plain(Name::VarChar.with(9));
        let header = plain(Name::VarChar.with(0x8009));
        let xml = plain(Name::Xml.plain());
        for (columns, row, filling) in [
            (vec![small], vec![0xFF, 0], vec![0, 0]),
            (
                vec![null, small, null],
                vec![0xFF, 0],
                vec![0xFF, 0, 0, 0xFF],
            ),
            (vec![null], vec![0xFF, 0, 0], vec![0, 0]),
            (vec![header], vec![0xFF, 0], vec![0x80, 0]),
            (vec![header], vec![0xFF, 0, 0x80], vec![0]),
            (vec![header], vec![0xFF, 0, 2], vec![0; 8]),
            (vec![varchar, xml], vec![0xFF, 0, 1], vec![0; 261]),
            (vec![xml], vec![2, 0, 0, 0], vec![0; 5]),
        ] {
            let found = fewest(&List::numbered(columns), &row);
            assert_eq!(found, Some(filling), "{row:02X?}");
        }
        let lob = List::numbered(vec![xml]);
        assert_eq!(fewest(&lob, &[1, 0, 0, 0]), None);
        let long = [0x00, 0x0F, 0xFF, 0xFC];
        assert_eq!(fewest(&lob, &long).map(|found| found.len()), Some(0xF_FFFC));
        assert_eq!(fewest(&lob, &[0x00, 0x0F, 0xFF, 0xFD]), None);
    }

    #[test]
    fn the_rows_by_rule_have_all_that_is_counted() {
        for release in [PORTED, BY_037] {
            let mut run = Run::new(Archive, 1, Until::Cases(u64::MAX), release);
            assert!(run.awaited_rows().is_continue());
            for (count, counted) in run.counts.fewest.told() {
                assert!(count > 0, "{counted}");
            }
        }
    }

    const WRONG: [(&str, Fill); 6] = [
        ("zeros", |list, data| {
            let zeros = super::super::waiting::zeros(list, data);
            (zeros < ROW_LIMIT).then(|| vec![0; zeros])
        }),
        ("a value where nothing is there", |list, data| {
            filling(list, data, &[0x00, 0x00], EMPTY_HEADER)
        }),
        ("a header of its declared length", |list, data| {
            filling(list, data, NULL, &[0; 9])
        }),
        ("a header of one byte", |list, data| {
            filling(list, data, NULL, &[0x80])
        }),
        ("one fewer", |list, data| {
            let mut found = fewest(list, data)?;
            found.pop();
            Some(found)
        }),
        ("one more", |list, data| {
            let mut found = fewest(list, data)?;
            found.push(0);
            Some(found)
        }),
    ];

    #[test]
    fn wrong_fillings_are_noticed() {
        for stage in [Stage::Waiting, Stage::Any] {
            for (said, fill) in WRONG {
                let mut run = Run::new(Archive, 1, Until::Cases(1_000_000), PORTED);
                run.fewest.fill = fill;
                let difference = run.from(stage).difference();
                let difference = difference.unwrap_or_else(|| panic!("not noticed: {said}"));
                assert!(
                    difference.port.contains("fewest bytes)"),
                    "{said}: {difference}"
                );
            }
        }
    }
}
