//! Decoding looks at no origin: a row is asked about again, with the same columns of other origins, and the answer must be the very same.
use super::compare::Run;
use super::port_side::{Asked, Library};
use super::smallest::smallest;
use super::List;
use crate::run::{End, Flow};
use port::column::{Column, ORIGINS};
use std::ops::ControlFlow::{Break, Continue};

/// Of so many rows one is asked about again.
const OF_ROWS: u64 = 7;

/// The columns, of which each has another origin: the next one or the one after it.
fn others(columns: &[Column], turn: u64) -> Vec<Column> {
    let columns = columns.iter().enumerate();
    let other = |(place, column): (usize, &Column)| {
        let further = 1 + (turn as usize + place) % 2;
        Column {
            origin: ORIGINS[(column.origin as usize + further) % ORIGINS.len()],
            ..*column
        }
    };
    columns.map(other).collect()
}

impl<L: Library> Run<L> {
    /// Asks again about a row to which `self.rust` is the answer, the port's too.
    pub(super) fn other_origins(&mut self, list: &List, data: &[u8]) -> Flow {
        let rows = self.counts.rows();
        if list.columns.is_empty() || !rows.is_multiple_of(OF_ROWS) {
            return Continue(());
        }
        self.counts.other_origins += 1;
        let columns = others(&list.columns, rows / OF_ROWS);
        let words: Vec<u64> = columns.iter().flat_map(Column::words).collect();
        let release = self.release;
        let asked = Asked {
            columns: &words,
            data,
            release,
        };
        if *self.port.answer(asked) == self.rust {
            return Continue(());
        }
        let found = smallest(&mut self.port, &List::of(&columns), data, release);
        Break(End::Different(Box::new(found)))
    }
}

#[cfg(test)]
mod tests {
    use super::*;
    use crate::rows::columns::plain;
    use port::column::{Name, Origin};

    #[test]
    fn every_column_gets_another_origin_and_in_two_turns_both() {
        let columns: Vec<Column> = ORIGINS
            .into_iter()
            .chain(ORIGINS)
            .map(|origin| Column {
                origin,
                ..plain(Name::Xml.plain())
            })
            .collect();
        let turns = [0, 1].map(|turn| others(&columns, turn));
        for (place, column) in columns.iter().enumerate() {
            let mut all: Vec<Origin> = turns.iter().map(|turn| turn[place].origin).collect();
            all.push(column.origin);
            assert!(ORIGINS.into_iter().all(|origin| all.contains(&origin)));
            assert!(turns.iter().all(|turn| Column {
                origin: column.origin,
                ..turn[place]
            } == *column));
        }
    }
}
