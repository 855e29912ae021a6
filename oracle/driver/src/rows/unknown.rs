//! Rows asked about with numbers that are no release: each is refused by 22, whatever else would be refused, and with nothing to refuse.
use super::columns::plain;
use super::compare::Run;
use super::port_side::Library;
use super::{List, ROW_LIMIT};
use crate::descriptions::COLUMN_LIMIT;
use crate::releases::unknown::{is_near, numbers};
use crate::run::Flow;
use port::column::{Column, Name};
use std::ops::ControlFlow::Continue;

/// A text of an unnamed CCSID and a number, as SDAs.
const DESCRIPTION: [u8; 14] = [7, 0x70, 0x30, 0, 1, 0x01, 0x11, 7, 0x70, 0x04, 0, 2, 0, 0];

impl<L: Library> Run<L> {
    /// Every list with every number, and a row that is too long with a few.
    pub(super) fn unknown(&mut self) -> Flow {
        let Some(described) = self.described(&DESCRIPTION)? else {
            panic!("the description is read");
        };
        let mut lists = lists();
        lists.push((described, b"\x40\0\0".to_vec()));
        let long = vec![0x40; ROW_LIMIT + 1];
        let stated = self.release;
        for number in numbers() {
            self.release = number;
            for (list, row) in &lists {
                self.row(list, row)?;
                self.by_value_now(list, row)?;
                if is_near(number) {
                    self.row(list, &long)?;
                }
            }
        }
        self.release = stated;
        Continue(())
    }
}

/// Lists with a row each: one that would be accepted, with a text and without, or refused by 3, 102, 5 and 8.
fn lists() -> Vec<(List, Vec<u8>)> {
    let text = Column {
        ccsid: 273,
        ..plain(Name::Char.with(1))
    };
    let null = Column {
        nullable: true,
        ..text
    };
    let number = plain(Name::SmallInt.plain());
    vec![
        (List::of(&[text]), vec![0x40]),
        (List::of(&[null]), vec![0xFF]),
        (List::of(&[number]), vec![0, 1]),
        (List::default(), vec![]),
        (List::numbered(vec![text; COLUMN_LIMIT + 1]), vec![]),
        (List::of_words(vec![0; 3]), vec![0, 1]),
        (List::of_words(vec![1 << 63, 0]), vec![0, 1]),
        (List::of(&[plain(Name::DecFloat.with(16))]), vec![0; 8]),
        (List::of(&[text]), vec![]),
    ]
}
