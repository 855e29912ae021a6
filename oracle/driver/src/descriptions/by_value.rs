//! What the calls by value answer to a description: whether it breaks off, and what parse_whole_qrydsc gives.
use super::compare::shrunk;
use super::port_side::{Library, PortSide};
use super::{rust_side, Answers, Description, COLUMN_LIMIT};
use crate::request::{Form, Request};
use crate::run::Difference;
use std::fmt;

/// The numbers that can be seen, with one place of the list.
#[derive(Debug, Clone, Copy, PartialEq, Eq)]
pub struct Numbers {
    /// 1 where `Parser::Ported` says broken off.
    broken_off: u64,
    /// What `Parser::Whole` answers,
    number: u64,
    /// and the length of the column at a place of its list.
    length: u64,
    place: usize,
}

impl Numbers {
    pub fn of_rust(answers: &Answers, place: usize) -> Numbers {
        let broken_off = match answers.ported {
            Description::Columns { broken_off, .. } => u64::from(broken_off),
            _ => 0,
        };
        let (number, columns) = match &answers.whole {
            Description::Columns { columns, .. } => (0, &columns[..]),
            Description::Refusal(number) => (u64::from(*number), &[][..]),
            other => panic!("the Rust's side has no {other:?}"),
        };
        // A place past the columns is blank, and so is every one after a refusal.
        let column = columns.get(place);
        Numbers {
            broken_off,
            number,
            length: column.map_or(0, |column| column.length.into()),
            place,
        }
    }

    fn of_port<L: Library>(library: &L, data: &[u8], place: usize) -> Numbers {
        Numbers {
            broken_off: library.broken_off_by_value(data),
            number: library.whole_number_by_value(data),
            length: library.whole_length_by_value(data, place),
            place,
        }
    }
}

impl fmt::Display for Numbers {
    fn fmt(&self, f: &mut fmt::Formatter<'_>) -> fmt::Result {
        let Numbers {
            broken_off,
            number,
            length,
            place,
        } = self;
        write!(
            f,
            "broken off {broken_off}, number {number}, length {length} at place {place}"
        )
    }
}

/// The place of the list to look at: by turns the last column, the place behind it, and any.
pub fn place(answers: &Answers, turn: u64) -> usize {
    let [last, behind] = last_and_behind(answers);
    match turn % 3 {
        0 => last,
        1 => behind,
        _ => (turn / 3) as usize % COLUMN_LIMIT,
    }
}

fn last_and_behind(answers: &Answers) -> [usize; 2] {
    let count = match &answers.whole {
        Description::Columns { columns, .. } => columns.len(),
        _ => 0,
    };
    [count.saturating_sub(1), count.min(COLUMN_LIMIT - 1)]
}

impl<L: Library> PortSide<L> {
    /// Whether the calls by value answer what the Rust's answers are.
    pub fn is_same_by_value(&self, data: &[u8], rust: &Answers, place: usize) -> bool {
        Numbers::of_port(&self.library, data, place) == Numbers::of_rust(rust, place)
    }
}

/// The smallest description found that still differs, at the place at which the first did or at the two that go by its columns.
pub fn smallest<L: Library>(port: &PortSide<L>, data: &[u8], place: usize) -> Difference {
    let differing = |data: &[u8]| {
        let rust = rust_side::answers(data);
        let [last, behind] = last_and_behind(&rust);
        let mut places = [last, behind, place].into_iter();
        places.find(|place| !port.is_same_by_value(data, &rust, *place))
    };
    let smallest = shrunk(data, |data| differing(data).is_some());
    let place = differing(&smallest).unwrap_or(place);
    let rust = Numbers::of_rust(&rust_side::answers(&smallest), place);
    let port = Numbers::of_port(&port.library, &smallest, place);
    let lengths = Some((smallest.len(), data.len()));
    // The format has no line for these.
    let request = Request::WholeDescription(smallest).shown(Form::Whole);
    let line = |numbers: Numbers| format!("{request} by value: {numbers}");
    Difference {
        rust: line(rust),
        port: line(port),
        lengths,
    }
}
