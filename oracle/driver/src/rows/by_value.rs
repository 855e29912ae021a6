//! The row call by value, on rows with a description's columns: the characters replaced and the texts.
use super::compare::Run;
use super::port_side::{Library, PortSide};
use super::{rust_side, Answer, List, Outcome};
use crate::descriptions::rust_side as described;
use crate::request::{Form, Request};
use crate::run::{Difference, End, Flow};
use crate::shrink::Shrinking;
use std::ops::ControlFlow::{Break, Continue};

/// Of so many rows one is asked about: the call reads the description each time.
const OF_ROWS: u64 = 4;

/// How many bytes a pass may ask about that makes a row or a description smaller.
const BUDGET: usize = 1_000_000;

impl<L: Library> Run<L> {
    /// Asks about a row to which `self.rust` is the answer, where it is its turn.
    pub(super) fn by_value(&mut self, list: &List, data: &[u8]) -> Flow {
        match self.counts.rows().is_multiple_of(OF_ROWS) {
            true => self.by_value_now(list, data),
            false => Continue(()),
        }
    }

    /// The same, whether it is or not.
    pub(super) fn by_value_now(&mut self, list: &List, data: &[u8]) -> Flow {
        let Some(description) = &list.description else {
            return Continue(());
        };
        self.counts.by_value += 1;
        let replaced =
            matches!(self.rust.outcome, Outcome::Accepted { replaced, .. } if replaced > 0);
        self.counts.replaced_by_value += u64::from(replaced);
        let release = self.release;
        let (count, rust) = (list.count(), &self.rust);
        let outcome = self.port.by_value(description, count, data, release, rust);
        if outcome == self.rust.outcome {
            return Continue(());
        }
        let found = smallest(&mut self.port, description, data, release);
        Break(End::Different(Box::new(found)))
    }
}

/// The smallest row and description found that still differ.
fn smallest<L: Library>(
    port: &mut PortSide<L>,
    description: &[u8],
    data: &[u8],
    release: u32,
) -> Difference {
    let first = data.len();
    let (mut description, mut data) = (description.to_vec(), data.to_vec());
    loop {
        let before = (description.clone(), data.clone());
        let differs = |data: &[u8]| differing(port, &description, data, release).is_some();
        data = shrunk(&data, differs);
        let differs = |description: &[u8]| differing(port, description, &data, release).is_some();
        description = shrunk(&description, differs);
        if before == (description.clone(), data.clone()) {
            break;
        }
    }
    let columns = described::answers(&description).ported;
    let list = listed(&description).unwrap_or_default();
    let rust = rust_side::answer(&list, &data, release);
    let port = differing(port, &description, &data, release).unwrap_or_else(|| rust.clone());
    let lengths = Some((data.len(), first));
    let columns = columns.shown(Form::Whole);
    let line = |answer: &Answer| {
        let asked = Request::Description {
            data: description.clone(),
            row: data.clone(),
            release,
        };
        let asked = asked.shown(Form::Whole);
        format!("{asked} {columns} A {}", answer.shown(Form::Whole, &data))
    };
    Difference {
        rust: line(&rust),
        port: format!("{} (by value)", line(&port)),
        lengths,
    }
}

fn shrunk(data: &[u8], differs: impl FnMut(&[u8]) -> bool) -> Vec<u8> {
    let mut shrinking = Shrinking::new(data, BUDGET, differs);
    shrinking.cut();
    shrinking.lower();
    shrinking.data
}

/// The columns of a description; None where it is refused.
fn listed(description: &[u8]) -> Option<List> {
    described::columns(description).map(|columns| List::of(&columns))
}

/// The answer by value, where it is not the Rust's. Which lengths of buffers are tried goes by turns: it is asked more than once.
fn differing<L: Library>(
    port: &mut PortSide<L>,
    description: &[u8],
    data: &[u8],
    release: u32,
) -> Option<Answer> {
    let list = listed(description)?;
    let rust = rust_side::answer(&list, data, release);
    let count = list.count();
    let mut outcomes = (0..4).map(|_| port.by_value(description, count, data, release, &rust));
    let outcome = outcomes.find(|outcome| *outcome != rust.outcome)?;
    Some(Answer { outcome, ..rust })
}
