//! Demand 3 (D3 of docs/RULES.md), tried on the compiled code: an accepted row of at least two bytes, of which some are used, stays what
//! it is whatever bytes follow it, and its shorter beginnings of at least two bytes are too short, where every column carries its own
//! end; and for any columns the bytes used, alone, give the same answer.
use super::compare::Run;
use super::port_side::Library;
use super::{inputs, List, Outcome};
use crate::run::Flow;
use port::column::{Column, Name};
use std::ops::ControlFlow::Continue;

/// W9: its exceptions, read the other way round.
pub fn carries_own_end(column: &Column) -> bool {
    let own = column.db2_type.numbers;
    match column.db2_type.name {
        Name::LobBytes | Name::LobChar => own & 0x7FFF < 1024,
        Name::Blob | Name::Clob | Name::DbClob => column.reference.is_some() || column.length != 0,
        Name::VarChar | Name::VarGraphic => own & 0x8000 == 0 || own & 0x7FFF > 1,
        _ => true,
    }
}

impl<L: Library> Run<L> {
    /// Tries demand 3 on a row to which `self.rust` is the answer.
    pub(super) fn beginnings(&mut self, list: &List, data: &[u8]) -> Flow {
        let Outcome::Accepted { used, .. } = self.rust.outcome else {
            return Continue(());
        };
        let used = used as usize;
        let release = self.release;
        if data.len() < 2 || used == 0 {
            return Continue(());
        }
        self.counts.alone += 1;
        let asked = |data| list.asked(data, release);
        if !self.port.gives(asked(&data[..used]), &self.rust) {
            return self.broken("demand 3: the bytes used, alone", list, data, &data[..used]);
        }
        if !list.columns.iter().all(carries_own_end) {
            return Continue(());
        }
        let mut longer = data[..used].to_vec();
        inputs::extend(&mut self.random, &mut longer);
        self.counts.longer += 1;
        if !self.port.gives(list.asked(&longer, release), &self.rust) {
            return self.broken("demand 3: a longer input", list, data, &longer);
        }
        let text = self.rust.text.len();
        for length in (2..used).filter(|length| *length < 40 || used - length < 40) {
            self.counts.shorter += 1;
            if !self.port.is_too_short(asked(&data[..length]), text) {
                return self.broken("demand 3: a shorter beginning", list, data, &data[..length]);
            }
        }
        Continue(())
    }
}

#[cfg(test)]
mod tests {
    use super::*;
    use crate::rows::columns::plain;

    #[test]
    fn the_exceptions_are_those_of_the_paper() {
        let of = |name: Name, numbers: u16, length: u16, reference: Option<u16>| {
            carries_own_end(&Column {
                length,
                reference,
                ..plain(name.with(numbers))
            })
        };
        for name in [Name::LobBytes, Name::LobChar] {
            assert!(of(name, 1023, 0, None) && of(name, 0x83FF, 0, None));
            assert!(!of(name, 1024, 0, None) && !of(name, 0x8400, 0, None));
        }
        for name in [Name::Blob, Name::Clob, Name::DbClob] {
            assert!(of(name, 0, 1, None) && of(name, 0, 0, Some(0)));
            assert!(!of(name, 0, 0, None));
        }
        assert!(of(Name::Xml, 0, 0, None));
        for name in [Name::VarChar, Name::VarGraphic] {
            assert!(of(name, 0, 0, None) && of(name, 1, 0, None) && of(name, 0x8002, 0, None));
            assert!(!of(name, 0x8000, 0, None) && !of(name, 0x8001, 0, None));
        }
    }
}
