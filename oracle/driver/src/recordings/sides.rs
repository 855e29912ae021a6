//! The port and the Rust, asked the same. They must agree in everything, and the port's own checks must find nothing.
use crate::descriptions::{self, Description};
use crate::releases::PORTED;
use crate::request::{Form, Request};
use crate::rows::port_side::Library;
use crate::rows::{self, Answer, List};

pub struct Sides<L> {
    descriptions: descriptions::port_side::PortSide<descriptions::port_side::Archive>,
    rows: rows::port_side::PortSide<L>,
}

impl<L: Library> Sides<L> {
    pub fn new(library: L) -> Self {
        Sides {
            descriptions: descriptions::port_side::PortSide::new(descriptions::port_side::Archive),
            rows: rows::port_side::PortSide::new(library),
        }
    }

    /// The columns of a description, which must be whole.
    pub fn columns(&mut self, description: &[u8]) -> Result<List, String> {
        let port = self.descriptions.answers(description);
        let rust = descriptions::rust_side::answers(description);
        if port != rust {
            return Err(format!(
                "the description: the port says {}, the Rust {}",
                port.ported.shown(Form::Whole),
                rust.ported.shown(Form::Whole)
            ));
        }
        match &rust.whole {
            Description::Columns { columns, .. } => Ok(List::described(columns, description)),
            refused => Err(format!("the description: {}", refused.listed())),
        }
    }

    /// The answer to a row with a description's columns, by the calls on words and by value.
    pub fn answer(&mut self, list: &List, data: &[u8]) -> Result<Answer, String> {
        let port = self.rows.answer(list.asked(data, PORTED)).clone();
        let rust = rows::rust_side::answer(list, data, PORTED);
        let description = list.description.as_deref().unwrap_or_default();
        let count = list.count();
        let by_value = self.rows.by_value(description, count, data, PORTED, &rust);
        if port == rust && by_value == rust.outcome {
            return Ok(rust);
        }
        Err(format!(
            "{}: the port says {}, by value {by_value:?}, the Rust {}",
            request(list, data),
            port.shown(Form::Whole, data),
            rust.shown(Form::Whole, data)
        ))
    }
}

/// The request's line.
pub fn request(list: &List, row: &[u8]) -> String {
    let request = Request::Description {
        data: list.description.clone().unwrap_or_default(),
        row: row.to_vec(),
        release: PORTED,
    };
    request.shown(Form::Whole)
}
