//! `answers port|rust < requests`: each line of standard input whole, with the answer behind it.
use differential::descriptions::{Description, Parser};
use differential::port_side::{Archive, PortSide};
use differential::request::{self, Call, Form, Request};
use differential::rows::List;
use differential::{descriptions, rows, rust_side};
use std::io::{self, BufRead, BufWriter, Write};
use std::process::ExitCode;

fn main() -> ExitCode {
    let arguments: Vec<String> = std::env::args().skip(1).collect();
    let answered = match arguments.iter().map(String::as_str).collect::<Vec<_>>()[..] {
        ["rust"] => answer_lines(rust_answer),
        ["port"] => {
            let mut port = Port {
                texts: PortSide::new(Archive),
                descriptions: descriptions::port_side::PortSide::new(
                    descriptions::port_side::Archive,
                ),
                rows: rows::port_side::PortSide::new(rows::port_side::Archive),
            };
            answer_lines(|form, request| port.answer(form, request))
        }
        _ => Err("usage: answers port|rust < requests".to_string()),
    };
    match answered {
        Ok(()) => ExitCode::SUCCESS,
        Err(message) => {
            eprintln!("answers: {message}");
            ExitCode::FAILURE
        }
    }
}

/// What stands behind the request.
fn rust_answer(form: Form, request: &Request) -> String {
    match request {
        Request::Leaf(Call { leaf, data }) => {
            format!("A {}", rust_side::answer(*leaf, data).shown(form))
        }
        Request::Description { data, row, release } => {
            let description = descriptions::rust_side::answers(data).ported;
            described(form, &description, |list| {
                rows::rust_side::answer(list, row, *release).shown(form, row)
            })
        }
        Request::WholeDescription(data) => descriptions::rust_side::answers(data).whole.listed(),
        Request::Row {
            columns,
            data,
            release,
        } => {
            let answer = rows::rust_side::answer(&List::of(columns), data, *release);
            format!("A {}", answer.shown(form, data))
        }
        Request::FixedLength(asked) => descriptions::rust_side::fixed_length(*asked).to_string(),
    }
}

struct Port {
    texts: PortSide<Archive>,
    descriptions: descriptions::port_side::PortSide<descriptions::port_side::Archive>,
    rows: rows::port_side::PortSide<rows::port_side::Archive>,
}

impl Port {
    /// What stands behind the request.
    fn answer(&mut self, form: Form, request: &Request) -> String {
        match request {
            Request::Leaf(Call { leaf, data }) => {
                format!("A {}", self.texts.answer(*leaf, data).shown(form))
            }
            Request::Description { data, row, release } => {
                let description = self.descriptions.describe(Parser::Ported, data);
                described(form, &description, |list| {
                    let asked = list.asked(row, *release);
                    self.rows.answer(asked).shown(form, row)
                })
            }
            Request::WholeDescription(data) => {
                self.descriptions.describe(Parser::Whole, data).listed()
            }
            Request::Row {
                columns,
                data,
                release,
            } => {
                let list = List::of(columns);
                let answer = self.rows.answer(list.asked(data, *release));
                format!("A {}", answer.shown(form, data))
            }
            Request::FixedLength(asked) => self.descriptions.fixed_length(asked.word()).to_string(),
        }
    }
}

/// The answer to a description and, where there are columns, the row's answer with them.
fn described(form: Form, description: &Description, row: impl FnOnce(&List) -> String) -> String {
    let shown = description.shown(form);
    match description {
        Description::Columns { columns, .. } => format!("{shown} A {}", row(&List::of(columns))),
        _ => shown,
    }
}

/// Answers the lines of standard input up to the first that is no request.
fn answer_lines(mut answer: impl FnMut(Form, &Request) -> String) -> Result<(), String> {
    let mut out = BufWriter::with_capacity(1 << 16, io::stdout().lock());
    let mut lines = io::stdin().lock().lines();
    let mut number = 0;
    let answered = lines.try_for_each(|line| {
        number += 1;
        let at = |message: String| format!("line {number} is no request: {message}");
        let line = line.map_err(|error| at(error.to_string()))?;
        let (form, request) = request::parse(&line).map_err(at)?;
        let asked = request::asked(&line);
        let mut answer = answer(form, &request);
        if form == Form::Whole && asked.contains('*') {
            answer = request::shortened(&answer);
        }
        writeln!(out, "{asked} {answer}").map_err(|error| error.to_string())
    });
    let flushed = out.flush().map_err(|error| error.to_string());
    answered.and(flushed)
}
