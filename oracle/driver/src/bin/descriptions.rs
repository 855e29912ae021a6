//! `descriptions SECONDS [SEED]` or `descriptions --cases N [--seed S]`: the port's reading of descriptions and types against the
//! Rust's. With a number of cases a run is the same every time. `--fault NAME` puts a fault into the port's answers.
use differential::command::{self, counted, grouped, Report};
use differential::descriptions::compare::{Counts, Run, Stage};
use differential::descriptions::endings::{Ending, Inside, ENDINGS, INSIDES};
use differential::descriptions::faults::{Faulty, FAULTS};
use differential::descriptions::port_side::{Archive, Library};
use differential::run::Until;
use port::column::{Origin, ORIGINS};
use std::process::ExitCode;

fn main() -> ExitCode {
    let named = |name: &str| command::named(&FAULTS, name);
    command::main("descriptions", &[], named, |options| {
        let (until, seed) = (options.until, options.seed);
        match options.fault {
            None => run(Archive, until, seed),
            Some(fault) => run(Faulty::new(fault), until, seed),
        }
    })
}

fn run<L: Library>(library: L, until: Until, seed: u64) -> Report {
    let mut run = Run::new(library, seed, until);
    let end = run.from(Stage::Types);
    let descriptions = grouped(run.counts.descriptions());
    let types = grouped(run.counts.types());
    // No description has a column of type Null.
    let mut counts = counted(&answers(&run.counts), &run.counts.by_name);
    let by_origin = run.counts.by_origin.into_iter().zip(ORIGINS);
    counts.extend(by_origin.map(|(count, origin)| (count, came_from(origin))));
    let by_ending = run.counts.by_ending.into_iter().zip(ENDINGS);
    counts.extend(by_ending.map(|(count, ending)| (count, ends(ending).to_string())));
    let by_inside = run.counts.by_inside.into_iter().zip(INSIDES);
    counts.extend(by_inside.map(|(count, inside)| (count, format!("whole, {}", holds(inside)))));
    Report {
        counts,
        cases: format!("{descriptions} descriptions and {types} types"),
        end,
    }
}

fn came_from(origin: Origin) -> String {
    let origin = match origin {
        Origin::Sda => "an SDA",
        Origin::UndeclaredLid => "an undeclared LID",
        Origin::DeclaredLid => "a declared LID",
    };
    format!("columns from {origin}")
}

fn ends(ending: Ending) -> &'static str {
    match ending {
        Ending::Whole => "whole",
        Ending::OneByte => "broken off: one byte is left",
        Ending::Zeros => "broken off: zeros",
        Ending::LengthZero => "broken off: a length of 0",
        Ending::LengthOne => "broken off: a length of 1",
        Ending::PastEnd => "broken off: a length past the end",
    }
}

fn holds(inside: Inside) -> &'static str {
    match inside {
        Inside::Nothing => "without a byte",
        Inside::Pending => "a type pending at the end",
        Inside::InnerBreak => "a group whose inside breaks off",
        Inside::InnerRest => "a group with one or two bytes left inside",
        Inside::GroupRest => "a group of LIDs with a rest",
        Inside::NoFields => "an SDA without a length",
    }
}

fn answers(counts: &Counts) -> [(u64, &'static str); 11] {
    [
        (counts.fixed, "fixed length"),
        (counts.varies, "length varies"),
        (counts.no_type, "no type"),
        (counts.no_column, "without a column"),
        (counts.columns, "with columns"),
        (counts.refused_1, "refusal 1"),
        (counts.refused_2, "refusal 2"),
        (counts.refused_15, "refusal 15, by parse_whole_qrydsc"),
        (
            counts.refused_15_for_2,
            "refusal 15, where parse_qrydsc refuses by 2",
        ),
        (counts.every_zeros, "wholeness with every number of zeros"),
        (counts.by_value, "by value too"),
    ]
}
