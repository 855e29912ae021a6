//! `differential SECONDS [SEED]` or `differential --cases N [--seed S]`: the port's row call, with the columns of descriptions and with
//! callers' own, against the Rust's. With a number of cases a run is the same every time. `--release 3` asks at that release, and first with every number of 16
//! bits that is no release. `--fault NAME` asks a library with that fault.
use differential::command::{self, counted, grouped, Options, Report};
use differential::releases::{BY_037, PORTED};
use differential::rows::compare::{Counts, Run, Stage};
use differential::rows::faults::FAULTS;
use differential::rows::model::Model;
use differential::rows::port_side::{Archive, Library};
use port::column::NAMES;
use std::process::ExitCode;

fn main() -> ExitCode {
    // `None` asks the model without a fault.
    let named = |name: &str| match name {
        "None" => Ok(None),
        _ => command::named(FAULTS, name).map(Some),
    };
    command::main(
        "differential",
        &[PORTED, BY_037],
        named,
        |options| match options.fault {
            None => run(Archive, options),
            Some(fault) => run(Model(fault), options),
        },
    )
}

fn run<L: Library, F>(library: L, options: &Options<F>) -> Report {
    let mut run = Run::new(library, options.seed, options.until, options.release);
    let end = run.from(Stage::Unknown);
    let mut counts = counted(&answers(&run.counts), &run.counts.by_name);
    counts.extend(run.counts.waiting.told());
    counts.extend(run.counts.fewest.told());
    counts.extend(by_release(&run.counts, options.release));
    Report {
        counts,
        cases: format!("{} rows", grouped(run.counts.rows())),
        end,
    }
}

/// What is counted above release 2.
fn by_release(counts: &Counts, release: u32) -> Vec<(u64, String)> {
    let columns = counts.otherwise_by_name.iter().zip(NAMES);
    let columns = columns.map(|(count, name)| (*count, format!("of them columns {name:?}")));
    let all = [
        (counts.refused_22, "refusal 22".to_string()),
        (
            counts.otherwise,
            "accepted with texts that release 2 reads otherwise".to_string(),
        ),
    ];
    let all = all.into_iter().chain(columns);
    all.filter(|(count, _)| release != PORTED && *count > 0)
        .collect()
}

fn answers(counts: &Counts) -> [(u64, &'static str); 17] {
    [
        (counts.accepted, "accepted"),
        (
            counts.with_text,
            "accepted with texts (and refusal 9 in shorter buffers)",
        ),
        (counts.external, "accepted with external columns"),
        (counts.replaced, "accepted with characters replaced"),
        (counts.too_short, "refusal 8"),
        (counts.refused_3, "refusal 3"),
        (counts.refused_4, "refusal 4"),
        (counts.refused_5, "refusal 5"),
        (counts.refused_102, "102"),
        (counts.descriptions, "descriptions before rows"),
        (counts.by_value, "by value too"),
        (
            counts.replaced_by_value,
            "by value too, with characters replaced",
        ),
        (
            counts.contradicted,
            "accepted with an origin that contradicts the byte order",
        ),
        (counts.other_origins, "with other origins too"),
        (counts.alone, "demand 3: the bytes used alone"),
        (counts.longer, "demand 3: a longer input"),
        (counts.shorter, "demand 3: a shorter beginning"),
    ]
}
