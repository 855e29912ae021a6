//! `leaves SECONDS [SEED]` or `leaves --cases N [--seed S]`: the port's conversions of single texts and numbers against the Rust's.
//! With a number of cases a run is the same every time. `--release 3` asks about texts at that release, and first with every number of 16 bits that is no
//! release. `--fault NAME` puts a fault into the port's answers.
use differential::command::{self, grouped, Options, Report};
use differential::compare::{Run, Stage};
use differential::faults::{self, Fault, Faulty};
use differential::leaf::KINDS;
use differential::port_side::{Archive, Library};
use differential::releases::{BY_037, PORTED};
use std::process::ExitCode;

fn main() -> ExitCode {
    let named = |name: &str| command::named(&faults::all(), name);
    command::main(
        "leaves",
        &[PORTED, BY_037],
        named,
        |options| match options.fault {
            None => run(Archive, options),
            Some(fault) => run(Faulty(fault), options),
        },
    )
}

fn run<L: Library>(library: L, options: &Options<Fault>) -> Report {
    let mut run = Run::new(library, options.seed, options.until, options.release);
    let end = run.from(Stage::Unknown);
    let kinds = KINDS.iter().map(|kind| kind.to_string());
    let answers = run.wholes.iter().map(|(number, count)| {
        let answer = match number {
            0 => "accepted".to_string(),
            _ => format!("refused by {number}"),
        };
        (*count, format!("of decode_packed_whole {answer}"))
    });
    let by_release = [
        (run.unknown, "refused by 22".to_string()),
        (
            run.otherwise,
            "read otherwise than at release 2".to_string(),
        ),
    ];
    let counts = run.counts.into_iter().zip(kinds).chain(answers);
    // Which of them are there goes by the release.
    let counts = match options.release {
        PORTED => counts.collect(),
        _ => {
            let counts = counts.chain(by_release);
            counts.filter(|(count, _)| *count > 0).collect()
        }
    };
    Report {
        counts,
        cases: format!("{} cases", grouped(run.cases())),
        end,
    }
}
