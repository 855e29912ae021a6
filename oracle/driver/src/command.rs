//! The command line of the programs that compare, and what they print.
use crate::releases::PORTED;
use crate::run::{End, Until};
use port::column::NAMES;
use std::process::ExitCode;
use std::time::{Duration, Instant};

/// What a program prints of a run: counts, each with what was counted; the cases, in words; how the run ended.
pub struct Report {
    pub counts: Vec<(u64, String)>,
    pub cases: String,
    pub end: End,
}

/// The counts of a run: by answer, and then the columns by type.
pub fn counted(answers: &[(u64, &str)], by_name: &[u64; NAMES.len()]) -> Vec<(u64, String)> {
    let answers = answers
        .iter()
        .map(|(count, answer)| (*count, answer.to_string()));
    let columns = by_name.iter().zip(NAMES);
    answers
        .chain(columns.map(|(count, name)| (*count, format!("columns {name:?}"))))
        .collect()
}

/// Reads the command line, makes the run, prints the report. The status says whether a difference was found. `releases` are those that a run may be made for; a
/// program without any takes none.
pub fn main<F>(
    program: &str,
    releases: &[u32],
    named: impl Fn(&str) -> Result<F, String>,
    run: impl FnOnce(&Options<F>) -> Report,
) -> ExitCode {
    let options = match options(program, releases, std::env::args().skip(1), named) {
        Ok(options) => options,
        Err(message) => {
            eprintln!("{program}: {message}");
            return ExitCode::FAILURE;
        }
    };
    let start = Instant::now();
    let Report { counts, cases, end } = run(&options);
    let seconds = start.elapsed().as_secs_f64();
    let seed = options.seed;
    let release = match options.release {
        PORTED => String::new(),
        other => format!("release {other}, "),
    };
    for (count, counted) in counts {
        println!("{:>15} {counted}", grouped(count));
    }
    match end {
        End::Enough => {
            println!("{cases:>15}, none different ({release}seed {seed}, {seconds:.1} s)");
            ExitCode::SUCCESS
        }
        End::Different(difference) => {
            println!("{cases:>15}, the last different ({release}seed {seed}, {seconds:.1} s)");
            println!("{difference}");
            ExitCode::FAILURE
        }
    }
}

/// What a command line asks for.
pub struct Options<F> {
    pub until: Until,
    pub seed: u64,
    pub release: u32,
    pub fault: Option<F>,
}

/// Reads `SECONDS [SEED]` or `--cases N [--seed S]`, and `--release N` and `--fault NAME` beside them; `named` finds the fault.
fn options<F>(
    program: &str,
    releases: &[u32],
    mut arguments: impl Iterator<Item = String>,
    named: impl Fn(&str) -> Result<F, String>,
) -> Result<Options<F>, String> {
    let usage = || {
        let release = match releases {
            [] => "",
            _ => ", and --release 3 beside either",
        };
        format!("usage: {program} SECONDS [SEED] | {program} --cases N [--seed S]{release}")
    };
    let number = |argument: &str| argument.parse().map_err(|_| usage());
    let mut until = None;
    let mut seed = None;
    let mut release = None;
    let mut fault = None;
    while let Some(argument) = arguments.next() {
        let mut value = || arguments.next().ok_or_else(usage);
        match argument.as_str() {
            "--cases" => until = Some(Until::Cases(number(&value()?)?)),
            "--seed" => seed = Some(number(&value()?)?),
            "--fault" => fault = Some(named(&value()?)?),
            "--release" => {
                let stated = number(&value()?)? as u32;
                release = Some(stated);
                if !releases.contains(&stated) {
                    return Err(usage());
                }
            }
            _ if until.is_none() => {
                let seconds = Duration::from_secs(number(&argument)?);
                until = Some(Until::Time(Instant::now() + seconds));
            }
            _ if seed.is_none() => seed = Some(number(&argument)?),
            _ => return Err(usage()),
        }
    }
    Ok(Options {
        until: until.ok_or_else(usage)?,
        seed: seed.unwrap_or(1),
        release: release.unwrap_or(PORTED),
        fault,
    })
}

/// The fault of this name among all of a program's.
pub fn named<F: Copy + std::fmt::Debug>(faults: &[F], name: &str) -> Result<F, String> {
    let found = faults.iter().find(|fault| format!("{fault:?}") == name);
    found.copied().ok_or(format!("the faults are {faults:?}"))
}

/// A number with commas.
pub fn grouped(number: u64) -> String {
    let digits = number.to_string();
    let groups: Vec<&str> = digits
        .as_bytes()
        .rchunks(3)
        .rev()
        .map(|group| std::str::from_utf8(group).expect("digits"))
        .collect();
    groups.join(",")
}
