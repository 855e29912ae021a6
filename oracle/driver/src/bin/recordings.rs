//! `recordings SAMPLES`: walks through the recordings of a folder of samples, by the port and by the Rust, beside what the client shows, and holds the files made of them to
//! what was sent. It prints a line a result set and the totals. `recordings SAMPLES --requests` prints what it asks, for `answers`.
use differential::recordings::report::{self, Walked};
use differential::recordings::sides::Sides;
use differential::recordings::walk::{walk, walk_mended, Walk};
use differential::recordings::{self, sample_files, Recording};
use differential::rows::port_side::Archive;
use std::path::Path;
use std::process::ExitCode;

fn main() -> ExitCode {
    let arguments: Vec<String> = std::env::args().skip(1).collect();
    let lines = match arguments.iter().map(String::as_str).collect::<Vec<_>>()[..] {
        [samples] => walked(samples).map(|walked| report::lines(&walked)),
        [samples, "--requests"] => walked(samples).map(requests),
        _ => Err("usage: recordings SAMPLES [--requests]".to_string()),
    };
    match lines {
        Ok(lines) => {
            println!("{}", lines.join("\n"));
            ExitCode::SUCCESS
        }
        Err(message) => {
            eprintln!("recordings: {message}");
            ExitCode::FAILURE
        }
    }
}

fn walked(samples: &str) -> Result<Vec<Walked>, String> {
    let samples = Path::new(samples);
    let file = text(&samples.join("hosts/derby.txt"))?;
    let mut sides = Sides::new(Archive);
    let mut walked = Vec::new();
    for recording in recordings::read(&file)? {
        let named = |message| format!("{}: {message}", recording.name);
        let sent = walk(&recording, &mut sides).map_err(named)?;
        let mended = walk_mended(&recording, &mut sides).map_err(named)?;
        if recording.name == sample_files::RECORDING {
            hold_files(samples, &recording, &sent)?;
        }
        walked.push(Walked {
            name: recording.name,
            sent,
            mended,
        });
    }
    Ok(walked)
}

fn hold_files(samples: &Path, recording: &Recording, walk: &Walk) -> Result<(), String> {
    for (name, sent) in sample_files::files(recording, walk) {
        let path = samples.join(&name);
        sample_files::compare(&text(&path)?, &sent)
            .map_err(|message| format!("{name}: {message}"))?;
    }
    Ok(())
}

fn text(path: &Path) -> Result<String, String> {
    std::fs::read_to_string(path).map_err(|error| format!("{}: {error}", path.display()))
}

/// Each request once, in the order in which they came; of descriptions changed those where columns were missing.
fn requests(walked: Vec<Walked>) -> Vec<String> {
    let mut lines: Vec<String> = Vec::new();
    for Walked { sent, mended, .. } in walked {
        let more = match sent.rows.len() == sent.client_rows {
            true => Vec::new(),
            false => mended.requests,
        };
        for line in sent.requests.into_iter().chain(more) {
            if !lines.contains(&line) {
                lines.push(line);
            }
        }
    }
    lines
}
