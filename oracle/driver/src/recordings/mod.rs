//! Result sets that a server sent, with what its own client shows of them: `samples/hosts`, whose lines `docs/HOSTS.md` describes.
//!
//! - here: a result set, read from its line
//! - `status`: the SQLCA that stands before a row, or in place of one
//! - `cases`: a value beside the client's: the same, or another by a rule that has a name
//! - `sides`: the port and the Rust, which must agree
//! - `mended`: a description changed so that it is read as the client reads it
//! - `walk`: row by row through a result set
//! - `report`: what is printed of the walks
//! - `sample_files`: the files that hold parts of a recording
//! - `faults`: wrong libraries and wrong recordings, to see that the walk notices them
pub mod cases;
pub mod faults;
pub mod mended;
pub mod report;
pub mod sample_files;
pub mod sides;
pub mod status;
pub mod walk;

use crate::request::bytes;
use std::fmt;

/// A result set as it was sent.
#[derive(Debug, Clone)]
pub struct Recording {
    pub name: String,
    pub description: Vec<u8>,
    pub blocks: Vec<Vec<u8>>,
    /// What the client shows, row by row.
    pub rows: Vec<Vec<Shown>>,
    pub extdta: Vec<Vec<u8>>,
}

/// A value in the form of an answer's line, without the place of a binary one.
#[derive(Debug, Clone, PartialEq, Eq)]
pub struct Shown {
    pub letter: char,
    /// What stands behind the letter; empty of a Null.
    pub held: String,
}

impl Shown {
    /// None where a field is no value.
    pub fn read(field: &str) -> Option<Shown> {
        if field == "N" {
            return Some(Shown::new('N', ""));
        }
        let (letter, held) = field.split_once(':')?;
        let mut letters = letter.chars();
        let letter = letters.next().filter(|letter| letter.is_alphabetic())?;
        let known = letters.next().is_none() && !held.is_empty();
        known.then(|| Shown::new(letter, held))
    }

    fn new(letter: char, held: &str) -> Shown {
        Shown {
            letter,
            held: held.to_string(),
        }
    }

    /// The bytes of a text or of a binary value.
    pub fn bytes(&self) -> Option<Vec<u8>> {
        bytes(&self.held).ok()
    }
}

impl fmt::Display for Shown {
    fn fmt(&self, f: &mut fmt::Formatter<'_>) -> fmt::Result {
        match self.held.is_empty() {
            true => write!(f, "{}", self.letter),
            false => write!(f, "{}:{}", self.letter, self.held),
        }
    }
}

/// Reads the lines of a file of recordings.
pub fn read(file: &str) -> Result<Vec<Recording>, String> {
    let lines = file.lines().enumerate();
    lines
        .map(|(place, line)| {
            recording(line).map_err(|message| format!("line {}: {message}", place + 1))
        })
        .collect()
}

fn recording(line: &str) -> Result<Recording, String> {
    let fields: Vec<&str> = line.split('\t').collect();
    let (name, description, blocks, rows, extdta) = match fields[..] {
        [name, description, blocks, rows] => (name, description, blocks, rows, None),
        [name, description, blocks, rows, extdta] => {
            (name, description, blocks, rows, Some(extdta))
        }
        _ => return Err(format!("{} fields", fields.len())),
    };
    let listed =
        |field: &str| -> Result<Vec<Vec<u8>>, String> { field.split(',').map(bytes).collect() };
    Ok(Recording {
        name: name.to_string(),
        description: bytes(description)?,
        blocks: listed(blocks)?,
        rows: shown_rows(rows)?,
        extdta: extdta.map_or(Ok(Vec::new()), listed)?,
    })
}

fn shown_rows(field: &str) -> Result<Vec<Vec<Shown>>, String> {
    if field == "-" {
        return Ok(Vec::new());
    }
    let value = |field| Shown::read(field).ok_or(format!("no value: {field}"));
    let rows = field.split(" ; ");
    rows.map(|row| row.split(' ').map(value).collect())
        .collect()
}

/// The recordings of the repository, for tests.
#[cfg(test)]
pub fn stored() -> Vec<Recording> {
    let file = concat!(env!("CARGO_MANIFEST_DIR"), "/../../samples/hosts/derby.txt");
    read(&std::fs::read_to_string(file).unwrap()).unwrap()
}

#[cfg(test)]
mod tests {
    use super::*;

    #[test]
    fn a_line_is_read() {
        let line = "two\t0676D0040002\tFF000001FF,000002\tS:1 ; N V:- B:0102";
        let Recording {
            name,
            description,
            blocks,
            rows,
            extdta,
        } = recording(line).unwrap();
        assert_eq!(name, "two");
        assert_eq!(description, [0x06, 0x76, 0xD0, 0x04, 0x00, 0x02]);
        assert_eq!(blocks, [vec![0xFF, 0, 0, 1, 0xFF], vec![0, 0, 2]]);
        let written: Vec<String> = rows.concat().iter().map(Shown::to_string).collect();
        assert_eq!(written, ["S:1", "N", "V:-", "B:0102"]);
        assert_eq!(rows.len(), 2);
        assert!(extdta.is_empty());
        let none = recording("none\t-\t-\t-\t00,01").unwrap();
        assert!(none.rows.is_empty());
        assert_eq!(none.extdta, [[0], [1]]);
    }

    #[test]
    fn what_is_no_recording_is_refused() {
        for line in [
            "",
            "name\t00\t00",
            "name\t0\t00\t-",
            "name\t00\t0g\t-",
            "name\t00\t00\tS:1 ; ",
            "name\t00\t00\tS",
            "name\t00\t00\tS:",
            "name\t00\t00\tSI:1",
            "name\t00\t00\t-\t0",
            "name\t00\t00\t-\t00\t00",
        ] {
            assert!(recording(line).is_err(), "{line}");
        }
    }
}
