//! Row by row through a result set: what the row call answers must be what the client shows, or differ by a rule; and the bytes must end where the query does.
use super::cases::{self, Case, CASES};
use super::mended::{is_continued, mended};
use super::sides::{request, Sides};
use super::{status, Recording, Shown};
use crate::request::Form;
use crate::rows::port_side::Library;
use crate::rows::{Answer, List, Outcome};
use port::column::Column;
use std::slice::Iter;

/// What was found on the way.
#[derive(Debug, Clone, Default, PartialEq, Eq)]
pub struct Walk {
    /// Where each row begins and ends, in the blocks joined.
    pub rows: Vec<(usize, usize)>,
    /// Rows that the client has.
    pub client_rows: usize,
    /// Values by their case.
    pub values: [usize; CASES.len()],
    /// Rows with a status before them.
    pub behind_status: usize,
    /// Statuses without a row, but the query's end.
    pub statuses: usize,
    /// Rows that a block's end parts.
    pub split: usize,
    /// Rows that the query's end is taken for, by whoever goes on there.
    pub rows_of_end: usize,
    /// Requests, as lines: each row alone, the rest from the first on, and what stands where a row might.
    pub requests: Vec<String>,
}

impl Walk {
    pub fn count(&self, case: Case) -> usize {
        let place = CASES.iter().position(|one| *one == case);
        self.values[place.expect("every case is listed")]
    }

    fn add(&mut self, case: Case, values: usize) {
        let place = CASES.iter().position(|one| *one == case);
        self.values[place.expect("every case is listed")] += values;
    }
}

/// The first bytes of a row without a status.
const ROW: [u8; 2] = [0xFF, 0x00];

/// Walks through a recording. The error says what is not as it must be.
pub fn walk<L: Library>(recording: &Recording, sides: &mut Sides<L>) -> Result<Walk, String> {
    walk_with(&recording.description, recording, sides)
}

/// The same by the description changed.
pub fn walk_mended<L: Library>(
    recording: &Recording,
    sides: &mut Sides<L>,
) -> Result<Walk, String> {
    walk_with(&mended(&recording.description), recording, sides)
}

fn walk_with<L: Library>(
    description: &[u8],
    recording: &Recording,
    sides: &mut Sides<L>,
) -> Result<Walk, String> {
    let list = sides.columns(description)?;
    let data = recording.blocks.concat();
    let mut walker = Walker {
        sides,
        list: &list,
        data: &data,
        block_ends: ends(&recording.blocks),
        shown: recording.rows.iter(),
        extdta: (!recording.extdta.is_empty()).then(|| recording.extdta.iter()),
        continued: is_continued(description),
        found: Walk {
            client_rows: recording.rows.len(),
            ..Walk::default()
        },
    };
    walker.go()?;
    Ok(walker.found)
}

/// Where each block but the last ends.
fn ends(blocks: &[Vec<u8>]) -> Vec<usize> {
    let mut end = 0;
    let ends = blocks.iter().map(|block| {
        end += block.len();
        end
    });
    let mut ends: Vec<usize> = ends.collect();
    ends.pop();
    ends
}

struct Walker<'a, L> {
    sides: &'a mut Sides<L>,
    list: &'a List,
    data: &'a [u8],
    block_ends: Vec<usize>,
    shown: Iter<'a, Vec<Shown>>,
    /// None where no EXTDTA came at all.
    extdta: Option<Iter<'a, Vec<u8>>>,
    continued: bool,
    found: Walk,
}

impl<L: Library> Walker<'_, L> {
    fn go(&mut self) -> Result<(), String> {
        let mut at = 0;
        loop {
            let rest = &self.data[at..];
            if rest.starts_with(&ROW) {
                at = self.row(at)?;
                continue;
            }
            let Some(status) = status::read(rest) else {
                return self.lost(at);
            };
            self.asked(rest)?;
            if status.is_query_end() {
                return self.end(at, &status);
            }
            if status.row_follows {
                self.found.behind_status += 1;
                at = self.row(at + status.length)?;
            } else {
                self.found.statuses += 1;
                at += status.whole();
            }
        }
    }

    /// Asks both sides about bytes, and keeps the request.
    fn asked(&mut self, data: &[u8]) -> Result<Answer, String> {
        let line = request(self.list, data);
        if !self.found.requests.contains(&line) {
            self.found.requests.push(line);
        }
        self.sides.answer(self.list, data)
    }

    /// The row that begins here. Its answer is the same with all that follows and alone. Where it ends.
    fn row(&mut self, at: usize) -> Result<usize, String> {
        let rest = &self.data[at..];
        let answer = match self.found.rows.is_empty() {
            true => self.asked(rest)?,
            false => self.sides.answer(self.list, rest)?,
        };
        let Outcome::Accepted { used, .. } = answer.outcome else {
            return Err(format!("no row: {}", answer.shown(Form::Whole, rest)));
        };
        let alone = rest.get(..used).ok_or("more bytes used than there are")?;
        if self.asked(alone)? != answer {
            return Err("the row alone is another".to_string());
        }
        let shown = self.shown.next().ok_or("the client has no such row")?;
        self.values(&answer, rest, shown)?;
        self.found.rows.push((at, at + used));
        self.cut(at, at + used)?;
        Ok(at + used)
    }

    /// The row's values beside the client's.
    fn values(&mut self, answer: &Answer, row: &[u8], shown: &[Shown]) -> Result<(), String> {
        let Line {
            external,
            replaced,
            values,
        } = Line::read(&answer.shown(Form::Whole, row)).ok_or("no row's line")?;
        let columns = &self.list.columns;
        let too_few = shown.len().saturating_sub(columns.len());
        if shown.len() < columns.len() || (too_few > 0 && !self.continued) {
            return Err(format!(
                "{} columns, the client has {}",
                columns.len(),
                shown.len()
            ));
        }
        self.found.add(Case::Missing, too_few);
        let mut foretold = 0;
        for (place, (ours, theirs)) in values.iter().zip(shown).enumerate() {
            let external = external.contains(&place);
            let case = self
                .case(&columns[place], external, ours, theirs)
                .ok_or_else(|| {
                    format!(
                        "row {}, column {place}: {ours}, the client shows {theirs}",
                        self.found.rows.len()
                    )
                })?;
            if case == Case::BitDataLost {
                foretold += malformed(theirs);
            }
            self.found.add(case, 1);
        }
        match replaced == foretold {
            true => Ok(()),
            false => Err(format!("{replaced} characters replaced, not {foretold}")),
        }
    }

    fn case(
        &mut self,
        column: &Column,
        external: bool,
        ours: &Shown,
        theirs: &Shown,
    ) -> Option<Case> {
        match external {
            true => cases::external(column, ours, theirs, self.extdta.as_mut()),
            false => cases::inline(column, ours, theirs),
        }
    }

    /// Where a block's end parts the row, what the block has of it is too short, save for a first byte alone.
    fn cut(&mut self, start: usize, end: usize) -> Result<(), String> {
        let within = |cut: &usize| start < *cut && *cut < end;
        let cuts: Vec<usize> = self.block_ends.iter().copied().filter(within).collect();
        for cut in &cuts {
            let part = &self.data[start..*cut];
            let answer = self.asked(part)?;
            if part.len() > 1 && !matches!(answer.outcome, Outcome::TooShort { .. }) {
                return Err(format!("the block that ends at {cut} has a whole row"));
            }
        }
        self.found.split += usize::from(!cuts.is_empty());
        Ok(())
    }

    /// The query's end: nothing follows it, it counts the rows, and the client and the EXTDTAs have no more either.
    fn end(&mut self, at: usize, status: &status::Status) -> Result<(), String> {
        let rows = self.found.rows.len();
        if at + status.whole() != self.data.len() {
            return Err("bytes behind the query's end".to_string());
        }
        if usize::try_from(status.rows) != Ok(rows) {
            return Err(format!(
                "{rows} rows, and the query's end counts {}",
                status.rows
            ));
        }
        if self.shown.len() > 0 {
            return Err(format!("the client has {} rows more", self.shown.len()));
        }
        if self.extdta.as_ref().is_some_and(|left| left.len() > 0) {
            return Err("an EXTDTA is left".to_string());
        }
        self.found.rows_of_end = self.rows_of_end(at)?;
        Ok(())
    }

    /// How many rows the bytes from here on are taken for.
    fn rows_of_end(&mut self, mut at: usize) -> Result<usize, String> {
        let mut rows = 0;
        while at < self.data.len() {
            let rest = &self.data[at..];
            match self.sides.answer(self.list, rest)?.outcome {
                Outcome::Accepted { used, .. } if used > 0 => at += used,
                _ => return Ok(rows),
            }
            rows += 1;
        }
        Ok(rows)
    }

    /// No row and no status begins here. That may be where columns are missing: all that the client shows from here on is, too.
    fn lost(&mut self, at: usize) -> Result<(), String> {
        let rest = &self.data[at..];
        if !self.continued || rest.is_empty() {
            return Err(format!("neither a row nor a status at byte {at}"));
        }
        self.asked(rest)?;
        let missing: usize = self.shown.by_ref().map(Vec::len).sum();
        self.found.add(Case::Missing, missing);
        Ok(())
    }
}

/// How many U+FFFD stand for malformed parts of the client's bytes.
fn malformed(theirs: &Shown) -> usize {
    let bytes = theirs.bytes().unwrap_or_default();
    let chunks = bytes.utf8_chunks();
    chunks.filter(|chunk| !chunk.invalid().is_empty()).count()
}

/// What the line of an accepted row says.
struct Line {
    external: Vec<usize>,
    replaced: usize,
    values: Vec<Shown>,
}

impl Line {
    fn read(line: &str) -> Option<Line> {
        let fields: Vec<&str> = line.split(' ').collect();
        let ["OK", _, external, _, replaced, ref values @ ..] = fields[..] else {
            return None;
        };
        let external = match external {
            "-" => Vec::new(),
            listed => {
                let places = listed.split(',').map(|place| place.parse().ok());
                places.collect::<Option<Vec<usize>>>()?
            }
        };
        let values: Option<Vec<Shown>> = values.iter().map(|field| without_place(field)).collect();
        Some(Line {
            external,
            replaced: replaced.parse().ok()?,
            values: values?,
        })
    }
}

/// A value of a line; a binary one without where in the row it lies, which the client does not tell.
fn without_place(field: &str) -> Option<Shown> {
    match field.split(':').collect::<Vec<&str>>()[..] {
        [letter @ ("B" | "O"), _, held] => Shown::read(&format!("{letter}:{held}")),
        _ => Shown::read(field),
    }
}

#[cfg(test)]
mod tests {
    use super::*;

    #[test]
    fn blocks_end_behind_their_bytes() {
        assert_eq!(ends(&[vec![1, 2], vec![], vec![3]]), [2, 2]);
        assert!(ends(&[]).is_empty());
    }

    #[test]
    fn a_line_is_taken_apart() {
        let line = Line::read("OK 9 0,2 4 1 O:5:0102 N B:0:- V:EFBFBD41").unwrap();
        assert_eq!(line.external, [0, 2]);
        assert_eq!(line.replaced, 1);
        let values: Vec<String> = line.values.iter().map(Shown::to_string).collect();
        assert_eq!(values, ["O:0102", "N", "B:-", "V:EFBFBD41"]);
        assert!(Line::read("SHORT 2 1").is_none());
    }
}
