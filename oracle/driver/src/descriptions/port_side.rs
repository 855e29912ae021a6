//! The answers of the port, and the checks of what a line does not show: that every column's number is its place, where 101
//! comes and with which count, that every word that is no column's keeps what it had, and that the flag says nothing where nothing is accepted.
use super::{Answers, Description, FixedLength, Parser, COLUMN_LIMIT};
use crate::lent::Lent;
use port::column::Column;
use port::{by_value, Described, WholeDescribed, TOO_FEW_WORDS};

/// What is asked. The archive is one; `faults` has others, which are wrong.
pub trait Library {
    fn parse(&self, parser: Parser, data: &[u8], words: &mut [u64]) -> Described;

    /// By value: 1 where `Parser::Ported` says broken off,
    fn broken_off_by_value(&self, data: &[u8]) -> u64;

    /// what `Parser::Whole` answers,
    fn whole_number_by_value(&self, data: &[u8]) -> u64;

    /// and the length of the column at a place of its list.
    fn whole_length_by_value(&self, data: &[u8], place: usize) -> u64;

    fn fixed_length(&self, type_word: u64) -> port::FixedLength;
}

/// The static library.
pub struct Archive;

impl Library for Archive {
    fn parse(&self, parser: Parser, data: &[u8], words: &mut [u64]) -> Described {
        match parser {
            Parser::Ported => port::parse_qrydsc(data, words),
            // It has no flag: what it accepts is whole.
            Parser::Whole => {
                let WholeDescribed { number, count } = port::parse_whole_qrydsc(data, words);
                Described {
                    number,
                    count,
                    broken_off: 0,
                }
            }
        }
    }

    fn broken_off_by_value(&self, data: &[u8]) -> u64 {
        by_value::broken_off(data)
    }

    fn whole_number_by_value(&self, data: &[u8]) -> u64 {
        by_value::whole_number(data)
    }

    fn whole_length_by_value(&self, data: &[u8], place: usize) -> u64 {
        by_value::whole_length_at(data, place)
    }

    fn fixed_length(&self, type_word: u64) -> port::FixedLength {
        port::fixed_length(type_word)
    }
}

/// Words in which any accepted list fits.
pub const AMPLE: usize = 2 * COLUMN_LIMIT;

/// More words than any list has.
const MANY: usize = AMPLE + 4;

/// Answers by a library, with words that are used again from call to call.
pub struct PortSide<L> {
    pub(super) library: L,
    words: Lent<u64>,
}

impl<L: Library> PortSide<L> {
    pub fn new(library: L) -> Self {
        PortSide {
            library,
            words: Lent::new(),
        }
    }

    /// By both calls. A column's words are its own: where both give the columns that are due, they give the same words.
    pub fn answers(&mut self, data: &[u8]) -> Answers {
        Answers {
            ported: self.describe(Parser::Ported, data),
            whole: self.describe(Parser::Whole, data),
        }
    }

    /// The columns as a call with more words than needed gives them, and the checks with other numbers of words.
    pub fn describe(&mut self, parser: Parser, data: &[u8]) -> Description {
        let first = self.call(parser, data, MANY);
        match first.number {
            0 if first.count <= COLUMN_LIMIT => {
                let count = first.count;
                let columns = self.columns(count);
                if !self.words.kept(2 * count, MANY) {
                    return Description::BadRest;
                }
                let found = self.words.first(2 * count).to_vec();
                match self.with_fewer(parser, data, first, &found) {
                    Some(bad) => bad,
                    None => columns.map_or_else(|bad| bad, |columns| accepted(columns, first)),
                }
            }
            // With so many words it is never due.
            0 | TOO_FEW_WORDS => Description::Bad101,
            _ => self.refused(parser, data, first),
        }
    }

    /// A call with `size` words.
    fn call(&mut self, parser: Parser, data: &[u8], size: usize) -> Described {
        self.library.parse(parser, data, self.words.fresh(size))
    }

    /// The columns that stand in the first words.
    fn columns(&self, count: usize) -> Result<Vec<Column>, Description> {
        let (pairs, _) = self.words.first(2 * count).as_chunks::<2>();
        let mut columns = Vec::with_capacity(count);
        for (place, pair) in pairs.iter().enumerate() {
            let column = Column::from_words(*pair).ok_or(Description::BadWord)?;
            if usize::from(column.index) != place {
                return Err(Description::BadIndex);
            }
            columns.push(column);
        }
        Ok(columns)
    }

    /// What is bad with exactly as many words as are needed, with one fewer and with none, if anything is.
    fn with_fewer(
        &mut self,
        parser: Parser,
        data: &[u8],
        accepted: Described,
        found: &[u64],
    ) -> Option<Description> {
        let size = found.len();
        if let Some(bad) = other(self.call(parser, data, size), accepted) {
            return Some(bad);
        }
        if !self.words.kept(size, size) || self.words.first(size) != found {
            return Some(Description::BadRest);
        }
        if found.is_empty() {
            return None;
        }
        let too_few = Described {
            number: TOO_FEW_WORDS,
            broken_off: 0,
            ..accepted
        };
        for size in [found.len() - 1, 0] {
            if let Some(bad) = other(self.call(parser, data, size), too_few) {
                return Some(bad);
            }
            if !self.words.kept(0, size) {
                return Some(Description::Bad101);
            }
        }
        None
    }

    /// A refusal: the same with no words, with count 0, without the flag and no word changed.
    fn refused(&mut self, parser: Parser, data: &[u8], first: Described) -> Description {
        let kept = self.words.kept(0, MANY);
        let due = Described {
            number: first.number,
            count: 0,
            broken_off: 0,
        };
        let second = self.call(parser, data, 0);
        if let Some(bad) = other(first, due).or(other(second, due)) {
            return bad;
        }
        if !kept || !self.words.kept(0, 0) {
            return Description::BadRest;
        }
        Description::Refusal(first.number)
    }

    /// Of any word, also one that is no type's.
    pub fn fixed_length(&self, type_word: u64) -> FixedLength {
        let answer = self.library.fixed_length(type_word);
        match (answer.number, answer.fixed, answer.length) {
            (0, 1, length) => FixedLength::Bytes(length),
            (0, 0, 0) => FixedLength::Varies,
            (0, _, _) => FixedLength::BadFixed,
            (number, 0, 0) => FixedLength::Refusal(number),
            _ => FixedLength::BadFixed,
        }
    }
}

/// What an accepted description is, by its columns and its flag.
fn accepted(columns: Vec<Column>, answer: Described) -> Description {
    match answer.broken_off {
        0 | 1 => Description::Columns {
            columns,
            broken_off: answer.broken_off == 1,
        },
        _ => Description::BadFlag,
    }
}

/// What is bad about an answer, where another was due.
fn other(answer: Described, due: Described) -> Option<Description> {
    if answer == due {
        return None;
    }
    let flag = Described {
        broken_off: due.broken_off,
        ..answer
    };
    Some(match flag == due {
        true => Description::BadFlag,
        false => Description::Bad101,
    })
}
