//! The answers of the port, and the checks of what a line does not show: where refusal 9 and 101 come and with which numbers, and
//! that every word and byte that is no value's or text's keeps what it had.
use super::{Answer, Bad, Outcome};
use crate::lent::Lent;
use port::value::VALUE_WORDS;
use port::{Decoded, TOO_FEW_WORDS};

/// What a row call is handed beside the buffers that it writes.
#[derive(Clone, Copy)]
pub struct Asked<'a> {
    pub columns: &'a [u64],
    pub data: &'a [u8],
    pub release: u32,
}

impl Asked<'_> {
    /// The words of its values.
    fn words(self) -> usize {
        VALUE_WORDS * (self.columns.len() / 2)
    }

    /// So many bytes hold the texts of any row as long.
    fn ample(self) -> usize {
        ample(self.columns.len() / 2, self.data.len())
    }
}

/// What is asked. The archive is one; `model` has others, which are wrong.
pub trait Library {
    fn decode_row(&self, asked: Asked, values: &mut [u64], text: &mut [u8]) -> Decoded;

    /// The row call by value, with the columns of a description: how many characters it replaced.
    fn replaced_by_value(
        &self,
        description: &[u8],
        data: &[u8],
        release: u32,
        text: &mut [u8],
    ) -> usize;
}

/// The static library.
pub struct Archive;

impl Library for Archive {
    fn decode_row(&self, asked: Asked, values: &mut [u64], text: &mut [u8]) -> Decoded {
        port::decode_row(asked.columns, asked.data, asked.release, values, text)
    }

    fn replaced_by_value(
        &self,
        description: &[u8],
        data: &[u8],
        release: u32,
        text: &mut [u8],
    ) -> usize {
        port::by_value::replaced(description, data, release, text) as usize
    }
}

/// No row's texts are longer: three bytes for one, and for each column what a locator's text begins with or a decimal's scale adds.
pub fn ample(columns: usize, bytes: usize) -> usize {
    3 * bytes + 258 * columns
}

/// Answers by a library, with buffers that are used again from call to call.
pub struct PortSide<L> {
    library: L,
    values: Lent<u64>,
    text: Lent<u8>,
    answer: Answer,
    /// Calls made, which pick the lengths of the larger buffers.
    turn: usize,
    /// The same for the call by value.
    turn_by_value: usize,
}

/// An answer whose other numbers are all 0.
pub fn plain(number: u32) -> Decoded {
    Decoded {
        number,
        used: 0,
        text_length: 0,
        replaced: 0,
        expected: 0,
        actual: 0,
    }
}

fn accepted(used: usize, text_length: usize, replaced: usize) -> Decoded {
    Decoded {
        used,
        text_length,
        replaced,
        ..plain(0)
    }
}

fn nine(text_length: usize) -> Decoded {
    Decoded {
        text_length,
        ..plain(9)
    }
}

impl<L: Library> PortSide<L> {
    pub fn new(library: L) -> Self {
        PortSide {
            library,
            values: Lent::new(),
            text: Lent::new(),
            answer: Answer::new(),
            turn: 0,
            turn_by_value: 0,
        }
    }

    /// The answer with buffers just large enough, after the checks with others.
    pub fn answer(&mut self, asked: Asked) -> &Answer {
        self.turn += 1;
        let outcome = self.outcome(asked);
        if !matches!(outcome, Outcome::Accepted { .. }) {
            self.answer.set(outcome);
        }
        &self.answer
    }

    /// The outcome; where it is accepted the answer holds it already.
    fn outcome(&mut self, asked: Asked) -> Outcome {
        let first = self.call(asked, asked.words(), 0);
        let texts = match first.number {
            0 if first == accepted(first.used, 0, first.replaced) => 0,
            9 if first.text_length > 0 && first == nine(first.text_length) => first.text_length,
            0 | 9 => return Outcome::Bad(Bad::Nine),
            _ => return self.refused(asked, first),
        };
        if texts > asked.ample() {
            return Outcome::Bad(Bad::Nine);
        }
        self.accepted(asked, first, texts)
    }

    /// A call with so many words for values and bytes for texts.
    fn call(&mut self, asked: Asked, words: usize, bytes: usize) -> Decoded {
        let values = self.values.fresh(words);
        let text = self.text.fresh(bytes);
        self.library.decode_row(asked, values, text)
    }

    /// Whether nothing has changed.
    fn kept(&self, words: usize, bytes: usize) -> bool {
        self.values.kept(0, words) && self.text.kept(0, bytes)
    }

    /// A row that is accepted with `texts` bytes of text; `first` was the answer with none.
    fn accepted(&mut self, asked: Asked, first: Decoded, texts: usize) -> Outcome {
        let words = asked.words();
        if texts > 0 && !self.kept(words, 0) {
            return Outcome::Bad(Bad::Nine);
        }
        // Exactly as many words and bytes as are needed.
        let exact = if texts > 0 {
            self.call(asked, words, texts)
        } else {
            first
        };
        let Decoded { used, replaced, .. } = exact;
        if exact != accepted(used, texts, replaced) {
            return Outcome::Bad(Bad::Nine);
        }
        if !self.values.kept(words, words) || !self.text.kept(texts, texts) {
            return Outcome::Bad(Bad::Rest);
        }
        self.answer.set(Outcome::Accepted { used, replaced });
        self.answer
            .values
            .extend_from_slice(self.values.first(words));
        self.answer.text.extend_from_slice(self.text.first(texts));
        // More of both; of the text around the lengths from which on no text can fail to fit.
        let enough = asked.ample();
        let just = ample(asked.columns.len() / 2, used.min(asked.data.len()));
        let sizes = [
            texts + 1,
            texts + 7,
            just.saturating_sub(1),
            just,
            just + 1,
            enough.saturating_sub(1),
            enough,
            enough + 99,
        ];
        let bytes = sizes[self.turn % sizes.len()].max(texts);
        let more = words + 1 + self.turn % 3;
        if self.call(asked, more, bytes) != exact || !self.same(words, more, texts, bytes) {
            return Outcome::Bad(Bad::Rest);
        }
        // One byte too few, with words exact or more.
        if texts > 0 {
            let words = words + self.turn % 2;
            let short = self.call(asked, words, texts - 1);
            if short != nine(texts) || !self.kept(words, texts - 1) {
                return Outcome::Bad(Bad::Nine);
            }
        }
        match self.too_few_is_said(asked, texts) {
            true => self.answer.outcome,
            false => Outcome::Bad(Bad::TooFew),
        }
    }

    /// Whether the values and texts are those of the answer, and all else is as it was.
    fn same(&self, words: usize, lent_words: usize, bytes: usize, lent_bytes: usize) -> bool {
        self.values.first(words) == self.answer.values
            && self.text.first(bytes) == self.answer.text
            && self.values.kept(words, lent_words)
            && self.text.kept(bytes, lent_bytes)
    }

    /// Whether 101 comes with fewer words than needed, and changes nothing.
    fn too_few_is_said(&mut self, asked: Asked, bytes: usize) -> bool {
        let needed = asked.words();
        if needed == 0 {
            return true;
        }
        let words = [needed - 1, 0, needed - 1, needed / 2][self.turn % 4];
        self.call(asked, words, bytes) == plain(TOO_FEW_WORDS) && self.kept(words, bytes)
    }

    /// A refusal but 9: the same with room for all and more, and nothing changed. All but refusals 22 and 3 come after 101.
    fn refused(&mut self, asked: Asked, first: Decoded) -> Outcome {
        let words = asked.words();
        if !self.kept(words, 0) {
            return Outcome::Bad(Bad::Rest);
        }
        let bytes = [1, asked.ample().min(5000)][self.turn % 2];
        let more = words + self.turn % 3;
        if self.call(asked, more, bytes) != first || !self.kept(more, bytes) {
            return Outcome::Bad(Bad::Rest);
        }
        if matches!(first.number, 22 | 3) {
            let fewer = [0, words.saturating_sub(1)][self.turn % 2];
            let same = self.call(asked, fewer, 0) == first && self.kept(fewer, 0);
            if !same {
                return Outcome::Bad(Bad::TooFew);
            }
        } else if !self.too_few_is_said(asked, bytes) {
            return Outcome::Bad(Bad::TooFew);
        }
        let Decoded {
            number,
            expected,
            actual,
            ..
        } = first;
        let short = Decoded {
            expected,
            actual,
            ..plain(8)
        };
        match number {
            8 if first == short => Outcome::TooShort { expected, actual },
            TOO_FEW_WORDS => Outcome::Bad(Bad::TooFew),
            _ if first != plain(number) => Outcome::Bad(Bad::Rest),
            _ => Outcome::Refusal(number),
        }
    }

    /// Whether one call, with room for all, gives an answer that another gave: its numbers, its values and its texts.
    pub fn gives(&mut self, asked: Asked, answer: &Answer) -> bool {
        let Outcome::Accepted { used, replaced } = answer.outcome else {
            return false;
        };
        let (words, bytes) = (answer.values.len(), answer.text.len());
        self.call(asked, words, bytes) == accepted(used, bytes, replaced)
            && self.values.first(words) == answer.values
            && self.text.first(bytes) == answer.text
            && self.values.kept(words, words)
            && self.text.kept(bytes, bytes)
    }

    /// Whether one call says that the row is too short, and changes nothing.
    pub fn is_too_short(&mut self, asked: Asked, bytes: usize) -> bool {
        let words = asked.words();
        let answer = self.call(asked, words, bytes);
        (answer.number, answer.replaced) == (8, 0) && self.kept(words, bytes)
    }

    /// The outcome of the row call by value, with the columns of a description, which has so many: the characters replaced are its own, the rest is
    /// taken from an answer that another gave, whose texts it must write.
    pub fn by_value(
        &mut self,
        description: &[u8],
        columns: usize,
        data: &[u8],
        release: u32,
        answer: &Answer,
    ) -> Outcome {
        self.turn_by_value += 1;
        let texts = answer.text.len();
        let enough = ample(columns, data.len());
        let more = [texts + 1, enough, texts + 7, enough + 99][self.turn_by_value % 4];
        let Outcome::Accepted { used, .. } = answer.outcome else {
            let none = self.call_by_value(description, data, release, more) == 0
                && self.text.kept(0, more);
            return if none {
                answer.outcome
            } else {
                Outcome::Bad(Bad::Rest)
            };
        };
        let replaced = self.call_by_value(description, data, release, texts);
        let exact = self.has_texts(answer, texts);
        let as_many = self.call_by_value(description, data, release, more) == replaced;
        if !exact || !as_many || !self.has_texts(answer, more) {
            return Outcome::Bad(Bad::Rest);
        }
        if texts > 0 {
            let none = self.call_by_value(description, data, release, texts - 1) == 0;
            if !none || !self.text.kept(0, texts - 1) {
                return Outcome::Bad(Bad::Nine);
            }
        }
        Outcome::Accepted { used, replaced }
    }

    /// A call with so many bytes for texts.
    fn call_by_value(
        &mut self,
        description: &[u8],
        data: &[u8],
        release: u32,
        bytes: usize,
    ) -> usize {
        let text = self.text.fresh(bytes);
        self.library
            .replaced_by_value(description, data, release, text)
    }

    /// Whether the texts are those of the answer, and the bytes lent behind them are as they were.
    fn has_texts(&self, answer: &Answer, lent: usize) -> bool {
        let texts = answer.text.len();
        self.text.first(texts) == answer.text && self.text.kept(texts, lent)
    }
}
