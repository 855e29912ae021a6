//! The answers of the port, and the checks of what a line does not show: where refusal 9 comes and with which length, and that
//! every byte that is not the text keeps what it had.
use crate::leaf::{Answer, Leaf};
use crate::lent::Lent;
use port::{Outcome, PackedWhole};

/// What is asked. The archive is one; `faults` has others, which are wrong.
pub trait Library {
    /// A call that writes a text (every leaf but Likely and PackedWhole).
    fn write(&self, leaf: Leaf, data: &[u8], text: &mut [u8]) -> Outcome;

    fn likely(&self, data: &[u8]) -> u32;

    fn packed_whole(&self, data: &[u8], scale: u8) -> PackedWhole;
}

/// The static library.
pub struct Archive;

impl Library for Archive {
    fn write(&self, leaf: Leaf, data: &[u8], text: &mut [u8]) -> Outcome {
        match leaf {
            Leaf::Character { ccsid, release } => {
                port::decode_character_bytes(data, ccsid, release, text)
            }
            Leaf::Graphic { ccsid, release } => {
                port::decode_graphic_bytes(data, ccsid, release, text)
            }
            Leaf::Decimal { precision, scale } => {
                port::decode_packed_decimal(data, precision, scale, text)
            }
            Leaf::Locator => port::format_lob_locator(data, text),
            Leaf::RowId => port::format_rowid(data, text),
            Leaf::Likely => panic!("bytes_are_likely_text writes no text"),
            Leaf::PackedWhole { .. } => panic!("decode_packed_whole writes no text"),
        }
    }

    fn likely(&self, data: &[u8]) -> u32 {
        port::bytes_are_likely_text(data)
    }

    fn packed_whole(&self, data: &[u8], scale: u8) -> PackedWhole {
        port::decode_packed_whole(data, scale)
    }
}

/// No text of n bytes is longer, packed decimals aside.
pub fn ample(n: usize) -> usize {
    3 * n + 14
}

/// Longer than any packed decimal's text (258 bytes), with bytes left over.
const SPARE: usize = 300;

/// Answers by a library, with buffers that are used again from call to call.
pub struct PortSide<L> {
    library: L,
    buffer: Lent<u8>,
    text: Vec<u8>,
}

impl<L: Library> PortSide<L> {
    pub fn new(library: L) -> Self {
        PortSide {
            library,
            buffer: Lent::new(),
            text: Vec::new(),
        }
    }

    pub fn answer(&mut self, leaf: Leaf, data: &[u8]) -> Answer<'_> {
        match leaf {
            Leaf::Likely => match self.library.likely(data) {
                0 => Answer::Truth(false),
                1 => Answer::Truth(true),
                other => Answer::Refusal(other),
            },
            Leaf::PackedWhole { scale } => whole(self.library.packed_whole(data, scale)),
            _ => self.text(leaf, data),
        }
    }

    /// The answer of a call that writes a text.
    fn text(&mut self, leaf: Leaf, data: &[u8]) -> Answer<'_> {
        let first = self.call(leaf, data, 0);
        if !self.buffer.kept(0, 0) {
            return Answer::BadRest;
        }
        let length = first.text_length;
        let most = ample(data.len()) + SPARE;
        match first.number {
            0 if length != 0 => Answer::Bad9,
            9 if length == 0 || length > most || first.replaced != 0 => Answer::Bad9,
            0 | 9 => self.written(leaf, data, length),
            _ => self.refused(leaf, data, first),
        }
    }

    /// A call with a buffer of `size` bytes.
    fn call(&mut self, leaf: Leaf, data: &[u8], size: usize) -> Outcome {
        self.library.write(leaf, data, self.buffer.fresh(size))
    }

    /// The text, whose length by the library is `length`, and the checks with other buffers.
    fn written(&mut self, leaf: Leaf, data: &[u8], length: usize) -> Answer<'_> {
        let accepted = self.call(leaf, data, length);
        if (accepted.number, accepted.text_length) != (0, length) {
            return Answer::Bad9;
        }
        if !self.buffer.kept(length, length) {
            return Answer::BadRest;
        }
        self.text.clear();
        self.text.extend_from_slice(self.buffer.first(length));
        if length > 0 {
            let nine = Outcome {
                number: 9,
                text_length: length,
                replaced: 0,
            };
            if self.call(leaf, data, length - 1) != nine || !self.buffer.kept(0, length - 1) {
                return Answer::Bad9;
            }
        }
        // One byte more; the two sides of the length from which no text can fail to fit; more than that.
        let enough = ample(data.len());
        for size in [length + 1, enough - 1, enough, enough + SPARE] {
            if size < length {
                continue;
            }
            if self.call(leaf, data, size) != accepted {
                return Answer::Bad9;
            }
            if self.buffer.first(length) != self.text || !self.buffer.kept(length, size) {
                return Answer::BadRest;
            }
        }
        Answer::Text {
            text: self.text.as_slice().into(),
            replaced: accepted.replaced,
        }
    }

    /// A refusal but 9: the same with a buffer in which any text fits, with length 0, nothing replaced and no byte changed.
    fn refused(&mut self, leaf: Leaf, data: &[u8], first: Outcome) -> Answer<'_> {
        let size = ample(data.len()) + SPARE;
        let numbers = (first.text_length, first.replaced);
        if self.call(leaf, data, size) != first || numbers != (0, 0) {
            return Answer::Bad9;
        }
        if !self.buffer.kept(0, size) {
            return Answer::BadRest;
        }
        Answer::Refusal(first.number)
    }
}

/// A whole number as it is answered, and nothing beside a refusal.
fn whole(answer: PackedWhole) -> Answer<'static> {
    match answer {
        PackedWhole {
            number: 0,
            whole: number,
            scale,
        } => Answer::Whole { number, scale },
        PackedWhole {
            number,
            whole: 0,
            scale: 0,
        } => Answer::Refusal(number),
        _ => Answer::BadBlank,
    }
}
