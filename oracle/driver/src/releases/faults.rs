//! Calls that take a release wrong. Each is the archive's, asked something else, or with another answer.
use super::{is_known, is_utf16, BY_037, PORTED};
use crate::leaf::{Leaf, TEXT_LIMIT};
use crate::port_side::{ample, Archive, Library};
use port::Outcome;

#[derive(Debug, Clone, Copy, PartialEq, Eq)]
pub enum Mistake {
    /// Release 3 is taken for release 2,
    Ignored,
    /// or release 2 for release 3.
    Always3,
    // At release 3.
    /// A UTF-16 text of an odd count is left to the guess,
    OddGuessed,
    /// or one of an even count is code page 037.
    EvenBy037,
    /// Graphic values are left to the guess,
    GraphicGuessed,
    /// or characters of 1200 and 13488,
    CharactersGuessed,
    /// or all CCSIDs but 0,
    OnlyZero,
    /// or texts of one byte.
    OneByteGuessed,
    /// CCSID 819 is code page 037.
    Latin1By037,
    // Refusal 22.
    /// It comes after 4,
    AfterLimit,
    /// or after 9.
    AfterNine,
    /// No bytes are accepted.
    EmptyTaken,
    /// The low 8 bits are the release,
    CutTo8,
    /// or the low 16,
    CutTo16,
    /// or all but the highest.
    CutTo31,
    /// Larger numbers are release 3,
    LargerTaken,
    /// smaller ones release 2.
    SmallerTaken,
    /// It comes with the text's length,
    WithLength,
    /// or with a character replaced.
    WithCount,
    /// The buffer changes.
    Changed,
}

pub const MISTAKES: [Mistake; 20] = [
    Mistake::Ignored,
    Mistake::Always3,
    Mistake::OddGuessed,
    Mistake::EvenBy037,
    Mistake::GraphicGuessed,
    Mistake::CharactersGuessed,
    Mistake::OnlyZero,
    Mistake::OneByteGuessed,
    Mistake::Latin1By037,
    Mistake::AfterLimit,
    Mistake::AfterNine,
    Mistake::EmptyTaken,
    Mistake::CutTo8,
    Mistake::CutTo16,
    Mistake::CutTo31,
    Mistake::LargerTaken,
    Mistake::SmallerTaken,
    Mistake::WithLength,
    Mistake::WithCount,
    Mistake::Changed,
];

impl Mistake {
    /// Whether it shows with numbers that are no release.
    pub fn is_of_number(self) -> bool {
        self as usize >= Mistake::AfterLimit as usize
    }

    /// The answer to a call that states a release.
    pub fn write(self, leaf: Leaf, data: &[u8], text: &mut [u8]) -> Outcome {
        let Some(release) = leaf.release() else {
            return Archive.write(leaf, data, text);
        };
        let taken = match is_known(release) {
            true => self.read_as(leaf, release, data.len()),
            false => leaf.at(self.number_taken(release, data)),
        };
        let mut outcome = Archive.write(taken, data, text);
        if outcome.number != 22 {
            return outcome;
        }
        match self {
            Mistake::AfterLimit if data.len() > TEXT_LIMIT => outcome.number = 4,
            Mistake::AfterNine if text.len() < length_at_2(leaf, data) => {
                outcome.number = 9;
                outcome.text_length = length_at_2(leaf, data);
            }
            Mistake::WithLength => outcome.text_length = length_at_2(leaf, data),
            Mistake::WithCount => outcome.replaced = 1,
            Mistake::Changed if !text.is_empty() => text[0] ^= 0x55,
            _ => {}
        }
        outcome
    }

    /// The call whose answer is given for one at a known release, with so many bytes.
    fn read_as(self, leaf: Leaf, release: u32, count: usize) -> Leaf {
        let guessed = leaf.at(PORTED);
        match (self, release, leaf) {
            (Mistake::Always3, PORTED, _) => leaf.at(BY_037),
            (_, PORTED, _) => leaf,
            (Mistake::Ignored, ..) => guessed,
            (Mistake::OddGuessed, _, Leaf::Graphic { ccsid, .. })
                if is_utf16(ccsid, 0) && !is_utf16(ccsid, count) =>
            {
                guessed
            }
            (Mistake::EvenBy037, _, Leaf::Graphic { ccsid, .. }) if is_utf16(ccsid, count) => {
                Leaf::Graphic { ccsid: 37, release }
            }
            (Mistake::GraphicGuessed, _, Leaf::Graphic { .. }) => guessed,
            (Mistake::CharactersGuessed, _, Leaf::Character { ccsid, .. })
                if is_utf16(ccsid, 0) =>
            {
                guessed
            }
            (Mistake::OnlyZero, _, Leaf::Character { ccsid, .. } | Leaf::Graphic { ccsid, .. })
                if ccsid != 0 =>
            {
                guessed
            }
            (Mistake::OneByteGuessed, ..) if count == 1 => guessed,
            (Mistake::Latin1By037, _, Leaf::Character { ccsid: 819, .. }) => {
                Leaf::Character { ccsid: 37, release }
            }
            _ => leaf,
        }
    }

    /// The release for which another number is taken.
    fn number_taken(self, number: u32, data: &[u8]) -> u32 {
        match self {
            Mistake::EmptyTaken if data.is_empty() => PORTED,
            Mistake::CutTo8 => number & 0xFF,
            Mistake::CutTo16 => number & 0xFFFF,
            Mistake::CutTo31 => number & 0x7FFF_FFFF,
            Mistake::LargerTaken => number.min(BY_037),
            Mistake::SmallerTaken => number.max(PORTED),
            _ => number,
        }
    }
}

/// The length of the text that release 2 gives.
fn length_at_2(leaf: Leaf, data: &[u8]) -> usize {
    let mut text = vec![0; ample(data.len())];
    Archive.write(leaf.at(PORTED), data, &mut text).text_length
}
