//! Libraries with a fault, to see that the differential run notices each. A fault shows only on some inputs, as a real one would.
use crate::blocks::model::{
    Dropped, Likely, Miscount, Unseen, Utf16, Utf8, DROPPED, MISCOUNTS, UNSEEN,
};
use crate::leaf::{Leaf, TEXT_LIMIT};
use crate::packed_whole::model::{self, Misread, Model};
use crate::port_side::{ample, Archive, Library};
use crate::releases::faults::{Mistake, MISTAKES};
use crate::replaced::Reading;
use port::{Outcome, PackedWhole};

#[derive(Debug, Clone, Copy, PartialEq, Eq)]
pub enum Fault {
    /// The last byte of a text of five or more input bytes is another.
    WrongByte,
    /// The length told is one less than the text's.
    LengthShort,
    /// The length told is one more than the text's.
    LengthLong,
    /// The byte after the text changes, in a large buffer only.
    AfterText,
    /// One more U+FFFD behind a text that has one.
    MoreReplacements,
    /// One U+FFFD for a row of them.
    FewerReplacements,
    /// The buffer changes although refusal 9 is answered.
    ChangedOnRefusal,
    /// Refusal 9 with one byte more than needed.
    NeededLong,
    /// Refusal 9 where the text just fits.
    RefusedAtFit,
    /// Refusal 4 at the limit.
    LimitEarly,
    /// No refusal 4 one above the limit.
    LimitLate,
    /// Refusal 7 at 128 bytes.
    DecimalLimitEarly,
    /// Refusal 7 where 6 is due.
    EmptyDecimal,
    /// The sign of a minus zero is lost.
    MinusZero,
    /// The precision takes part.
    PrecisionUsed,
    /// CCSID 500 by its own table and not by 037's.
    Own500,
    /// CCSID 13488 is no UTF-16.
    No13488,
    /// 7F counts as shown in the test for text.
    DeleteShown,
    /// U+0085 counts as shown in the test for text.
    ControlsShown,
    /// A row id in lower case.
    LowerRowId,
    /// Another beginning of a locator.
    LocatorBeginning,
    /// Of the last character of a long text of code page 037 the second byte is lost.
    LastCut,
    /// The last byte of each 1,024 is not looked at where the CCSID says nothing.
    HighUnseen,
    /// The host's own U+FFFD are counted as replaced.
    HostsOwnCounted,
    /// One is counted for each malformed byte.
    BytesCounted,
    /// One is counted for a whole text.
    OneForText,
    /// Unpaired surrogates are not counted.
    UnpairedUncounted,
    /// None is counted in a buffer that holds any text.
    UncountedInLarge,
    /// The number replaced stays with refusal 9.
    NineWithCount,
    /// Refusal 4 comes with a number replaced.
    LimitWithCount,
    /// A condition is left out of the test for well-formed UTF-8 in blocks.
    Block(Dropped),
    /// Units of UTF-16 are counted wrong in blocks.
    Units(Miscount),
    /// A likely text is tested wrong in blocks.
    Shown(Unseen),
    /// A packed decimal is misread as a whole number.
    Misread(Misread),
    /// A host's release is taken wrong.
    Release(Mistake),
}

const FAULTS: [Fault; 30] = [
    Fault::WrongByte,
    Fault::LengthShort,
    Fault::LengthLong,
    Fault::AfterText,
    Fault::MoreReplacements,
    Fault::FewerReplacements,
    Fault::ChangedOnRefusal,
    Fault::NeededLong,
    Fault::RefusedAtFit,
    Fault::LimitEarly,
    Fault::LimitLate,
    Fault::DecimalLimitEarly,
    Fault::EmptyDecimal,
    Fault::MinusZero,
    Fault::PrecisionUsed,
    Fault::Own500,
    Fault::No13488,
    Fault::DeleteShown,
    Fault::ControlsShown,
    Fault::LowerRowId,
    Fault::LocatorBeginning,
    Fault::LastCut,
    Fault::HighUnseen,
    Fault::HostsOwnCounted,
    Fault::BytesCounted,
    Fault::OneForText,
    Fault::UnpairedUncounted,
    Fault::UncountedInLarge,
    Fault::NineWithCount,
    Fault::LimitWithCount,
];

pub fn all() -> Vec<Fault> {
    let mut all = of_texts();
    all.extend(model::all().into_iter().map(Fault::Misread));
    all
}

fn of_texts() -> Vec<Fault> {
    let mut all = FAULTS.to_vec();
    all.extend(DROPPED.map(Fault::Block));
    all.extend(MISCOUNTS.map(Fault::Units));
    all.extend(UNSEEN.map(Fault::Shown));
    all.extend(MISTAKES.map(Fault::Release));
    all
}

/// The archive with a fault.
pub struct Faulty(pub Fault);

const REPLACEMENT: &[u8] = "\u{FFFD}".as_bytes();

/// The archive's whole text, where it accepts the bytes.
fn whole(leaf: Leaf, data: &[u8]) -> Option<Vec<u8>> {
    let mut text = vec![0; ample(data.len()) + 300];
    let outcome = Archive.write(leaf, data, &mut text);
    text.truncate(outcome.text_length);
    (outcome.number == 0).then_some(text)
}

/// What a right library would do with another text, of which so many characters were replaced.
fn deliver(other: &[u8], replaced: usize, text: &mut [u8]) -> Outcome {
    let fits = other.len() <= text.len();
    if fits {
        text[..other.len()].copy_from_slice(other);
    }
    Outcome {
        number: if fits { 0 } else { 9 },
        text_length: other.len(),
        replaced: if fits { replaced } else { 0 },
    }
}

/// The text with a row of U+FFFD made one.
fn merged(text: &[u8]) -> Vec<u8> {
    let mut text = String::from_utf8(text.to_vec()).expect("UTF-8");
    while text.contains("\u{FFFD}\u{FFFD}") {
        text = text.replace("\u{FFFD}\u{FFFD}", "\u{FFFD}");
    }
    text.into_bytes()
}

fn replacements(text: &[u8]) -> usize {
    text.windows(3).filter(|part| *part == REPLACEMENT).count()
}

/// Whether all bytes from 80 on are the last of 1,024.
fn high_at_ends(data: &[u8]) -> bool {
    let mut places = data.iter().enumerate();
    places.all(|(place, byte)| byte.is_ascii() || place % 1024 == 1023)
}

fn exchanged(data: &[u8], from: u8, to: u8) -> Vec<u8> {
    let exchange = |byte: &u8| if *byte == from { to } else { *byte };
    data.iter().map(exchange).collect()
}

impl Faulty {
    /// Whether the fault is one of the text that this call gives.
    fn is_in_text(&self, leaf: Leaf, data: &[u8]) -> bool {
        match self.0 {
            Fault::WrongByte => data.len() >= 5,
            Fault::MoreReplacements | Fault::FewerReplacements => {
                leaf == Leaf::character(1208) || leaf == Leaf::graphic(1200)
            }
            Fault::MinusZero => matches!(leaf, Leaf::Decimal { .. }),
            Fault::PrecisionUsed => matches!(leaf, Leaf::Decimal { precision: 0, .. }),
            Fault::Own500 => leaf == Leaf::character(500),
            Fault::No13488 => leaf == Leaf::graphic(13488),
            Fault::LowerRowId => leaf == Leaf::RowId,
            Fault::LocatorBeginning => leaf == Leaf::Locator,
            Fault::LastCut => leaf == Leaf::character(37) && data.len() > 64,
            Fault::HighUnseen => leaf == Leaf::character(0),
            Fault::Block(_) => leaf == Leaf::character(1208),
            _ => false,
        }
    }

    /// The wrong text, where the bytes are accepted and the fault is one of the text.
    fn wrong_text(&self, leaf: Leaf, data: &[u8]) -> Option<Vec<u8>> {
        if !self.is_in_text(leaf, data) {
            return None;
        }
        let mut text = whole(leaf, data)?;
        match self.0 {
            Fault::WrongByte => *text.last_mut()? ^= 1,
            Fault::MoreReplacements if replacements(&text) > 0 => {
                text.extend_from_slice(REPLACEMENT)
            }
            Fault::FewerReplacements => text = merged(&text),
            Fault::MinusZero if text == b"-0" => text = b"0".to_vec(),
            Fault::PrecisionUsed => text = b"0".to_vec(),
            Fault::Own500 => text = whole(leaf, &exchanged(data, 0x4A, 0xBA))?,
            Fault::No13488 => text = whole(Leaf::character(13488), data)?,
            Fault::LowerRowId => text.make_ascii_lowercase(),
            Fault::LocatorBeginning => text[4] = b'L',
            Fault::LastCut if text.last().is_some_and(|byte| !byte.is_ascii()) => drop(text.pop()),
            Fault::HighUnseen if high_at_ends(data) => text = data.to_vec(),
            Fault::Block(dropped) => text = Utf8(Some(dropped)).text(data),
            _ => {}
        }
        Some(text)
    }

    /// The wrong outcome, where the fault is one of a limit.
    fn wrong_limit(&self, leaf: Leaf, data: &[u8], text: &mut [u8]) -> Option<Outcome> {
        let refuse = |number| {
            Some(Outcome {
                number,
                text_length: 0,
                replaced: 0,
            })
        };
        let decimal = matches!(leaf, Leaf::Decimal { .. });
        match self.0 {
            Fault::LimitEarly if !decimal && data.len() == TEXT_LIMIT => refuse(4),
            Fault::LimitLate if !decimal && data.len() == TEXT_LIMIT + 1 => {
                Some(Archive.write(leaf, &data[1..], text))
            }
            Fault::DecimalLimitEarly if decimal && data.len() == 128 => refuse(7),
            Fault::EmptyDecimal if decimal && data.is_empty() => refuse(7),
            _ => None,
        }
    }

    /// The outcome with another length, where the fault is one of measuring. A buffer where any text fits is written without that.
    fn wrong_length(&self, leaf: Leaf, data: &[u8], text: &mut [u8]) -> Option<Outcome> {
        let Fault::Units(miscount) = self.0 else {
            return None;
        };
        let units = leaf == Leaf::graphic(1200) && data.len().is_multiple_of(2);
        if !units || text.len() >= ample(data.len()) {
            return None;
        }
        let mut other = whole(leaf, data)?;
        other.resize(Utf16(Some(miscount)).length(data), 0);
        Some(deliver(&other, Reading::Utf16.replaced(data), text))
    }

    /// How many characters were replaced, by the archive's outcome with the fault put into it, where the fault is one of that number.
    fn wrong_count(&self, outcome: Outcome, leaf: Leaf, data: &[u8], text: &[u8]) -> usize {
        let reading = Reading::of_leaf(leaf, data);
        match (self.0, outcome.number) {
            (Fault::HostsOwnCounted, 0) => replacements(&text[..outcome.text_length]),
            (Fault::BytesCounted, 0) => reading.malformed(data).sum(),
            (Fault::OneForText, 0) => outcome.replaced.min(1),
            (Fault::UnpairedUncounted, 0) if reading == Reading::Utf16 => 0,
            (Fault::UncountedInLarge, 0) if text.len() >= ample(data.len()) => 0,
            (Fault::NineWithCount, 9) => reading.replaced(data),
            (Fault::LimitWithCount, 4) => 1,
            _ => outcome.replaced,
        }
    }

    /// The archive's outcome with the fault put into it, where the fault is one of numbers or of other bytes.
    fn wrong_outcome(&self, mut outcome: Outcome, data: &[u8], text: &mut [u8]) -> Outcome {
        let length = outcome.text_length;
        match (self.0, outcome.number) {
            (Fault::LengthShort, 0) if length > 0 => outcome.text_length -= 1,
            (Fault::LengthLong, 0) => outcome.text_length += 1,
            (Fault::AfterText, 0) if text.len() > length.max(ample(data.len())) => {
                text[length] ^= 0x55
            }
            (Fault::ChangedOnRefusal, 9) if !text.is_empty() => text[0] ^= 0x55,
            (Fault::NeededLong, 9) => outcome.text_length += 1,
            (Fault::RefusedAtFit, 0) if length > 0 && length == text.len() => outcome.number = 9,
            _ => {}
        }
        outcome
    }
}

impl Library for Faulty {
    fn write(&self, leaf: Leaf, data: &[u8], text: &mut [u8]) -> Outcome {
        if let Fault::Release(mistake) = self.0 {
            return mistake.write(leaf, data, text);
        }
        if let Some(outcome) = self.wrong_limit(leaf, data, text) {
            return outcome;
        }
        if let Some(outcome) = self.wrong_length(leaf, data, text) {
            return outcome;
        }
        if let Some(other) = self.wrong_text(leaf, data) {
            let replaced = Reading::of_leaf(leaf, data).replaced(data);
            return deliver(&other, replaced, text);
        }
        let mut outcome = Archive.write(leaf, data, text);
        outcome.replaced = self.wrong_count(outcome, leaf, data, text);
        self.wrong_outcome(outcome, data, text)
    }

    fn likely(&self, data: &[u8]) -> u32 {
        match self.0 {
            Fault::DeleteShown => Archive.likely(&exchanged(data, 0x7F, 0x41)),
            Fault::ControlsShown => {
                let text = String::from_utf8_lossy(data).replace('\u{85}', "A");
                Archive.likely(if std::str::from_utf8(data).is_ok() {
                    text.as_bytes()
                } else {
                    data
                })
            }
            Fault::Shown(unseen) => u32::from(Likely(Some(unseen)).is(data)),
            _ => Archive.likely(data),
        }
    }

    fn packed_whole(&self, data: &[u8], scale: u8) -> PackedWhole {
        match self.0 {
            Fault::Misread(misread) => Model(Some(misread)).answer(data, scale),
            _ => Archive.packed_whole(data, scale),
        }
    }
}

#[cfg(test)]
mod tests {
    use super::*;
    use crate::blocks::inputs;
    use crate::compare::{Run, Stage};
    use crate::releases::{BY_037, PORTED};
    use crate::run::{Difference, Until};
    use std::ops::ControlFlow::Continue;

    /// The first stage that can notice a fault: those before it would cost time.
    fn stage(fault: Fault) -> Stage {
        match fault {
            Fault::LimitEarly | Fault::LimitLate | Fault::LimitWithCount => Stage::Lengths,
            Fault::WrongByte => Stage::Places,
            Fault::DecimalLimitEarly | Fault::PrecisionUsed => Stage::Any,
            Fault::Block(_) | Fault::Shown(_) => Stage::Utf8Blocks,
            Fault::Units(_) => Stage::Utf16Blocks,
            Fault::LastCut | Fault::HighUnseen => Stage::ByteBlocks,
            Fault::Release(mistake) if mistake.is_of_number() => Stage::Unknown,
            _ => Stage::Short,
        }
    }

    /// The release of the run that can notice a fault.
    fn release(fault: Fault) -> u32 {
        match fault {
            Fault::Release(Mistake::Always3) => PORTED,
            Fault::Release(_) => BY_037,
            _ => PORTED,
        }
    }

    fn found(fault: Fault) -> Difference {
        let until = Until::Cases(10_000_000);
        let mut run = Run::new(Faulty(fault), 1, until, release(fault));
        let difference = run.from(stage(fault)).difference();
        difference.unwrap_or_else(|| panic!("{fault:?} was not noticed"))
    }

    /// How the line with the smallest input that shows a fault begins, and the port's answer, where it is short.
    fn smallest(fault: Fault) -> &'static str {
        match fault {
            Fault::WrongByte => "T 1208 0000000000 A 0000000001",
            Fault::LengthShort => "T 1208 00 A BAD9",
            Fault::LengthLong => "T 1208 - A BAD9",
            Fault::AfterText => "T 1208 - A BADREST",
            Fault::MoreReplacements => "T 1208 80 A EFBFBDEFBFBD",
            Fault::FewerReplacements => "T 1208 8080 A EFBFBD",
            Fault::ChangedOnRefusal => "T 1208 80 A BAD9",
            Fault::NeededLong => "T 1208 00 A BAD9",
            Fault::RefusedAtFit => "T 1208 00 A BAD9",
            Fault::LimitEarly | Fault::LimitLate | Fault::LimitWithCount => "T 1208 000000",
            Fault::HostsOwnCounted => "g 2 1200 FFFD A EFBFBD 1",
            Fault::BytesCounted => "t 2 1208 E0A0 A EFBFBD 2",
            Fault::OneForText => "t 2 1208 8080 A EFBFBDEFBFBD 1",
            Fault::UnpairedUncounted => "g 2 1200 D800 A EFBFBD 0",
            Fault::UncountedInLarge | Fault::NineWithCount => "T 1208 80 A BAD9",
            Fault::DecimalLimitEarly => "P ",
            Fault::EmptyDecimal => "P 0 - A REFUSE7",
            Fault::MinusZero => "P 0 0D A 30",
            Fault::PrecisionUsed => "decode_packed_decimal(00, 0, ",
            Fault::Own500 => "T 500 4A A 5B",
            Fault::No13488 => "G 13488 0000 A 0000",
            Fault::DeleteShown => "L 7F A 1",
            Fault::ControlsShown => "L C285 A 1",
            Fault::LowerRowId => "format_rowid(0A) A 30783061",
            Fault::LocatorBeginning => "format_lob_locator(-) A 4C4F42204C",
            Fault::LastCut => "T 37 000000",
            Fault::HighUnseen => "T 0 000000",
            Fault::Block(_) => "T 1208 ",
            Fault::Units(_) => "G 1200 0000",
            Fault::Shown(_) => "L ",
            Fault::Misread(_) => "w ",
            Fault::Release(mistake) => match mistake {
                Mistake::Ignored | Mistake::CharactersGuessed => "t 3 1200 04 A 04 0",
                Mistake::Always3 => "T 1200 04 A C29C",
                Mistake::OddGuessed | Mistake::GraphicGuessed => "g 3 1200 04 A 04 0",
                Mistake::EvenBy037 => "g 3 1200 0000 A 0000 0",
                Mistake::OnlyZero | Mistake::OneByteGuessed => "t 3 1200 04 A 04 0",
                Mistake::Latin1By037 => "t 3 819 04 A C29C 0",
                Mistake::AfterLimit => "t 0 1208 000000",
                Mistake::AfterNine => "t 0 1208 00 A BAD9",
                Mistake::EmptyTaken => "t 0 1208 - A - 0",
                Mistake::CutTo8 => "t 258 1208 - A - 0",
                Mistake::CutTo16 => "t 65538 1208 - A - 0",
                Mistake::CutTo31 => "t 2147483650 1208 - A - 0",
                Mistake::LargerTaken => "t 4 1208 - A - 0",
                Mistake::SmallerTaken => "t 0 1208 - A - 0",
                Mistake::WithLength => "t 0 1208 00 A BAD9",
                Mistake::WithCount => "t 0 1208 - A BAD9",
                Mistake::Changed => "t 0 1208 - A BADREST",
            },
        }
    }

    /// What a long input that shows a fault must hold: the bytes that a condition is about, and what is left of the others.
    fn part(fault: Fault) -> &'static str {
        match fault {
            Fault::LastCut => "000004 A 000000",
            Fault::HighUnseen => "000080 A 000000",
            Fault::Block(dropped) => match dropped {
                Dropped::Place | Dropped::First => " 800000",
                Dropped::AfterFirst | Dropped::Second => " C20000",
                Dropped::AfterSecond | Dropped::Third => " E18000",
                Dropped::AfterThird | Dropped::Edge => " F0908000",
                Dropped::From0xC0 => " C08000",
                Dropped::From0xF5 => " F5808080",
                Dropped::After0xE0 => " E08080",
                Dropped::After0xED => " EDA080",
                Dropped::After0xF0 => " F0808080",
                Dropped::After0xF4 => " F4908080",
                Dropped::Again => " 80800000",
                Dropped::EndAfterFirst => "00C20000",
                Dropped::EndAfterSecond => "E0A00000",
                Dropped::EndAfterThird => "00F0908000",
            },
            Fault::Units(miscount) => match miscount {
                Miscount::PairOfSix | Miscount::PairAcross => "0000D800DC000000",
                Miscount::FirstTwice | Miscount::LastLeftOut | Miscount::OddPlaces => "00000000",
                Miscount::From0x80 => "000000800000",
                Miscount::From0x800 => "000008000000",
                Miscount::From0xDB00 => "0000DB00DC000000",
                Miscount::From0xDF00 => "0000D800DF000000",
            },
            Fault::Shown(unseen) => match unseen {
                Unseen::Malformed => "090980 A 1",
                Unseen::Below0x20 => "000000 A 1",
                Unseen::Delete => "7F0909",
                Unseen::From0x80 => "C2800909",
                Unseen::Across => "0909C280 A 1",
                Unseen::Tab => "090909 A 0",
                Unseen::LineFeed => "0A0909",
                Unseen::Return => "0D0909",
            },
            _ => "",
        }
    }

    /// How long the smallest input is, where it is long.
    fn length(fault: Fault) -> Option<usize> {
        match fault {
            Fault::LimitEarly => Some(TEXT_LIMIT),
            Fault::LimitLate | Fault::LimitWithCount => Some(TEXT_LIMIT + 1),
            Fault::Release(Mistake::AfterLimit) => Some(TEXT_LIMIT + 1),
            Fault::DecimalLimitEarly => Some(128),
            Fault::HighUnseen => Some(1024),
            Fault::Block(Dropped::Again) => Some(66),
            Fault::Units(_) => Some(256),
            Fault::Shown(Unseen::Across) => Some(129),
            Fault::LastCut | Fault::Block(_) | Fault::Shown(_) => Some(65),
            _ => None,
        }
    }

    /// With every condition the models answer as the archive does: what a fault shows is the condition that it lacks.
    #[test]
    fn without_a_fault_the_models_are_right() {
        let mut right = |leaf: Leaf, data: &[u8]| {
            let text = || whole(leaf, data).expect("no text is too long");
            match leaf {
                Leaf::Character { ccsid: 1208, .. } => assert_eq!(Utf8(None).text(data), text()),
                Leaf::Graphic { .. } if data.len().is_multiple_of(2) => {
                    assert_eq!(Utf16(None).length(data), text().len());
                }
                Leaf::Likely => assert_eq!(u32::from(Likely(None).is(data)), Archive.likely(data)),
                _ => {}
            }
            Continue(())
        };
        assert!(inputs::utf8(&mut right).is_continue());
        assert!(inputs::utf16(&mut right).is_continue());
    }

    /// Of texts: those of whole numbers have a list of their own.
    #[test]
    fn every_fault_is_noticed_and_its_input_made_small() {
        for fault in of_texts() {
            let Difference { port, lengths, .. } = found(fault);
            let shown = &port[..port.len().min(300)];
            assert!(port.starts_with(smallest(fault)), "{fault:?}: {shown}");
            assert!(port.contains(part(fault)), "{fault:?}: {shown}");
            let Some(length) = length(fault) else {
                continue;
            };
            assert_eq!(lengths.map(|(now, _)| now), Some(length), "{fault:?}");
            if part(fault).is_empty() {
                assert!(port.contains(&"00".repeat(length)), "{fault:?}");
            }
        }
    }
}
