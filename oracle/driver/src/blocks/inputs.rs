//! Texts around the edges of blocks. Where these lie is the port's own matter: blocks have 32 to 1,024 bytes, and may begin with the text, behind its leading
//! ASCII, or three bytes later. So each thing stands at every place of the first blocks, and around every multiple of 32 in those after them.
use crate::inputs::Case;
use crate::leaf::Leaf;
use crate::releases::PORTED;
use crate::run::Flow;
use std::ops::ControlFlow::Continue;

const UTF8: Leaf = Leaf::character(1208);

/// Malformed UTF-8: a trail byte alone, bytes that no sequence has, sequences that are cut, too long, surrogates, too large, and with a byte too many.
const MALFORMED: [&[u8]; 25] = [
    b"\x80",
    b"\xBF",
    b"\xC0\x80",
    b"\xC1\xBF",
    b"\xF5\x80\x80\x80",
    b"\xFF",
    b"\xC2",
    b"\xDF",
    b"\xE0",
    b"\xE2\x82",
    b"\xED",
    b"\xF0\x9F",
    b"\xF0\x9F\xA7",
    b"\xF4",
    b"\xE0\x80\x80",
    b"\xE0\x9F\xBF",
    b"\xED\xA0\x80",
    b"\xED\xBF\xBF",
    b"\xF0\x80\x80\x80",
    b"\xF0\x8F\xBF\xBF",
    b"\xF4\x90\x80\x80",
    b"\xF4\xBF\xBF\xBF",
    b"\xC3\xA9\x80",
    b"\xE2\x82\xAC\x80",
    b"\xF0\x9F\xA7\xB6\x80",
];

/// Well-formed UTF-8: the first and last of each range, characters that a likely text may not hold, or only just, and U+FFFD, which is not counted as replaced.
const WELL_FORMED: [&[u8]; 20] = [
    b"\x00",
    b"\x09",
    b"\x0A",
    b"\x0D",
    b"\x1F",
    b"\x7F",
    b"\xC2\x80",
    b"\xC2\x85",
    b"\xC2\x9F",
    b"\xC2\xA0",
    b"\xC3\x85",
    b"\xDF\xBF",
    b"\xE0\xA0\x80",
    b"\xE2\x82\xAC",
    b"\xED\x9F\xBF",
    b"\xEF\xBF\xBD",
    b"\xEF\xBF\xBF",
    b"\xF0\x90\x80\x80",
    b"\xF0\x9F\xA7\xB6",
    b"\xF4\x8F\xBF\xBF",
];

/// UTF-16: surrogates, paired and not, and the first and last units of each length.
const UNITS: [&[u16]; 20] = [
    &[0xD800],
    &[0xDBFF],
    &[0xDC00],
    &[0xDFFF],
    &[0xD800, 0xDC00],
    &[0xDBFF, 0xDFFF],
    &[0xDC00, 0xD800],
    &[0xD800, 0xD800, 0xDC00],
    &[0xD800, 0xDC00, 0xDC00],
    &[0x0000],
    &[0x007F],
    &[0x0080],
    &[0x00FF],
    &[0x0100],
    &[0x07FF],
    &[0x0800],
    &[0xD7FF],
    &[0xE000],
    &[0xFFFD],
    &[0xFFFF],
];

/// Every place of the first blocks, and those around the edges of the ones after them.
fn places() -> impl Iterator<Item = usize> {
    let edges = (192..=1056).step_by(32).chain([1920, 2016, 2048]);
    (0..=170).chain(edges.flat_map(near))
}

/// Lengths of texts: every short one, and those around any sum of blocks.
fn lengths() -> impl Iterator<Item = usize> {
    (0..=170).chain((192..=2112).step_by(32).flat_map(near))
}

/// The numbers around an edge, or around three more, so that a sequence may end before it, lie across it or begin behind it.
fn near(edge: usize) -> impl Iterator<Item = usize> {
    edge - 4..=edge + 5
}

/// What fills a text: one character over and over, behind a first one. A text without leading ASCII has its blocks from its first byte on.
#[derive(Clone, Copy)]
struct Filling<'a> {
    first: &'a [u8],
    character: &'a [u8],
    /// One that fills what the character leaves.
    letter: &'a [u8],
}

impl Filling<'_> {
    /// So many bytes of whole characters, at the beginning of a text.
    fn begin(self, length: usize, text: &mut Vec<u8>) {
        let mut left = length;
        if self.first.len() <= left {
            text.extend(self.first);
            left -= self.first.len();
        }
        let more = left % self.character.len();
        text.extend(self.letter.repeat(more / self.letter.len()));
        text.extend(self.character.repeat(left / self.character.len()));
    }

    /// So many bytes of whole characters, further on.
    fn go_on(self, length: usize, text: &mut Vec<u8>) {
        let more = length % self.character.len();
        text.extend(self.character.repeat(length / self.character.len()));
        text.extend(self.letter.repeat(more / self.letter.len()));
    }

    /// A part with so many bytes before and after it.
    fn around(self, before: usize, part: &[u8], after: usize) -> Vec<u8> {
        let mut text = Vec::new();
        self.begin(before, &mut text);
        text.extend(part);
        self.go_on(after, &mut text);
        text
    }
}

const fn behind(first: &'static str, character: &'static str) -> Filling<'static> {
    Filling {
        first: first.as_bytes(),
        character: character.as_bytes(),
        letter: b"a",
    }
}

const LETTERS: Filling = behind("", "a");
const LATIN: Filling = behind("é", "a");
const CJK: Filling = behind("é", "高");
const FILLINGS: [Filling; 5] = [
    LETTERS,
    LATIN,
    behind("é", "é"),
    CJK,
    behind("é", "\u{1F9F6}"),
];

/// Big-endian units: of one, two and three bytes of text, a pair, and surrogates that have none.
const FILLINGS_16: [&[u8]; 6] = [
    b"\x00\x61",
    b"\x00\xE9",
    b"\x9A\xD8",
    b"\xD8\x3E\xDD\xF6",
    b"\xD8\x00",
    b"\xDC\x00",
];

/// UTF-8, as text and as likely text.
pub fn utf8(case: Case) -> Flow {
    cut_texts(case)?;
    parts(case)?;
    parts_behind_ascii(case)?;
    two_parts(case)
}

/// Texts of every length around the edges, of well-formed UTF-8 that may be cut at its end.
fn cut_texts(case: Case) -> Flow {
    for filling in FILLINGS {
        let width = filling.character.len();
        for length in lengths() {
            for shift in 0..width {
                let mut text = Vec::new();
                filling.begin(length + width + shift, &mut text);
                text.truncate(length);
                case(UTF8, &text)?;
                case(Leaf::Likely, &text)?;
            }
        }
    }
    Continue(())
}

/// Every part at every place, at the end of a text, near it and far from it.
fn parts(case: Case) -> Flow {
    for filling in FILLINGS {
        for part in MALFORMED.into_iter().chain(WELL_FORMED) {
            for before in places() {
                for after in [0, 40, 200] {
                    let text = filling.around(before, part, after);
                    case(UTF8, &text)?;
                    case(Leaf::Likely, &text)?;
                }
            }
        }
    }
    Continue(())
}

/// Every part around the first edge behind leading ASCII, which has blocks of its own.
fn parts_behind_ascii(case: Case) -> Flow {
    for leading in [1, 8, 1023, 1024, 1025, 2061] {
        for part in MALFORMED.into_iter().chain(WELL_FORMED) {
            for before in (0..=4).chain(32 - 4..=32 + 5).chain(128 - 4..=128 + 5) {
                for after in [0, 40] {
                    let text = LATIN.around(before, part, after);
                    let text = [&vec![b'a'; leading], text.as_slice()].concat();
                    case(UTF8, &text)?;
                    case(Leaf::Likely, &text)?;
                }
            }
        }
    }
    Continue(())
}

/// A malformed part at every distance behind another: blocks may begin anew there.
fn two_parts(case: Case) -> Flow {
    let firsts: [(usize, &[u8]); 2] = [(2, b"\xFF"), (150, b"\xF0\x9F")];
    for filling in [LATIN, CJK] {
        for (before, first) in firsts {
            for second in MALFORMED {
                for distance in 0..=300 {
                    for after in [0, 40, 200] {
                        let mut text = filling.around(before, first, distance);
                        text.extend(second);
                        filling.go_on(after, &mut text);
                        case(UTF8, &text)?;
                    }
                }
            }
        }
    }
    Continue(())
}

/// UTF-16: every part at every place where a unit begins, and texts of every length.
pub fn utf16(case: Case) -> Flow {
    let leaf = Leaf::graphic(1200);
    let even = |number: &usize| number.is_multiple_of(2);
    for character in FILLINGS_16 {
        let filling = Filling {
            first: b"",
            character,
            letter: b"\x00\x61",
        };
        for part in UNITS {
            let part: Vec<u8> = part.iter().flat_map(|unit| unit.to_be_bytes()).collect();
            for before in places().filter(even) {
                for after in [0, 2, 200] {
                    case(leaf, &filling.around(before, &part, after))?;
                }
            }
        }
        for length in lengths() {
            let mut text = filling.around(0, b"", length + 4);
            text.truncate(length);
            case(leaf, &text)?;
            case(Leaf::graphic(13488), &text)?;
        }
    }
    alternating(case)
}

/// UTF-16 whose kinds of characters alternate, around the length from which on the port writes it in blocks: every part around the ends of the first blocks
/// and of the text.
fn alternating(case: Case) -> Flow {
    const LONG: usize = 16_384;
    let leaf = Leaf::graphic(1200);
    let filling = Filling {
        first: b"",
        character: b"\x00\x61\x00\xE9\x9A\xD8\xD8\x3E\xDD\xF6",
        letter: b"\x00\x61",
    };
    for part in UNITS {
        let part: Vec<u8> = part.iter().flat_map(|unit| unit.to_be_bytes()).collect();
        let firsts = (0..=8).chain(118..=138).chain(244..=266);
        for before in firsts.filter(|place: &usize| place.is_multiple_of(2)) {
            for length in [LONG - 2, LONG, LONG + 116] {
                let after = length - before - part.len();
                case(leaf, &filling.around(before, &part, after))?;
            }
        }
        for after in (0..=160).step_by(2) {
            case(leaf, &filling.around(LONG, &part, after))?;
        }
    }
    for length in LONG - 4..=LONG + 280 {
        let mut text = filling.around(0, b"", length + 10);
        text.truncate(length);
        case(leaf, &text)?;
    }
    Continue(())
}

/// A byte for a character: one byte among others at every place. In an unnamed CCSID one byte from 80 on decides for the whole text, or, by the release, none
/// does.
pub fn bytes(release: u32, case: Case) -> Flow {
    let mut leaves = [37, 819, 0].map(Leaf::character).to_vec();
    if release != PORTED {
        leaves.push(Leaf::graphic(1200));
    }
    for leaf in leaves.into_iter().map(|leaf| leaf.at(release)) {
        for other in [b"\x61", b"\xE1"] {
            let filling = Filling {
                first: b"",
                character: other,
                letter: other,
            };
            for byte in [0x43, 0x80, 0xFF] {
                for before in places() {
                    for after in [0, 40, 200] {
                        let text = filling.around(before, &[byte], after);
                        case(leaf, &text)?;
                    }
                }
            }
        }
    }
    Continue(())
}

#[cfg(test)]
mod tests {
    use super::*;

    #[test]
    fn parts_stand_where_they_are_asked_for_among_whole_characters() {
        for filling in FILLINGS {
            for before in places() {
                let text = filling.around(before, b"\xFF", 40);
                assert_eq!(text.len(), before + 41);
                assert!(std::str::from_utf8(&text[..before]).is_ok());
                assert!(std::str::from_utf8(&text[before + 1..]).is_ok());
            }
        }
    }

    #[test]
    fn malformed_parts_are_malformed_and_the_others_not() {
        for filling in FILLINGS {
            for part in MALFORMED {
                assert!(std::str::from_utf8(&filling.around(50, part, 8)).is_err());
            }
            for part in WELL_FORMED {
                assert!(std::str::from_utf8(&filling.around(50, part, 8)).is_ok());
            }
        }
    }
}
