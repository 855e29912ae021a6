//! Texts to take the time of: those of the benchmark.
use crate::leaf::Leaf;
use crate::random::Random;

const MIXED: &str = "Der Flor ist höher: 5 €, 高さ 12 mm \u{1F9F6} — ok. ";
const CJK: &str = "絨毯の高さは十二ミリです";

/// Makes a text of so many bytes, or a description of so many columns.
pub type Maker = fn(&mut Random, usize) -> Vec<u8>;

const UTF8: Leaf = Leaf::character(1208);
const LATIN1: Leaf = Leaf::character(819);
const OTHER: Leaf = Leaf::character(0);
const UTF16: Leaf = Leaf::graphic(1200);

/// Every class of texts: its name, the call, and what makes a text.
pub const CLASSES: [(&str, Leaf, Maker); 18] = [
    ("UTF-8 ASCII", UTF8, ascii),
    ("UTF-8 mixed", UTF8, utf8_mixed),
    ("UTF-8 mixed at random", UTF8, utf8_kinds),
    ("UTF-8 CJK", UTF8, utf8_cjk),
    ("UTF-8, 1 % malformed", UTF8, malformed),
    ("UTF-8, random bytes", UTF8, uniform),
    ("037", Leaf::character(37), ebcdic),
    ("819 ASCII", LATIN1, ascii),
    ("819, random bytes", LATIN1, uniform),
    ("Other CCSID, ASCII", OTHER, ascii),
    ("Other CCSID, EBCDIC", OTHER, ebcdic),
    ("UTF-16 ASCII", UTF16, utf16_ascii),
    ("UTF-16 mixed", UTF16, utf16_mixed),
    ("UTF-16 mixed at random", UTF16, utf16_kinds),
    ("UTF-16 CJK", UTF16, utf16_cjk),
    ("UTF-16, random bytes", UTF16, uniform),
    ("Likely text, ASCII", Leaf::Likely, ascii),
    ("Likely text, mixed", Leaf::Likely, utf8_mixed),
];

pub fn uniform(random: &mut Random, length: usize) -> Vec<u8> {
    (0..length).map(|_| random.byte()).collect()
}

pub fn ascii(random: &mut Random, length: usize) -> Vec<u8> {
    (0..length).map(|_| b' ' + random.byte() % 95).collect()
}

/// ASCII in which one byte of a hundred is none.
pub fn malformed(random: &mut Random, length: usize) -> Vec<u8> {
    let mut text = ascii(random, length);
    for byte in &mut text {
        if random.one_in(100) {
            *byte = 0xFF;
        }
    }
    text
}

/// Letters, spaces and digits of code page 037, with a letter outside of ASCII now and then.
pub fn ebcdic(random: &mut Random, length: usize) -> Vec<u8> {
    let byte = |random: &mut Random| match random.below(30) {
        0..=4 => 0x40,
        5..=9 => 0xF0 + random.byte() % 10,
        10..=28 => 0x81 + random.byte() % 9,
        _ => 0x43,
    };
    (0..length).map(|_| byte(random)).collect()
}

/// Digits, a zero in front, a plus behind.
pub fn packed(random: &mut Random, length: usize) -> Vec<u8> {
    let mut bytes: Vec<u8> = (0..length)
        .map(|_| (random.below(10) << 4 | random.below(10)) as u8)
        .collect();
    bytes[0] &= 0x0F;
    bytes[length - 1] = bytes[length - 1] & 0xF0 | 0x0C;
    bytes
}

/// The same with at most 18 digits, so that the number fits 64 bits, and zeros before them.
pub fn packed_number(random: &mut Random, length: usize) -> Vec<u8> {
    let mut bytes = packed(random, length);
    let zeros = length.saturating_sub(10);
    bytes[..zeros].fill(0);
    bytes[zeros] &= 0x0F;
    bytes
}

/// The same, every other one minus, in no order.
pub fn signed_number(random: &mut Random, length: usize) -> Vec<u8> {
    let mut bytes = packed_number(random, length);
    bytes[length - 1] |= random.below(2) as u8;
    bytes
}

/// Whole characters, as many as fit; spaces where the next one no longer does.
fn filled(
    characters: impl Iterator<Item = char>,
    length: usize,
    encoded: fn(char) -> Vec<u8>,
) -> Vec<u8> {
    let mut text = Vec::with_capacity(length);
    for character in characters {
        let bytes = encoded(character);
        if text.len() + bytes.len() > length {
            break;
        }
        text.extend(bytes);
    }
    while text.len() < length {
        text.extend(encoded(' '));
    }
    text
}

/// A sample over and over, from any of its places on.
fn sampled(
    random: &mut Random,
    sample: &str,
    length: usize,
    encoded: fn(char) -> Vec<u8>,
) -> Vec<u8> {
    let start = random.below(sample.chars().count());
    filled(sample.chars().cycle().skip(start), length, encoded)
}

/// ASCII, or a character that takes two, three or four bytes in UTF-8: each as often as the others.
fn any_kind(random: &mut Random) -> char {
    let (first, count) = match random.below(4) {
        0 => (0x20, 0x5F),
        1 => (0xA0, 0x760),
        2 => (0x3041, 0x6F5F),
        _ => (0x1F300, 0x300),
    };
    char::from_u32((first + random.below(count)) as u32).expect("no surrogate lies there")
}

/// Characters whose kinds follow no order that could be foreseen.
fn kinds(random: &mut Random, length: usize, encoded: fn(char) -> Vec<u8>) -> Vec<u8> {
    filled(std::iter::repeat_with(|| any_kind(random)), length, encoded)
}

fn utf8(character: char) -> Vec<u8> {
    character.encode_utf8(&mut [0; 4]).as_bytes().to_vec()
}

fn utf16(character: char) -> Vec<u8> {
    let mut units = [0; 2];
    let units = character.encode_utf16(&mut units);
    units.iter().flat_map(|unit| unit.to_be_bytes()).collect()
}

pub fn utf8_mixed(random: &mut Random, length: usize) -> Vec<u8> {
    sampled(random, MIXED, length, utf8)
}

fn utf8_kinds(random: &mut Random, length: usize) -> Vec<u8> {
    kinds(random, length, utf8)
}

pub fn utf8_cjk(random: &mut Random, length: usize) -> Vec<u8> {
    sampled(random, CJK, length, utf8)
}

fn utf16_ascii(random: &mut Random, length: usize) -> Vec<u8> {
    let text = ascii(random, length / 2);
    text.into_iter().flat_map(|byte| [0, byte]).collect()
}

pub fn utf16_mixed(random: &mut Random, length: usize) -> Vec<u8> {
    sampled(random, MIXED, length, utf16)
}

fn utf16_kinds(random: &mut Random, length: usize) -> Vec<u8> {
    kinds(random, length, utf16)
}

fn utf16_cjk(random: &mut Random, length: usize) -> Vec<u8> {
    sampled(random, CJK, length, utf16)
}

#[cfg(test)]
mod tests {
    use super::*;

    #[test]
    fn every_class_gives_the_length_that_is_asked_for() {
        let mut random = Random::new(1);
        for (name, _, maker) in CLASSES {
            for length in [4, 8, 96, 1000] {
                assert_eq!(maker(&mut random, length).len(), length, "{name}");
            }
        }
    }

    /// A quarter of the characters, give or take a tenth of it, of each kind; and a kind follows itself as often as any other.
    #[test]
    fn kinds_at_random_are_of_one_frequency() {
        let text = String::from_utf8(utf8_kinds(&mut Random::new(1), 1 << 18)).expect("UTF-8");
        let kinds: Vec<usize> = text.chars().map(char::len_utf8).collect();
        let near = |count: usize, part: usize| count.abs_diff(part) < part / 10;
        for kind in 1..=4 {
            let of_kind = kinds.iter().filter(|other| **other == kind).count();
            assert!(near(of_kind, kinds.len() / 4), "{kind}");
            let twice = kinds.windows(2).filter(|two| *two == [kind, kind]).count();
            assert!(near(twice, kinds.len() / 16), "{kind}");
        }
    }
}
