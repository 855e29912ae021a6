//! The conversions of single texts and numbers, and what they answer.
use crate::releases::PORTED;
use std::borrow::Cow;

/// Bytes that a conversion called alone accepts (refusal 4 above it).
pub const TEXT_LIMIT: usize = 1_048_576;

/// Bytes that a packed decimal called alone accepts (refusal 7 above it).
pub const DECIMAL_LIMIT: usize = 128;

/// The precision that a `P` line passes. It takes no part in the text.
pub const PRECISION: u8 = 31;

/// A call, without its bytes. The two that convert by CCSID state the host's release. PackedWhole reads a packed decimal as a whole number.
#[derive(Debug, Clone, Copy, PartialEq, Eq)]
pub enum Leaf {
    Character { ccsid: u16, release: u32 },
    Graphic { ccsid: u16, release: u32 },
    Likely,
    Decimal { precision: u8, scale: u8 },
    PackedWhole { scale: u8 },
    Locator,
    RowId,
}

/// The kinds of call, in the order in which counts are printed.
pub const KINDS: [&str; 7] = [
    "decode_character_bytes",
    "decode_graphic_bytes",
    "bytes_are_likely_text",
    "decode_packed_decimal",
    "decode_packed_whole",
    "format_lob_locator",
    "format_rowid",
];

impl Leaf {
    /// The call's place in KINDS.
    pub fn kind(self) -> usize {
        match self {
            Leaf::Character { .. } => 0,
            Leaf::Graphic { .. } => 1,
            Leaf::Likely => 2,
            Leaf::Decimal { .. } => 3,
            Leaf::PackedWhole { .. } => 4,
            Leaf::Locator => 5,
            Leaf::RowId => 6,
        }
    }

    /// Characters at the release at which the port answers as the Rust does.
    pub const fn character(ccsid: u16) -> Leaf {
        Leaf::Character {
            ccsid,
            release: PORTED,
        }
    }

    /// The same of a graphic value.
    pub const fn graphic(ccsid: u16) -> Leaf {
        Leaf::Graphic {
            ccsid,
            release: PORTED,
        }
    }

    /// The same call at another release, where it states one.
    pub fn at(self, release: u32) -> Leaf {
        match self {
            Leaf::Character { ccsid, .. } => Leaf::Character { ccsid, release },
            Leaf::Graphic { ccsid, .. } => Leaf::Graphic { ccsid, release },
            _ => self,
        }
    }

    /// The release that the call states, if it does.
    pub fn release(self) -> Option<u32> {
        match self {
            Leaf::Character { release, .. } | Leaf::Graphic { release, .. } => Some(release),
            _ => None,
        }
    }

    /// A packed decimal with the precision that a `P` line passes.
    pub fn decimal(scale: u8) -> Leaf {
        Leaf::Decimal {
            precision: PRECISION,
            scale,
        }
    }
}

/// What a side answers. The last three only the port's side gives: what a line does not show was not as it must be.
#[derive(Debug, Clone, PartialEq, Eq)]
pub enum Answer<'a> {
    /// A text, by its UTF-8, and how many U+FFFD were put in.
    Text {
        text: Cow<'a, [u8]>,
        replaced: usize,
    },
    Truth(bool),
    /// A whole number and the scale beside it.
    Whole {
        number: i64,
        scale: u8,
    },
    /// A refusal by its number.
    Refusal(u32),
    /// A number is wrong: refusal 9 does not come exactly where the buffer is too short, or with another length, a refusal comes with characters
    /// replaced, or a larger buffer with another number of them.
    Bad9,
    /// A byte has changed that must keep what it had, or a larger buffer gets another text.
    BadRest,
    /// A refusal comes with a whole number or a scale.
    BadBlank,
}

impl Answer<'_> {
    /// The refusal's number, or 0.
    pub fn number(&self) -> u32 {
        match self {
            Answer::Refusal(number) => *number,
            _ => 0,
        }
    }
}
