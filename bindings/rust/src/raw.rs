//! The calls of the static library as they are, on lent slices and numbers: no allocation, no conversion of words. Each has its
//! description in `include/vejupa.h`, with the layout of columns' and values' words. The functions at the crate's top are made of these.

use std::slice;

mod foreign {
    /// A slice as the library hands it out.
    #[repr(C)]
    pub struct Bytes {
        pub start: *const u8,
        pub length: usize,
    }

    unsafe extern "C" {
        pub fn vejupa_version_0_6_0() -> u32;
        pub fn vejupa_raw_parse_qrydsc(
            data: *const u8,
            data_len: usize,
            column_words: *mut u64,
            column_words_len: usize,
            count: *mut usize,
            broken_off: *mut u32,
        ) -> u32;
        pub fn vejupa_raw_parse_whole_qrydsc(
            data: *const u8,
            data_len: usize,
            column_words: *mut u64,
            column_words_len: usize,
            count: *mut usize,
        ) -> u32;
        pub fn vejupa_raw_decode_row(
            column_words: *const u64,
            column_words_len: usize,
            data: *const u8,
            data_len: usize,
            release: u32,
            value_words: *mut u64,
            value_words_len: usize,
            text: *mut u8,
            text_len: usize,
            used: *mut usize,
            text_length: *mut usize,
            replaced: *mut usize,
            expected: *mut usize,
            actual: *mut usize,
        ) -> u32;
        pub fn vejupa_raw_value_bytes(
            value_words: *const u64,
            value_words_len: usize,
            data: *const u8,
            data_len: usize,
            text: *const u8,
            text_len: usize,
            bytes: *mut Bytes,
        );
        pub fn vejupa_raw_fixed_length(type_word: u64, fixed: *mut u32, length: *mut usize) -> u32;
        pub fn vejupa_raw_decode_character_bytes(
            data: *const u8,
            data_len: usize,
            ccsid: u16,
            release: u32,
            text: *mut u8,
            text_len: usize,
            text_length: *mut usize,
            replaced: *mut usize,
        ) -> u32;
        pub fn vejupa_raw_decode_graphic_bytes(
            data: *const u8,
            data_len: usize,
            ccsid: u16,
            release: u32,
            text: *mut u8,
            text_len: usize,
            text_length: *mut usize,
            replaced: *mut usize,
        ) -> u32;
        pub fn vejupa_raw_format_lob_locator(
            bytes: *const u8,
            bytes_len: usize,
            text: *mut u8,
            text_len: usize,
            text_length: *mut usize,
        ) -> u32;
        pub fn vejupa_raw_format_rowid(
            bytes: *const u8,
            bytes_len: usize,
            text: *mut u8,
            text_len: usize,
            text_length: *mut usize,
        ) -> u32;
        pub fn vejupa_raw_decode_packed_decimal(
            data: *const u8,
            data_len: usize,
            precision: u8,
            scale: u8,
            text: *mut u8,
            text_len: usize,
            text_length: *mut usize,
        ) -> u32;
        pub fn vejupa_raw_decode_packed_whole(
            data: *const u8,
            data_len: usize,
            scale: u8,
            whole: *mut i64,
            whole_scale: *mut u8,
        ) -> u32;
        pub fn vejupa_raw_bytes_are_likely_text(bytes: *const u8, bytes_len: usize) -> u32;
    }
}

// The symbol has the version's name: a program does not link with an archive of another one.
#[used]
static OF_THIS_VERSION: unsafe extern "C" fn() -> u32 = foreign::vejupa_version_0_6_0;

/// What every call answers where it accepts.
pub const ACCEPTED: u32 = 0;

/// The row ends before a value does: refusal 8.
pub const BUFFER_TOO_SHORT: u32 = 8;

/// A lent text buffer is too short: refusal 9.
pub const TEXT_BUFFER_TOO_SHORT: u32 = 9;

/// Too few words were lent.
pub const TOO_FEW_WORDS: u32 = 101;

/// Words are no column's, or a word is no type's.
pub const NO_COLUMN: u32 = 102;

/// The words of a column.
pub const COLUMN_WORDS: usize = 2;

/// The words of a value.
pub const VALUE_WORDS: usize = 3;

/// What the row call answers.
#[derive(Debug, Clone, Copy, PartialEq, Eq)]
pub struct RowAnswer {
    /// [`ACCEPTED`], a refusal's number, [`TOO_FEW_WORDS`] or [`NO_COLUMN`].
    pub number: u32,
    /// Accepted: the bytes used. Else 0.
    pub used: usize,
    /// Accepted: the bytes of text written. [`TEXT_BUFFER_TOO_SHORT`]: the length needed. Else 0.
    pub text_length: usize,
    /// Accepted: the U+FFFD in the texts that stand for what was malformed, without those that the host itself sent. Else 0.
    pub replaced: usize,
    /// [`BUFFER_TOO_SHORT`]: the bytes expected. Else 0.
    pub expected: usize,
    /// [`BUFFER_TOO_SHORT`]: the bytes there are. Else 0.
    pub actual: usize,
}

/// What a call answers that writes a text.
#[derive(Debug, Clone, Copy, PartialEq, Eq)]
pub struct TextAnswer {
    /// [`ACCEPTED`], or a refusal's number.
    pub number: u32,
    /// Accepted: the bytes written. [`TEXT_BUFFER_TOO_SHORT`]: the length needed. Else 0.
    pub text_length: usize,
    /// Accepted: the U+FFFD in the text that stand for what was malformed, without those that the host itself sent. Else 0, and 0 of a
    /// locator, a row id and a decimal.
    pub replaced: usize,
}

/// What `decode_packed_whole` answers.
#[derive(Debug, Clone, Copy, PartialEq, Eq)]
pub struct PackedWholeAnswer {
    /// [`ACCEPTED`], or a refusal's number.
    pub number: u32,
    /// Accepted: the number. Else 0.
    pub whole: i64,
    /// Accepted: the scale that was handed in. Else 0.
    pub scale: u8,
}

/// What `parse_qrydsc` answers beside the words.
#[derive(Debug, Clone, Copy, PartialEq, Eq)]
pub struct DescriptionAnswer {
    /// [`ACCEPTED`], a refusal's number or [`TOO_FEW_WORDS`].
    pub number: u32,
    /// Accepted and [`TOO_FEW_WORDS`]: the number of columns. Else 0.
    pub count: usize,
    /// Accepted: 1 where the description breaks off, else 0. With any other number 0.
    pub broken_off: u32,
}

/// What `parse_whole_qrydsc` answers beside the words.
#[derive(Debug, Clone, Copy, PartialEq, Eq)]
pub struct WholeDescriptionAnswer {
    /// [`ACCEPTED`], a refusal's number or [`TOO_FEW_WORDS`].
    pub number: u32,
    /// Accepted and [`TOO_FEW_WORDS`]: the number of columns. Else 0.
    pub count: usize,
}

/// What `fixed_length` answers.
#[derive(Debug, Clone, Copy, PartialEq, Eq)]
pub struct LengthAnswer {
    /// [`ACCEPTED`] or [`NO_COLUMN`].
    pub number: u32,
    /// 1 where the type has a fixed length, else 0.
    pub fixed: u32,
    /// That length in bytes, else 0.
    pub length: usize,
}

// What no call leaves in a number that it is to write, so that one that is not written does not look like 0.
const UNWRITTEN: usize = usize::MAX;

// SAFETY, for all calls below: a slice's pointer is never null and is aligned, also where the slice is empty; all slices and numbers are
// borrowed for the whole call, those that are written apart from all others. The library reads and writes inside of them only, and ends:
// that is proved of it.

/// The archive's version: 10,000 for each major one, 100 for each minor one, 1 for each patch.
pub fn version() -> u32 {
    unsafe { foreign::vejupa_version_0_6_0() }
}

/// Two words a column into `column_words`, for as many columns as are described.
pub fn parse_qrydsc(data: &[u8], column_words: &mut [u64]) -> DescriptionAnswer {
    let mut count = UNWRITTEN;
    let mut broken_off = u32::MAX;
    let number = unsafe {
        foreign::vejupa_raw_parse_qrydsc(
            data.as_ptr(),
            data.len(),
            column_words.as_mut_ptr(),
            column_words.len(),
            &mut count,
            &mut broken_off,
        )
    };
    DescriptionAnswer {
        number,
        count,
        broken_off,
    }
}

/// The same, of a description that does not break off; one that does is refused by 15.
pub fn parse_whole_qrydsc(data: &[u8], column_words: &mut [u64]) -> WholeDescriptionAnswer {
    let mut count = UNWRITTEN;
    let number = unsafe {
        foreign::vejupa_raw_parse_whole_qrydsc(
            data.as_ptr(),
            data.len(),
            column_words.as_mut_ptr(),
            column_words.len(),
            &mut count,
        )
    };
    WholeDescriptionAnswer { number, count }
}

/// Three words a value into `value_words`, and the texts into `text`.
pub fn decode_row(
    column_words: &[u64],
    data: &[u8],
    release: u32,
    value_words: &mut [u64],
    text: &mut [u8],
) -> RowAnswer {
    let mut answer = RowAnswer {
        number: u32::MAX,
        used: UNWRITTEN,
        text_length: UNWRITTEN,
        replaced: UNWRITTEN,
        expected: UNWRITTEN,
        actual: UNWRITTEN,
    };
    answer.number = unsafe {
        foreign::vejupa_raw_decode_row(
            column_words.as_ptr(),
            column_words.len(),
            data.as_ptr(),
            data.len(),
            release,
            value_words.as_mut_ptr(),
            value_words.len(),
            text.as_mut_ptr(),
            text.len(),
            &mut answer.used,
            &mut answer.text_length,
            &mut answer.replaced,
            &mut answer.expected,
            &mut answer.actual,
        )
    };
    answer
}

/// The bytes of the value of these three words, in the row or in the texts; empty where it has none, where its place does not fit, and
/// where there are fewer words.
pub fn value_bytes<'a>(value_words: &[u64], data: &'a [u8], text: &'a [u8]) -> &'a [u8] {
    let mut bytes = foreign::Bytes {
        start: data.as_ptr(),
        length: 0,
    };
    // SAFETY, beside what stands above: what is handed out is a part of `data` or of `text`.
    unsafe {
        foreign::vejupa_raw_value_bytes(
            value_words.as_ptr(),
            value_words.len(),
            data.as_ptr(),
            data.len(),
            text.as_ptr(),
            text.len(),
            &mut bytes,
        );
        slice::from_raw_parts(bytes.start, bytes.length)
    }
}

/// By a type word: the low 24 bits of a column's first word.
pub fn fixed_length(type_word: u64) -> LengthAnswer {
    let mut fixed = u32::MAX;
    let mut length = UNWRITTEN;
    let number = unsafe { foreign::vejupa_raw_fixed_length(type_word, &mut fixed, &mut length) };
    LengthAnswer {
        number,
        fixed,
        length,
    }
}

// Lets a call write its text's length. Nothing is malformed in what it reads.
#[inline]
fn text_answer(call: impl FnOnce(*mut usize) -> u32) -> TextAnswer {
    let mut text_length = UNWRITTEN;
    let number = call(&mut text_length);
    TextAnswer {
        number,
        text_length,
        replaced: 0,
    }
}

// Lets a conversion by CCSID write its two numbers.
#[inline]
fn converted(call: impl FnOnce(*mut usize, *mut usize) -> u32) -> TextAnswer {
    let (mut text_length, mut replaced) = (UNWRITTEN, UNWRITTEN);
    let number = call(&mut text_length, &mut replaced);
    TextAnswer {
        number,
        text_length,
        replaced,
    }
}

/// The text of a character value.
#[inline]
pub fn decode_character_bytes(
    data: &[u8],
    ccsid: u16,
    release: u32,
    text: &mut [u8],
) -> TextAnswer {
    converted(|text_length, replaced| unsafe {
        foreign::vejupa_raw_decode_character_bytes(
            data.as_ptr(),
            data.len(),
            ccsid,
            release,
            text.as_mut_ptr(),
            text.len(),
            text_length,
            replaced,
        )
    })
}

/// The text of a graphic value.
#[inline]
pub fn decode_graphic_bytes(data: &[u8], ccsid: u16, release: u32, text: &mut [u8]) -> TextAnswer {
    converted(|text_length, replaced| unsafe {
        foreign::vejupa_raw_decode_graphic_bytes(
            data.as_ptr(),
            data.len(),
            ccsid,
            release,
            text.as_mut_ptr(),
            text.len(),
            text_length,
            replaced,
        )
    })
}

/// The text of a LOB locator.
pub fn format_lob_locator(bytes: &[u8], text: &mut [u8]) -> TextAnswer {
    text_answer(|text_length| unsafe {
        foreign::vejupa_raw_format_lob_locator(
            bytes.as_ptr(),
            bytes.len(),
            text.as_mut_ptr(),
            text.len(),
            text_length,
        )
    })
}

/// The text of a row id.
pub fn format_rowid(bytes: &[u8], text: &mut [u8]) -> TextAnswer {
    text_answer(|text_length| unsafe {
        foreign::vejupa_raw_format_rowid(
            bytes.as_ptr(),
            bytes.len(),
            text.as_mut_ptr(),
            text.len(),
            text_length,
        )
    })
}

/// The text of a packed decimal.
pub fn decode_packed_decimal(data: &[u8], precision: u8, scale: u8, text: &mut [u8]) -> TextAnswer {
    text_answer(|text_length| unsafe {
        foreign::vejupa_raw_decode_packed_decimal(
            data.as_ptr(),
            data.len(),
            precision,
            scale,
            text.as_mut_ptr(),
            text.len(),
            text_length,
        )
    })
}

/// The whole number that a packed decimal is, and the scale that was handed in.
pub fn decode_packed_whole(data: &[u8], scale: u8) -> PackedWholeAnswer {
    let mut answer = PackedWholeAnswer {
        number: u32::MAX,
        whole: i64::MAX,
        scale: u8::MAX,
    };
    answer.number = unsafe {
        foreign::vejupa_raw_decode_packed_whole(
            data.as_ptr(),
            data.len(),
            scale,
            &mut answer.whole,
            &mut answer.scale,
        )
    };
    answer
}

/// 1 or 0.
pub fn bytes_are_likely_text(bytes: &[u8]) -> u32 {
    unsafe { foreign::vejupa_raw_bytes_are_likely_text(bytes.as_ptr(), bytes.len()) }
}
