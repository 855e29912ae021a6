//! Conversions of single texts. Each comes twice: one makes a String, the other (`_into`) writes into a lent buffer. Those by CCSID also say
//! how many characters were replaced.
use crate::raw::{self, TextAnswer, ACCEPTED, TEXT_BUFFER_TOO_SHORT};
use crate::Refusal;

// More than the bytes given, for what most texts need. A text that needs still more takes a second call.
const SPARE: usize = 16;

// The precision has no part in a decimal's text.
const NO_PRECISION: u8 = 0;

// That is proved. Asked again here, it needs no `unsafe`.
const UTF8: &str = "the library's texts are UTF-8";

/// What a conversion by CCSID makes of a value's bytes.
#[derive(Debug, Clone, PartialEq, Eq, Hash)]
#[non_exhaustive]
pub struct Text {
    /// The text.
    pub text: String,
    /// How many of its characters stand for what was malformed: a U+FFFD for each malformed part of UTF-8 that is as long as can be and for
    /// each unpaired surrogate of UTF-16. A U+FFFD that the host itself sent is not counted.
    pub replaced: usize,
}

/// The same, with the text in a lent buffer.
#[derive(Debug, Clone, Copy, PartialEq, Eq, Hash)]
#[non_exhaustive]
pub struct TextRef<'t> {
    /// The text.
    pub text: &'t str,
    /// How many of its characters stand for what was malformed, as in [`Text`].
    pub replaced: usize,
}

// How long a call's text is.
fn accepted(answer: TextAnswer) -> Result<usize, Refusal> {
    match answer.number {
        ACCEPTED => Ok(answer.text_length),
        TEXT_BUFFER_TOO_SHORT => Err(Refusal::TextBufferTooShort {
            needed: answer.text_length,
        }),
        number => Err(Refusal::from_number(number)),
    }
}

// The text that a call wrote into a lent buffer.
fn written(answer: TextAnswer, text: &mut [u8]) -> Result<&str, Refusal> {
    let length = accepted(answer)?;
    Ok(std::str::from_utf8(&text[..length]).expect(UTF8))
}

// What a conversion by CCSID made, in a lent buffer.
fn converted(answer: TextAnswer, text: &mut [u8]) -> Result<TextRef<'_>, Refusal> {
    Ok(TextRef {
        text: written(answer, text)?,
        replaced: answer.replaced,
    })
}

// What a call makes, with the text in a String of its own; `room` is the first try.
fn owned(room: usize, call: impl Fn(&mut [u8]) -> TextAnswer) -> Result<Text, Refusal> {
    let mut text = vec![0; room];
    let mut answer = call(&mut text);
    if answer.number == TEXT_BUFFER_TOO_SHORT {
        text.resize(answer.text_length, 0);
        answer = call(&mut text);
    }
    text.truncate(accepted(answer)?);
    Ok(Text {
        text: String::from_utf8(text).expect(UTF8),
        replaced: answer.replaced,
    })
}

// The text alone, of a call that replaces nothing.
fn owned_text(room: usize, call: impl Fn(&mut [u8]) -> TextAnswer) -> Result<String, Refusal> {
    owned(room, call).map(|made| made.text)
}

/// The text of a character value, by its CCSID: 1208 is UTF-8, 819 ISO 8859-1, 37 and 500 code page 037. Any other goes by the
/// [host's release](crate#the-hosts-release): at 2 it is ASCII where all bytes are below 0x80, else code page 037; at 3 it is code page 037.
/// What is malformed becomes U+FFFD, and is counted.
///
/// # Errors
/// The first of [`Refusal::UnknownRelease`] and [`Refusal::InputTooLong`] that applies.
///
/// ```
/// use vejupa::decode_character_bytes;
/// assert_eq!(decode_character_bytes(&[0xC1, 0xC2, 0xC3], 37, 2)?.text, "ABC");
/// let damaged = decode_character_bytes(&[0xC1, 0x41], 1208, 2)?;
/// assert_eq!((damaged.text.as_str(), damaged.replaced), ("\u{FFFD}A", 1));
/// // A CCSID that the library does not know, at release 2 and at release 3.
/// assert_eq!(decode_character_bytes(&[0x40, 0x4B], 1047, 2)?.text, "@K");
/// assert_eq!(decode_character_bytes(&[0x40, 0x4B], 1047, 3)?.text, " .");
/// # Ok::<(), vejupa::Refusal>(())
/// ```
pub fn decode_character_bytes(data: &[u8], ccsid: u16, release: u32) -> Result<Text, Refusal> {
    owned(data.len() + SPARE, |text| {
        raw::decode_character_bytes(data, ccsid, release, text)
    })
}

/// [`decode_character_bytes`] into a lent buffer.
///
/// # Errors
/// The same, and [`Refusal::TextBufferTooShort`].
///
/// ```
/// use vejupa::{decode_character_bytes_into, Refusal};
/// let mut text = [0; 3];
/// assert_eq!(decode_character_bytes_into(&[0xC1, 0xC2, 0xC3], 37, 2, &mut text)?.text, "ABC");
/// let refusal = decode_character_bytes_into(&[0xC1, 0xC2, 0xC3, 0xC4], 37, 2, &mut text);
/// assert_eq!(refusal, Err(Refusal::TextBufferTooShort { needed: 4 }));
/// # Ok::<(), Refusal>(())
/// ```
pub fn decode_character_bytes_into<'t>(
    data: &[u8],
    ccsid: u16,
    release: u32,
    text: &'t mut [u8],
) -> Result<TextRef<'t>, Refusal> {
    converted(
        raw::decode_character_bytes(data, ccsid, release, text),
        text,
    )
}

/// The text of a graphic value, by its CCSID: 1200 and 13488 are big-endian UTF-16 where the number of bytes is even, at either
/// [release](crate#the-hosts-release). Any other goes as characters do, and so does an odd number of bytes. An unpaired surrogate becomes
/// U+FFFD, and is counted.
///
/// # Errors
/// As [`decode_character_bytes`].
///
/// ```
/// use vejupa::decode_graphic_bytes;
/// assert_eq!(decode_graphic_bytes(&[0xD8, 0x3D, 0xDE, 0x00], 1200, 3)?.text, "\u{1F600}");
/// assert_eq!(decode_graphic_bytes(&[0xD8, 0x3D], 1200, 3)?.replaced, 1);
/// # Ok::<(), vejupa::Refusal>(())
/// ```
pub fn decode_graphic_bytes(data: &[u8], ccsid: u16, release: u32) -> Result<Text, Refusal> {
    owned(data.len() + SPARE, |text| {
        raw::decode_graphic_bytes(data, ccsid, release, text)
    })
}

/// [`decode_graphic_bytes`] into a lent buffer.
///
/// # Errors
/// The same, and [`Refusal::TextBufferTooShort`].
pub fn decode_graphic_bytes_into<'t>(
    data: &[u8],
    ccsid: u16,
    release: u32,
    text: &'t mut [u8],
) -> Result<TextRef<'t>, Refusal> {
    converted(raw::decode_graphic_bytes(data, ccsid, release, text), text)
}

/// `LOB locator 0x` and the bytes in upper-case hexadecimal.
///
/// # Errors
/// [`Refusal::InputTooLong`].
///
/// ```
/// assert_eq!(vejupa::format_lob_locator(&[0x80])?, "LOB locator 0x80");
/// # Ok::<(), vejupa::Refusal>(())
/// ```
pub fn format_lob_locator(bytes: &[u8]) -> Result<String, Refusal> {
    owned_text(2 * bytes.len() + SPARE, |text| {
        raw::format_lob_locator(bytes, text)
    })
}

/// [`format_lob_locator`] into a lent buffer.
///
/// # Errors
/// The same, and [`Refusal::TextBufferTooShort`].
pub fn format_lob_locator_into<'t>(bytes: &[u8], text: &'t mut [u8]) -> Result<&'t str, Refusal> {
    written(raw::format_lob_locator(bytes, text), text)
}

/// `0x` and the bytes in upper-case hexadecimal.
///
/// # Errors
/// [`Refusal::InputTooLong`].
///
/// ```
/// assert_eq!(vejupa::format_rowid(&[0x0A, 0xBC])?, "0x0ABC");
/// # Ok::<(), vejupa::Refusal>(())
/// ```
pub fn format_rowid(bytes: &[u8]) -> Result<String, Refusal> {
    owned_text(2 * bytes.len() + SPARE, |text| {
        raw::format_rowid(bytes, text)
    })
}

/// [`format_rowid`] into a lent buffer.
///
/// # Errors
/// The same, and [`Refusal::TextBufferTooShort`].
pub fn format_rowid_into<'t>(bytes: &[u8], text: &'t mut [u8]) -> Result<&'t str, Refusal> {
    written(raw::format_rowid(bytes, text), text)
}

/// The text of a packed decimal with `scale` digits behind the point. A nibble above 9 in place of a digit gives one of the characters
/// `:;<=>?`. [`decode_packed_whole`](crate::decode_packed_whole) gives a number.
///
/// # Errors
/// [`Refusal::DecimalEmpty`] and [`Refusal::DecimalTooLong`].
///
/// ```
/// assert_eq!(vejupa::decode_packed_decimal(&[0x12, 0x34, 0x5D], 2)?, "-123.45");
/// # Ok::<(), vejupa::Refusal>(())
/// ```
pub fn decode_packed_decimal(data: &[u8], scale: u8) -> Result<String, Refusal> {
    owned_text(2 * data.len() + usize::from(scale) + SPARE, |text| {
        raw::decode_packed_decimal(data, NO_PRECISION, scale, text)
    })
}

/// [`decode_packed_decimal`] into a lent buffer.
///
/// # Errors
/// The same, and [`Refusal::TextBufferTooShort`].
pub fn decode_packed_decimal_into<'t>(
    data: &[u8],
    scale: u8,
    text: &'t mut [u8],
) -> Result<&'t str, Refusal> {
    written(
        raw::decode_packed_decimal(data, NO_PRECISION, scale, text),
        text,
    )
}

/// Whether the bytes are well-formed UTF-8 without control characters, save tab, line feed and carriage return.
///
/// ```
/// assert!(vejupa::bytes_are_likely_text(b"warp and weft\n"));
/// assert!(!vejupa::bytes_are_likely_text(&[0x00, 0x41]));
/// ```
pub fn bytes_are_likely_text(bytes: &[u8]) -> bool {
    raw::bytes_are_likely_text(bytes) == 1
}
