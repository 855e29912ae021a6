//! The calls of the static library libvejupa.a, as the crate `vejupa` of bindings/rust has them: what is compared is what its users call.
//! Columns and values are taken apart here by code of the driver's own, so that an error of that crate does not hide one of the library.
//! And the calls by value, from an archive of their own.
pub mod by_value;
pub mod column;
pub mod value;

pub use vejupa::raw::{
    bytes_are_likely_text, decode_character_bytes, decode_graphic_bytes, decode_packed_decimal,
    decode_packed_whole, decode_row, fixed_length, format_lob_locator, format_rowid, parse_qrydsc,
    parse_whole_qrydsc, DescriptionAnswer as Described, LengthAnswer as FixedLength,
    PackedWholeAnswer as PackedWhole, RowAnswer as Decoded, TextAnswer as Outcome,
    WholeDescriptionAnswer as WholeDescribed, NO_COLUMN as NO_COLUMN_WORDS,
    NO_COLUMN as NO_TYPE_WORD, TOO_FEW_WORDS,
};
