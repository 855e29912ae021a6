//! Decodes rows that a Db2 host sends (DRDA, FD:OCA), by a library in which every function is proved to meet its contract. This crate
//! calls that library with ordinary Rust types and adds no rule of its own: whatever the bytes, a call answers or refuses, and never
//! reads or writes elsewhere.
//!
//! ```
//! use vejupa::{decode_row_into, Buffers, Columns, Value};
//!
//! // The host describes its columns once: an Integer, and a Decimal of 5 digits, 2 of them behind the point, that may be null.
//! let columns = Columns::parse_whole(&[0x09, 0x76, 0xD0, 0x02, 0x00, 0x04, 0x0F, 0x05, 0x02])?;
//!
//! // Rows follow. The buffers are used for one after the other.
//! let release = 2; // the host's: see below
//! let mut buffers = Buffers::new();
//! let bytes = [0x00, 0x00, 0x00, 0x07, 0x00, 0x12, 0x34, 0x5C];
//! let row = decode_row_into(&bytes, &columns, release, &mut buffers)?;
//! assert_eq!(row.value(0), Value::Integer(7));
//! assert_eq!(row.value(1), Value::Decimal("123.45"));
//! assert_eq!(row.used(), 8);
//! # Ok::<(), vejupa::Refusal>(())
//! ```
//!
//! [`parse_whole_qrydsc`] and [`decode_row`] are the same in a shorter form, with owned values, which allocates for each row. A description
//! that breaks off is refused; [`parse_qrydsc`] is for one that was stored so: it gives the columns read up to there, and says that it
//! breaks off. [`Rows`] goes through rows that lie one after the other. [`decode_character_bytes`] and the like convert single texts.
//! [`decode_packed_whole`] reads a packed decimal as a number. [`raw`] has the calls on plain words and lent slices.
//!
//! # The host's release
//!
//! Every call that converts texts by CCSID is told the release of the host that sent them, 2 or 3: [`decode_row`] and its other forms,
//! [`Rows`], [`decode_character_bytes`], [`decode_graphic_bytes`]. It decides how a text is read whose CCSID is none of 1208, 819, 37 and 500,
//! save a graphic text that is UTF-16 (CCSID 1200 or 13488, an even number of bytes):
//!
//! - **2**: by a guess, as the published Rust does and as this crate did before 0.6.0: ASCII where all bytes are below 0x80, else code page
//!   037. A blank field, which is bytes 0x40, comes out as `@`s.
//! - **3**: code page 037, whatever the bytes are.
//!
//! In a row this goes for Char, VarChar, LongVarChar, Graphic, VarGraphic, Date, Time, Timestamp and LobChar, and for a LobBytes whose bytes
//! are [likely text](bytes_are_likely_text). The text of a Clob, DbClob or Xml within the row is UTF-8 at either release; locators, row ids,
//! decimals and numbers have no part in it. What a value takes of the row, and so [`Row::used`], does not depend on the release.
//!
//! Hosts change over one at a time: keep the number beside the host's address, not in the program. Any other number is refused
//! ([`Refusal::UnknownRelease`]), before anything else is looked at. That the one is stated for a host of the other no call notices: compare
//! a blank field, and a text with letters, with what the host's own client shows.
//!
//! ```
//! use vejupa::{decode_character_bytes, Refusal};
//! let blank = [0x40; 4];
//! assert_eq!(decode_character_bytes(&blank, 1047, 2)?.text, "@@@@");
//! assert_eq!(decode_character_bytes(&blank, 1047, 3)?.text, "    ");
//! assert_eq!(decode_character_bytes(&blank, 1047, 4), Err(Refusal::UnknownRelease));
//! # Ok::<(), Refusal>(())
//! ```
//!
//! # The archive
//!
//! The crate links `libvejupa.a`, which `tools/archive` writes into `target/staticlib` at the repository's root. The environment
//! variable `VEJUPA_LIB` names another folder with the archive, absolute or seen from this crate's folder. Without the archive, the crate
//! can be checked and documented, but no program can be linked; nor can one with an archive of another version.
#![deny(missing_docs)]
#![deny(unsafe_code)]

// The Rust of README.md is run as a test.
#[cfg(doctest)]
#[doc = include_str!("../../../README.md")]
mod readme {}

mod column;
mod decimal;
#[allow(unsafe_code)]
pub mod raw;
mod refusal;
mod row;
mod rows;
mod show;
mod text;
mod types;
mod value;

pub use column::{
    parse_qrydsc, parse_whole_qrydsc, Column, Columns, ColumnsIntoIter, ColumnsIter, Description,
};
pub use decimal::{decode_packed_whole, PackedWhole};
pub use refusal::Refusal;
pub use row::{decode_row, decode_row_into, Buffers, OwnedRow, Row, Values};
pub use rows::Rows;
pub use text::{
    bytes_are_likely_text, decode_character_bytes, decode_character_bytes_into,
    decode_graphic_bytes, decode_graphic_bytes_into, decode_packed_decimal,
    decode_packed_decimal_into, format_lob_locator, format_lob_locator_into, format_rowid,
    format_rowid_into, Text, TextRef,
};
pub use types::{ByteOrder, Db2Type, Origin};
pub use value::{OwnedValue, Value};

/// This crate's version, and that of the archive it links.
pub const VERSION: &str = env!("CARGO_PKG_VERSION");

/// How many columns a description may have, and the row call takes.
pub const MAX_COLUMNS: usize = 128;

/// How many bytes a description may have.
pub const MAX_QRYDSC: usize = 65_536;

/// How many bytes a row, or what a text conversion is given, may have.
pub const MAX_INPUT: usize = 1_048_576;

/// How many bytes a packed decimal may have.
pub const MAX_DECIMAL: usize = 128;
