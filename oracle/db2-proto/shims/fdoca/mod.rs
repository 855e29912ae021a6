// Shim. The published fdoca.rs, unchanged, and for its private functions public ones, which pass on what they are given and what
// comes back, and do nothing else.
include!("published.rs");

pub mod exposed {
    pub fn decode_row_body(
        data: &[u8],
        columns: &[super::ColumnDescriptor],
    ) -> super::Result<(super::DecodedRow, usize)> {
        super::decode_row_body(data, columns)
    }

    pub fn decode_column_value(
        data: &[u8],
        column: &super::ColumnDescriptor,
    ) -> super::Result<(super::Db2Value, usize)> {
        super::decode_column_value(data, column)
    }

    pub fn decode_character_bytes(data: &[u8], ccsid: u16) -> String {
        super::decode_character_bytes(data, ccsid)
    }

    pub fn decode_graphic_bytes(data: &[u8], ccsid: u16) -> String {
        super::decode_graphic_bytes(data, ccsid)
    }

    pub fn format_lob_locator(bytes: &[u8]) -> String {
        super::format_lob_locator(bytes)
    }

    pub fn format_rowid(bytes: &[u8]) -> String {
        super::format_rowid(bytes)
    }

    pub fn bytes_are_likely_text(bytes: &[u8]) -> bool {
        super::bytes_are_likely_text(bytes)
    }
}
