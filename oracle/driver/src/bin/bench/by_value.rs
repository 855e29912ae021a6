//! The calls by value, held to the Rust before they are measured.
use db2_proto::fdoca::ColumnDescriptor;
use differential::descriptions::rust_side::parsed;
use differential::descriptions::Parser;
pub use port::by_value::number_at;
use port::by_value::{broken_off, count, length_at, whole_length_at, whole_number};

/// The length of the column at a place of a list.
pub fn length(parser: Parser, data: &[u8], place: usize) -> u64 {
    match parser {
        Parser::Ported => length_at(data, place),
        Parser::Whole => whole_length_at(data, place),
    }
}

/// Whether the numbers that can be seen are the Rust's, of a description that is whole.
pub fn same(parser: Parser, data: &[u8]) -> bool {
    let columns = parsed(data);
    let at = |(i, column): (usize, &ColumnDescriptor)| {
        length(parser, data, i) == u64::from(column.length)
    };
    let numbers = match parser {
        Parser::Ported => count(data) == columns.len() as u64 && broken_off(data) == 0,
        Parser::Whole => whole_number(data) == 0,
    };
    numbers && columns.iter().enumerate().all(at)
}
