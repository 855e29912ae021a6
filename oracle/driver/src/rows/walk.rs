//! A walk over the columns of a row that the Rust accepts, as far as it is needed: which bytes a value takes.
use db2_proto::fdoca::{exposed, ColumnDescriptor};

pub struct Walk<'a> {
    columns: &'a [ColumnDescriptor],
    data: &'a [u8],
    next: usize,
    at: usize,
}

/// How many bytes are skipped before the first column.
pub fn skip(data: &[u8]) -> usize {
    match data {
        [0xFF, _, ..] => 2,
        _ => 0,
    }
}

impl<'a> Walk<'a> {
    pub fn over(columns: &'a [ColumnDescriptor], data: &'a [u8]) -> Self {
        Walk {
            columns,
            data,
            next: 0,
            at: skip(data),
        }
    }

    pub fn column(&self, column: usize) -> &'a ColumnDescriptor {
        &self.columns[column]
    }

    /// Where the value of a column begins, which is not before the last one that was asked for; None where it is Null.
    pub fn start(&mut self, column: usize) -> Option<usize> {
        loop {
            let descriptor = &self.columns[self.next];
            let null = descriptor.nullable && self.data[self.at] == 0xFF;
            let start = self.at + usize::from(descriptor.nullable);
            if self.next == column {
                return (!null).then_some(start);
            }
            self.next += 1;
            self.at = start;
            if !null {
                self.at += self.used(descriptor, start);
            }
        }
    }

    /// The bytes of a column's value; None where it is Null.
    pub fn taken(&mut self, column: usize) -> Option<&'a [u8]> {
        let start = self.start(column)?;
        let used = self.used(self.column(column), start);
        Some(&self.data[start..start + used])
    }

    fn used(&self, descriptor: &ColumnDescriptor, start: usize) -> usize {
        let value = exposed::decode_column_value(&self.data[start..], descriptor);
        value.expect("a column of an accepted row").1
    }
}
