//! Rows that lie one after the other.
use crate::{Buffers, Columns, OwnedRow, Refusal, Row};
use std::fmt;
use std::iter::FusedIterator;

/// Rows that lie one after the other in a block of bytes. It is an iterator of owned rows; [`Rows::next_row`] hands out borrowed ones,
/// all from one set of buffers.
///
/// It ends where nothing is left; before a row that uses no byte, as one without columns may; and after a refusal, which it hands out
/// once. What it has not read is [`Rows::rest`]: after a refusal it begins with the refused row, so that a row that is cut off can be
/// tried again with more bytes behind it.
///
/// # Where the rows end
///
/// Every row is read from the first byte that no row before it used, whatever stands there: to find the end of the rows is the caller's
/// work. As an iterator it is for bytes that are rows and nothing else. A host's block is not: go on while the rest begins FF 00, as below.
///
/// - A host that sends FF 00 before each row also sends groups that are no rows. Those that begin 00 are a status, as the query end is; with the
///   columns of `06 76 D0 04 00 02` its 62 bytes are read as 30 rows. Rows may follow a status that is a warning: its length is the caller's to
///   find.
/// - A lone FF at the end of a block is a row that is cut off: by itself it would be read as a Null where the first column may be
///   null. Put the next block behind it.
/// - Rows without these two bytes can only be read one after the other where none begins with FF. The row call takes a first byte FF, with
///   the byte after it, for those two, be it the indicator of a first column that is Null or a number below 0. With the columns of
///   `09 76 D0 05 00 02 05 00 02` the rows `FF 00 00 07` (Null, 7) and `00 00 01 00 00 02` (1, 2) laid together come out as one row, of
///   1792 and 256, and a refusal.
/// - A few columns do not carry their own end (W9 in `docs/RULES.md`), and may take bytes of the rows behind them.
/// - A block of more than [`MAX_INPUT`](crate::MAX_INPUT) bytes is refused ([`Refusal::InputTooLong`]): hand it in by parts.
///
/// ```
/// use vejupa::{Columns, Rows};
/// let columns = Columns::parse_whole(&[0x06, 0x76, 0xD0, 0x04, 0x00, 0x02])?;
/// // Two rows of a SmallInt, and the beginning of a query end.
/// let block = [0xFF, 0x00, 0x00, 0x07, 0xFF, 0x00, 0x00, 0x08, 0x00, 0x64, 0x00, 0x00, 0x00];
/// let mut rows = Rows::new(&block, &columns, 2);
/// let mut sum = 0;
/// while rows.rest().starts_with(&[0xFF, 0x00]) {
///     let Some(row) = rows.next_row() else { break };
///     sum += row?.value(0).as_i64().expect("a SmallInt that is not null");
/// }
/// assert_eq!(sum, 15);
/// assert_eq!(rows.rest(), [0x00, 0x64, 0x00, 0x00, 0x00]);
/// # Ok::<(), vejupa::Refusal>(())
/// ```
///
/// Where the bytes are rows alone:
///
/// ```
/// use vejupa::{Columns, OwnedRow, Refusal, Rows};
/// let columns = Columns::parse_whole(&[0x06, 0x76, 0xD0, 0x04, 0x00, 0x02])?;
/// let rows: Result<Vec<OwnedRow>, Refusal> = Rows::new(&[0x00, 0x07, 0x00, 0x08], &columns, 2).collect();
/// assert_eq!(rows?.len(), 2);
/// # Ok::<(), Refusal>(())
/// ```
#[derive(Clone)]
#[must_use = "iterators do nothing unless they are used"]
pub struct Rows<'a, 'c> {
    rest: &'a [u8],
    columns: &'c Columns,
    release: u32,
    buffers: Buffers,
    stopped: bool,
}

impl<'a, 'c> Rows<'a, 'c> {
    /// The rows of a block, by their columns and the [host's release](crate#the-hosts-release). That the release is neither 2 nor 3 the
    /// first row says, by [`Refusal::UnknownRelease`].
    pub fn new(data: &'a [u8], columns: &'c Columns, release: u32) -> Rows<'a, 'c> {
        Rows::with_buffers(data, columns, release, Buffers::new())
    }

    /// The same, with buffers that were used before; [`Rows::into_buffers`] gives them back.
    pub fn with_buffers(
        data: &'a [u8],
        columns: &'c Columns,
        release: u32,
        buffers: Buffers,
    ) -> Rows<'a, 'c> {
        Rows {
            rest: data,
            columns,
            release,
            buffers,
            stopped: false,
        }
    }

    /// The buffers, for the next block.
    pub fn into_buffers(self) -> Buffers {
        self.buffers
    }

    /// The next row, in buffers that the one after it uses again. None where the rows have ended.
    pub fn next_row(&mut self) -> Option<Result<Row<'_>, Refusal>> {
        if self.has_ended() {
            return None;
        }
        let data = self.rest;
        match self.buffers.fill(data, self.columns, self.release) {
            Ok(filled) if filled.used > 0 => {
                self.rest = &data[filled.used..];
                Some(Ok(self.buffers.row(data, filled)))
            }
            Ok(_) => {
                self.stopped = true;
                None
            }
            Err(refusal) => {
                self.stopped = true;
                Some(Err(refusal))
            }
        }
    }

    fn has_ended(&self) -> bool {
        self.stopped || self.rest.is_empty()
    }

    /// What is not read yet.
    pub fn rest(&self) -> &'a [u8] {
        self.rest
    }
}

impl Iterator for Rows<'_, '_> {
    type Item = Result<OwnedRow, Refusal>;

    fn next(&mut self) -> Option<Result<OwnedRow, Refusal>> {
        self.next_row().map(|row| row.map(Row::into_owned))
    }
}

impl FusedIterator for Rows<'_, '_> {}

/// How much is not read yet, and whether the rows have ended.
impl fmt::Debug for Rows<'_, '_> {
    fn fmt(&self, f: &mut fmt::Formatter<'_>) -> fmt::Result {
        f.debug_struct("Rows")
            .field("columns", &self.columns.len())
            .field("rest_bytes", &self.rest.len())
            .field("ended", &self.has_ended())
            .finish()
    }
}
