//! Columns, one by one and as the list of words that the row call takes.
use crate::raw::{self, ACCEPTED, COLUMN_WORDS};
use crate::{
    decode_row_into, Buffers, ByteOrder, Db2Type, Origin, OwnedRow, Refusal, Row, MAX_COLUMNS,
};
use std::fmt;
use std::iter::FusedIterator;
use std::ops::Range;
use std::slice::ChunksExact;

/// What a description says of a column.
///
/// `length`, `precision` and `scale` are as the host describes them. What the row call goes by are the numbers that the type itself
/// holds, such as a Decimal's precision and scale or a Char's length; in a list of one's own they may differ from these fields. Of the
/// fields it looks at `nullable`, `ccsid`, `byte_order` and `reference_length`, and for Timestamp, Boolean, Blob, Clob and DbClob at
/// `length`. Columns are compared by every field, also by those that nothing goes by: one that a description gives has its number and its
/// origin.
///
/// ```
/// use vejupa::{decode_row, Column, Db2Type, Value};
/// let columns = [
///     Column::new(Db2Type::Integer),
///     Column::new(Db2Type::Char(3)).with_ccsid(37).with_nullable(true),
/// ];
/// let row = decode_row(&[0x00, 0x00, 0x00, 0x07, 0x00, 0xC1, 0xC2, 0xC3], &columns, 2)?;
/// assert_eq!(row.values, [Value::Integer(7), Value::Char("ABC")]);
/// # Ok::<(), vejupa::Refusal>(())
/// ```
#[derive(Debug, Clone, Copy, PartialEq, Eq, Hash)]
#[non_exhaustive]
pub struct Column {
    /// The column's number, from 0. Nothing goes by it.
    pub column_index: u8,
    /// The type, with the numbers that the row call goes by.
    pub db2_type: Db2Type,
    /// The DRDA type code that the type was made from. Nothing goes by it.
    pub drda_type: u8,
    /// The length as described, flags included. The row call goes by it for Timestamp, Boolean, Blob, Clob and DbClob alone.
    pub length: u16,
    /// The precision as described. Nothing goes by it.
    pub precision: u8,
    /// The scale as described. Nothing goes by it.
    pub scale: u8,
    /// Whether an indicator byte stands before each value.
    pub nullable: bool,
    /// The code page of texts.
    pub ccsid: u16,
    /// The width of a reference to data outside of the row, where the description declares one. 0 is a width too.
    pub reference_length: Option<u16>,
    /// The order of a number's bytes.
    pub byte_order: ByteOrder,
    /// Where the description has the column from. Nothing goes by it.
    pub origin: Origin,
}

impl Column {
    /// A column of a type and nothing else: not nullable, big-endian, CCSID 0, no reference, origin SDA, every other number 0.
    ///
    /// Say more where it matters. A text of CCSID 0, a date or a time too, goes by the [host's release](crate#the-hosts-release): at 2 it is
    /// guessed, at 3 it is code page 037, so that ASCII comes out wrong. Give it one. A Blob, Clob or DbClob of length 0 is a reference, of
    /// four bytes or of nine that begin 02: where its values come within the row, give it a length. A Timestamp of length 0 has 26 bytes.
    #[must_use]
    pub const fn new(db2_type: Db2Type) -> Column {
        Column {
            column_index: 0,
            db2_type,
            drda_type: 0,
            length: 0,
            precision: 0,
            scale: 0,
            nullable: false,
            ccsid: 0,
            reference_length: None,
            byte_order: ByteOrder::BigEndian,
            origin: Origin::Sda,
        }
    }

    /// The column, nullable or not.
    #[must_use]
    pub const fn with_nullable(self, nullable: bool) -> Column {
        Column { nullable, ..self }
    }

    /// The column with this code page.
    #[must_use]
    pub const fn with_ccsid(self, ccsid: u16) -> Column {
        Column { ccsid, ..self }
    }

    /// The column with this length. That of most types is in the type itself; see [`Column`].
    #[must_use]
    pub const fn with_length(self, length: u16) -> Column {
        Column { length, ..self }
    }

    /// The column with this order of its numbers' bytes.
    #[must_use]
    pub const fn with_byte_order(self, byte_order: ByteOrder) -> Column {
        Column { byte_order, ..self }
    }

    /// The column with this origin, for whoever shows it or compares it with one that was described. The row call does not look at it.
    #[must_use]
    pub const fn with_origin(self, origin: Origin) -> Column {
        Column { origin, ..self }
    }

    /// The column, whose values are references of so many bytes to data outside of the row. It is for Blob, Clob, DbClob and Xml.
    #[must_use]
    pub const fn with_reference_length(self, length: u16) -> Column {
        Column {
            reference_length: Some(length),
            ..self
        }
    }

    /// The column's two words; `include/vejupa.h` has their layout.
    pub fn words(&self) -> [u64; COLUMN_WORDS] {
        let first = self.db2_type.word()
            | u64::from(self.drda_type) << 24
            | u64::from(self.column_index) << 32
            | u64::from(self.nullable) << 48
            | u64::from(self.byte_order == ByteOrder::LittleEndian) << 49
            | u64::from(self.reference_length.is_some()) << 50
            | self.origin.number() << 51;
        let second = u64::from(self.length)
            | u64::from(self.precision) << 16
            | u64::from(self.scale) << 24
            | u64::from(self.ccsid) << 32
            | u64::from(self.reference_length.unwrap_or(0)) << 48;
        [first, second]
    }

    /// The column of two words; None where they are no column's.
    pub fn from_words(words: [u64; COLUMN_WORDS]) -> Option<Column> {
        let [first, second] = words;
        let column = Column {
            column_index: (first >> 32) as u8,
            db2_type: Db2Type::from_word(first & 0xFF_FFFF)?,
            drda_type: (first >> 24) as u8,
            length: second as u16,
            precision: (second >> 16) as u8,
            scale: (second >> 24) as u8,
            nullable: first >> 48 & 1 == 1,
            ccsid: (second >> 32) as u16,
            reference_length: (first >> 50 & 1 == 1).then_some((second >> 48) as u16),
            byte_order: match first >> 49 & 1 {
                0 => ByteOrder::BigEndian,
                _ => ByteOrder::LittleEndian,
            },
            origin: Origin::from_number(first >> 51 & 3)?,
        };
        (column.words() == words).then_some(column)
    }
}

/// The columns that a description (QRYDSC) lists, in order, where it does not break off: the call for what comes from a host.
/// [`Columns::parse_whole`] is the same in the form that the row call takes.
///
/// A description is read as triplets, one behind the other: a length byte, which counts itself, a type byte and data. It *breaks off* where
/// bytes are left behind the last whole one: a single byte; a length of 0 or 1, and so zeros at the end too; a length that runs past the
/// end. The empty description does not.
///
/// Not all damage is noticed: a cut exactly between two triplets, a wrong length that happens to fit, and damage within a triplet or a group
/// are not, and the columns are then fewer than the host's, or others. Nor is a description refused that goes on in a triplet 7F, as Apache
/// Derby's server sends from the 85th column on: those columns are missing. Compare their number with that of the query, where it is known.
///
/// # Errors
/// The first of [`Refusal::QrydscTooLong`], [`Refusal::QrydscBrokenOff`] and [`Refusal::TooManyColumns`] that applies.
///
/// ```
/// use vejupa::{parse_whole_qrydsc, Db2Type, Refusal};
/// let two = [0x05, 0x70, 0x02, 0x00, 0x04, 0x05, 0x70, 0x04, 0x00, 0x02];
/// let columns = parse_whole_qrydsc(&two)?;
/// assert_eq!(columns.len(), 2);
/// assert_eq!(columns[0].db2_type, Db2Type::Integer);
///
/// assert_eq!(parse_whole_qrydsc(&two[..8]), Err(Refusal::QrydscBrokenOff));
/// // Cut between the two, it is the description of one column.
/// assert_eq!(parse_whole_qrydsc(&two[..5])?.len(), 1);
/// # Ok::<(), Refusal>(())
/// ```
pub fn parse_whole_qrydsc(data: &[u8]) -> Result<Vec<Column>, Refusal> {
    Columns::parse_whole(data).map(|columns| columns.iter().collect())
}

/// The columns that a description (QRYDSC) lists, in order, also where it breaks off; and whether it does. For what comes from a host call
/// [`parse_whole_qrydsc`] or [`Columns::parse_whole`]: they refuse a description that breaks off.
///
/// This one is there for descriptions that were stored with such an ending, when nothing refused them, so that the rows stored beside them
/// can still be decoded. Of one that breaks off, the columns read up to there are all that there are. The damage that
/// [`parse_whole_qrydsc`] does not notice is not noticed here either.
///
/// # Errors
/// The first of [`Refusal::QrydscTooLong`] and [`Refusal::TooManyColumns`] that applies.
///
/// ```
/// use vejupa::parse_qrydsc;
/// let stored = [0x05, 0x70, 0x02, 0x00, 0x04, 0x05, 0x70, 0x04];
/// let description = parse_qrydsc(&stored)?;
/// if description.broken_off {
///     eprintln!("the description breaks off: columns may be missing");
/// }
/// let row = description.columns.decode_row(&[0x2A, 0x00, 0x00, 0x00], 2)?;
/// assert_eq!(row.values.len(), 1);
/// # assert!(description.broken_off);
/// # Ok::<(), vejupa::Refusal>(())
/// ```
pub fn parse_qrydsc(data: &[u8]) -> Result<Description, Refusal> {
    let mut words = [0; COLUMN_WORDS * MAX_COLUMNS];
    let answer = raw::parse_qrydsc(data, &mut words);
    Ok(Description {
        columns: described(answer.number, answer.count, &words)?,
        broken_off: answer.broken_off != 0,
    })
}

// What was written of the words, where the description was accepted.
fn described(number: u32, count: usize, words: &[u64]) -> Result<Columns, Refusal> {
    match number {
        ACCEPTED => Ok(Columns {
            words: words[..COLUMN_WORDS * count].to_vec(),
        }),
        _ => Err(Refusal::from_number(number)),
    }
}

/// What [`parse_qrydsc`] gives: the columns, and whether the description breaks off behind them.
#[derive(Debug, Clone, PartialEq, Eq, Hash, Default)]
#[non_exhaustive]
#[must_use = "the description may break off"]
pub struct Description {
    /// The columns: all of the description, or those read up to where it breaks off.
    pub columns: Columns,
    /// Whether the description breaks off, so that columns may be missing.
    pub broken_off: bool,
}

/// A list of columns, laid out for the row call once and for all its rows.
///
/// ```
/// use vejupa::{Column, Columns, Db2Type};
/// let columns = Columns::parse_whole(&[0x05, 0x70, 0x02, 0x00, 0x04])?;
/// for column in &columns {
///     assert_eq!(column.db2_type, Db2Type::Integer);
/// }
///
/// // A list of one's own.
/// let own = Columns::from([Column::new(Db2Type::SmallInt), Column::new(Db2Type::Date)]);
/// assert_eq!(own.len(), 2);
/// # Ok::<(), vejupa::Refusal>(())
/// ```
#[derive(Clone, PartialEq, Eq, Hash, Default)]
pub struct Columns {
    words: Vec<u64>,
}

impl Columns {
    /// The columns that a description (QRYDSC) lists, where it does not break off: [`parse_whole_qrydsc`] in the form that the row call
    /// takes, which says what is noticed and what is not. [`parse_qrydsc`] also takes one that breaks off, as it may have been stored.
    ///
    /// # Errors
    /// As [`parse_whole_qrydsc`].
    ///
    /// ```
    /// use vejupa::{Columns, Refusal};
    /// let two = [0x05, 0x70, 0x02, 0x00, 0x04, 0x05, 0x70, 0x04, 0x00, 0x02];
    /// assert_eq!(Columns::parse_whole(&two)?.len(), 2);
    /// assert_eq!(Columns::parse_whole(&two[..9]), Err(Refusal::QrydscBrokenOff));
    /// # Ok::<(), Refusal>(())
    /// ```
    pub fn parse_whole(data: &[u8]) -> Result<Columns, Refusal> {
        let mut words = [0; COLUMN_WORDS * MAX_COLUMNS];
        let answer = raw::parse_whole_qrydsc(data, &mut words);
        described(answer.number, answer.count, &words)
    }

    /// How many columns there are.
    pub fn len(&self) -> usize {
        self.words.len() / COLUMN_WORDS
    }

    /// Whether there are none.
    pub fn is_empty(&self) -> bool {
        self.words.is_empty()
    }

    /// Column k, from 0.
    pub fn get(&self, k: usize) -> Option<Column> {
        (k < self.len()).then(|| column(&self.words[COLUMN_WORDS * k..]))
    }

    /// The columns in order.
    pub fn iter(&self) -> ColumnsIter<'_> {
        ColumnsIter {
            words: self.words.chunks_exact(COLUMN_WORDS),
        }
    }

    /// The values of a row, with texts and bytes of their own: [`decode_row`](crate::decode_row) by these columns, at the
    /// [host's release](crate#the-hosts-release).
    ///
    /// # Errors
    /// As [`decode_row`](crate::decode_row).
    pub fn decode_row(&self, data: &[u8], release: u32) -> Result<OwnedRow, Refusal> {
        decode_row_into(data, self, release, &mut Buffers::new()).map(Row::into_owned)
    }

    /// The words, two a column, as [`raw::decode_row`] takes them.
    pub fn words(&self) -> &[u64] {
        &self.words
    }
}

// The column that these words begin with.
fn column(words: &[u64]) -> Column {
    Column::from_words([words[0], words[1]])
        .expect("the words came from columns, or from a description")
}

/// A list of the columns.
impl fmt::Debug for Columns {
    fn fmt(&self, f: &mut fmt::Formatter<'_>) -> fmt::Result {
        f.debug_list().entries(self).finish()
    }
}

impl From<&[Column]> for Columns {
    fn from(columns: &[Column]) -> Columns {
        columns.iter().copied().collect()
    }
}

impl From<Vec<Column>> for Columns {
    fn from(columns: Vec<Column>) -> Columns {
        columns.as_slice().into()
    }
}

impl<const N: usize> From<[Column; N]> for Columns {
    fn from(columns: [Column; N]) -> Columns {
        columns.as_slice().into()
    }
}

impl Extend<Column> for Columns {
    fn extend<I: IntoIterator<Item = Column>>(&mut self, columns: I) {
        self.words
            .extend(columns.into_iter().flat_map(|c| c.words()));
    }
}

impl FromIterator<Column> for Columns {
    fn from_iter<I: IntoIterator<Item = Column>>(columns: I) -> Columns {
        Columns {
            words: columns.into_iter().flat_map(|c| c.words()).collect(),
        }
    }
}

impl<'a> IntoIterator for &'a Columns {
    type Item = Column;
    type IntoIter = ColumnsIter<'a>;

    fn into_iter(self) -> ColumnsIter<'a> {
        self.iter()
    }
}

impl IntoIterator for Columns {
    type Item = Column;
    type IntoIter = ColumnsIntoIter;

    fn into_iter(self) -> ColumnsIntoIter {
        ColumnsIntoIter {
            left: 0..self.len(),
            columns: self,
        }
    }
}

/// The columns of a borrowed list, in order.
#[derive(Clone)]
#[must_use = "iterators do nothing unless they are used"]
pub struct ColumnsIter<'a> {
    words: ChunksExact<'a, u64>,
}

impl Iterator for ColumnsIter<'_> {
    type Item = Column;

    fn next(&mut self) -> Option<Column> {
        self.words.next().map(column)
    }

    fn nth(&mut self, n: usize) -> Option<Column> {
        self.words.nth(n).map(column)
    }

    fn size_hint(&self) -> (usize, Option<usize>) {
        self.words.size_hint()
    }
}

impl DoubleEndedIterator for ColumnsIter<'_> {
    fn next_back(&mut self) -> Option<Column> {
        self.words.next_back().map(column)
    }
}

impl ExactSizeIterator for ColumnsIter<'_> {}

impl FusedIterator for ColumnsIter<'_> {}

/// A list of the columns that are left.
impl fmt::Debug for ColumnsIter<'_> {
    fn fmt(&self, f: &mut fmt::Formatter<'_>) -> fmt::Result {
        f.debug_list().entries(self.clone()).finish()
    }
}

/// The columns of a list, in order.
#[derive(Clone)]
#[must_use = "iterators do nothing unless they are used"]
pub struct ColumnsIntoIter {
    columns: Columns,
    left: Range<usize>,
}

impl Iterator for ColumnsIntoIter {
    type Item = Column;

    fn next(&mut self) -> Option<Column> {
        self.columns.get(self.left.next()?)
    }

    fn nth(&mut self, n: usize) -> Option<Column> {
        self.columns.get(self.left.nth(n)?)
    }

    fn size_hint(&self) -> (usize, Option<usize>) {
        self.left.size_hint()
    }
}

impl DoubleEndedIterator for ColumnsIntoIter {
    fn next_back(&mut self) -> Option<Column> {
        self.columns.get(self.left.next_back()?)
    }
}

impl ExactSizeIterator for ColumnsIntoIter {}

impl FusedIterator for ColumnsIntoIter {}

/// A list of the columns that are left.
impl fmt::Debug for ColumnsIntoIter {
    fn fmt(&self, f: &mut fmt::Formatter<'_>) -> fmt::Result {
        f.debug_list().entries(self.clone()).finish()
    }
}
