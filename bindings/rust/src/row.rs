//! Rows, one by one.
use crate::raw::{
    self, ACCEPTED, BUFFER_TOO_SHORT, COLUMN_WORDS, TEXT_BUFFER_TOO_SHORT, VALUE_WORDS,
};
use crate::{Column, Columns, OwnedValue, Refusal, Value};
use std::fmt;
use std::iter::FusedIterator;
use std::slice::{self, ChunksExact};
use std::vec;

// No row of so many bytes and columns has longer texts. Where the buffer is as long, the library need not measure the texts before it
// writes them.
fn ample(bytes: usize, columns: usize) -> usize {
    3 * bytes + 258 * columns
}

// The most that is set aside before a row asks for it.
const ROOM: usize = 65_536;

// That texts are UTF-8, and that each place fits, is proved (crates/rules, TextsUtf8 and PlacesFit). Asked again here, it needs no
// `unsafe`.
const UTF8: &str = "the library's texts are UTF-8";
const PLACES: &str = "every place of an accepted row fits";

/// Room for a row's values and texts, to be used for one row after another. It never shrinks. It grows to what any texts of an input as long
/// may need, though not beyond 65,536 bytes before a row asks for more: once it is wide enough, no call allocates.
#[derive(Clone, Default)]
pub struct Buffers {
    values: Vec<u64>,
    text: Vec<u8>,
}

/// What an accepted row left in the buffers.
#[derive(Clone, Copy)]
pub(crate) struct Filled {
    /// The words of its values.
    words: usize,
    /// The bytes of its texts.
    text: usize,
    /// The characters in them that were replaced.
    replaced: usize,
    /// The bytes of the input that it takes.
    pub(crate) used: usize,
}

impl Buffers {
    /// Without any room yet.
    pub fn new() -> Buffers {
        Buffers::default()
    }

    /// With room for so many bytes of text.
    pub fn with_text(bytes: usize) -> Buffers {
        Buffers {
            values: Vec::new(),
            text: vec![0; bytes],
        }
    }

    /// Decodes a row. The second turn, with at least the length that the first asked for, is the last.
    pub(crate) fn fill(
        &mut self,
        data: &[u8],
        columns: &Columns,
        release: u32,
    ) -> Result<Filled, Refusal> {
        let words = VALUE_WORDS * columns.len();
        if self.values.len() < words {
            self.values.resize(words, 0);
        }
        let room = ample(data.len(), columns.len()).min(ROOM);
        if self.text.len() < room {
            self.text.resize(room, 0);
        }
        loop {
            let answer = raw::decode_row(
                columns.words(),
                data,
                release,
                &mut self.values,
                &mut self.text,
            );
            match answer.number {
                ACCEPTED => {
                    return Ok(Filled {
                        words,
                        text: answer.text_length,
                        replaced: answer.replaced,
                        used: answer.used,
                    })
                }
                TEXT_BUFFER_TOO_SHORT => {
                    let room = answer.text_length.max(2 * self.text.len());
                    self.text.resize(room, 0);
                }
                BUFFER_TOO_SHORT => {
                    return Err(Refusal::BufferTooShort {
                        column: self.short_column(data, columns, release),
                        expected: answer.expected,
                        actual: answer.actual,
                    })
                }
                number => return Err(Refusal::from_number(number)),
            }
        }
    }

    // The column at which a row is too short. So many columns from the first on are too short where that one is among them, and not else:
    // what a column reads does not depend on those behind it. No text is written meanwhile: for want of room the library only measures
    // it.
    #[cold]
    fn short_column(&mut self, data: &[u8], columns: &Columns, release: u32) -> usize {
        let (mut enough, mut short) = (0, columns.len());
        while short - enough > 1 {
            let middle = enough + (short - enough) / 2;
            let first = &columns.words()[..COLUMN_WORDS * middle];
            match raw::decode_row(first, data, release, &mut self.values, &mut []).number {
                BUFFER_TOO_SHORT => short = middle,
                _ => enough = middle,
            }
        }
        enough
    }

    /// The row that `fill` decoded from these bytes.
    pub(crate) fn row<'a>(&'a self, data: &'a [u8], filled: Filled) -> Row<'a> {
        Row {
            data,
            words: &self.values[..filled.words],
            text: std::str::from_utf8(&self.text[..filled.text]).expect(UTF8),
            replaced: filled.replaced,
            used: filled.used,
        }
    }
}

/// How much room there is.
impl fmt::Debug for Buffers {
    fn fmt(&self, f: &mut fmt::Formatter<'_>) -> fmt::Result {
        f.debug_struct("Buffers")
            .field("values", &(self.values.len() / VALUE_WORDS))
            .field("text_bytes", &self.text.len())
            .finish()
    }
}

/// A decoded row. Its values live as long as the input and the buffers, also where the `Row` itself is gone.
#[derive(Clone, Copy)]
pub struct Row<'a> {
    data: &'a [u8],
    words: &'a [u64],
    text: &'a str,
    replaced: usize,
    used: usize,
}

/// The values of a row, with texts and bytes of their own; [`Columns::decode_row`] is the same for columns in that form. Where there are many
/// rows, [`decode_row_into`] saves what this allocates, and [`Rows`](crate::Rows) goes through rows that lie one after the other.
///
/// Where the input has two bytes or more and begins with FF, these two are skipped, whatever the second is: a host may send FF 00 before a row. So
/// a row without them must not begin FF, be it the indicator of a Null or a number below 0. Bytes behind the row do not change it, save for the few columns that do not
/// carry their own end (W9 in `docs/RULES.md`); they count for [`MAX_INPUT`](crate::MAX_INPUT).
///
/// The release is the [host's](crate#the-hosts-release), 2 or 3. It decides how texts are read whose CCSIDs the library does not
/// know, and nothing else.
///
/// # Errors
/// The first of these that applies: [`Refusal::UnknownRelease`], [`Refusal::CountTooLarge`], [`Refusal::InputTooLong`],
/// [`Refusal::DecFloatColumn`] and [`Refusal::BufferTooShort`].
///
/// ```
/// use vejupa::{decode_row, parse_whole_qrydsc, Value};
/// let columns = parse_whole_qrydsc(&[0x09, 0x76, 0xD0, 0x05, 0x00, 0x02, 0x0F, 0x05, 0x02])?;
/// let row = decode_row(&[0x00, 0x00, 0x2A, 0x00, 0x12, 0x34, 0x5C], &columns, 2)?;
/// assert_eq!(row.values, [Value::SmallInt(42), Value::Decimal("123.45")]);
/// assert_eq!(row.used, 7);
/// # Ok::<(), vejupa::Refusal>(())
/// ```
///
/// A blank field of a CCSID that the library does not know:
///
/// ```
/// use vejupa::{decode_row, Column, Db2Type, Value};
/// let columns = [Column::new(Db2Type::Char(4)).with_ccsid(1047)];
/// assert_eq!(decode_row(&[0x40; 4], &columns, 2)?.values, [Value::Char("@@@@")]);
/// assert_eq!(decode_row(&[0x40; 4], &columns, 3)?.values, [Value::Char("    ")]);
/// # Ok::<(), vejupa::Refusal>(())
/// ```
pub fn decode_row(data: &[u8], columns: &[Column], release: u32) -> Result<OwnedRow, Refusal> {
    Columns::from(columns).decode_row(data, release)
}

/// The values of a row, in lent buffers: the form for many rows. What [`decode_row`] says of a first byte FF and of the release holds here
/// too.
///
/// # Errors
/// As [`decode_row`].
///
/// ```
/// use vejupa::{decode_row_into, Buffers, Columns};
/// let columns = Columns::parse_whole(&[0x05, 0x70, 0x02, 0x00, 0x04])?;
/// let mut buffers = Buffers::new();
/// let mut sum = 0;
/// for bytes in [[0x2A, 0, 0, 0], [0x01, 0, 0, 0]] {
///     let row = decode_row_into(&bytes, &columns, 2, &mut buffers)?;
///     sum += row.value(0).as_i64().expect("an Integer that is not null");
/// }
/// assert_eq!(sum, 43);
/// # Ok::<(), vejupa::Refusal>(())
/// ```
pub fn decode_row_into<'a>(
    data: &'a [u8],
    columns: &Columns,
    release: u32,
    buffers: &'a mut Buffers,
) -> Result<Row<'a>, Refusal> {
    let filled = buffers.fill(data, columns, release)?;
    Ok(buffers.row(data, filled))
}

impl<'a> Row<'a> {
    /// How many values there are: as many as columns.
    #[inline]
    pub fn len(&self) -> usize {
        self.words.len() / VALUE_WORDS
    }

    /// Whether there are none.
    pub fn is_empty(&self) -> bool {
        self.words.is_empty()
    }

    /// The value of column k, from 0.
    ///
    /// # Panics
    /// Where there is no such column.
    #[track_caller]
    #[inline]
    pub fn value(&self, k: usize) -> Value<'a> {
        value(self.words_of(k), self.data, self.text)
    }

    /// The value of column k, where there is one.
    #[inline]
    pub fn get(&self, k: usize) -> Option<Value<'a>> {
        self.find(k).map(|words| value(words, self.data, self.text))
    }

    /// The values in the columns' order.
    #[inline]
    pub fn values(&self) -> Values<'a> {
        Values {
            words: self.words.chunks_exact(VALUE_WORDS),
            data: self.data,
            text: self.text,
        }
    }

    /// The bytes of the value of column k, a part of the row or of [`Row::text`]: empty for a number, a Boolean and Null. It is the
    /// library's own accessor; the places that [`Row::value`] takes are tested here, in Rust.
    ///
    /// # Panics
    /// Where there is no such column.
    #[track_caller]
    pub fn value_bytes(&self, k: usize) -> &'a [u8] {
        raw::value_bytes(self.words_of(k), self.data, self.text.as_bytes())
    }

    /// Whether the value of column k refers to data outside of the row, which come apart (EXTDTA).
    ///
    /// # Panics
    /// Where there is no such column.
    #[track_caller]
    #[inline]
    pub fn is_external(&self, k: usize) -> bool {
        is_external(self.words_of(k))
    }

    /// The columns whose values refer to data outside of the row.
    pub fn external_columns(&self) -> impl DoubleEndedIterator<Item = usize> + 'a {
        let words = self.words.chunks_exact(VALUE_WORDS).enumerate();
        words.filter_map(|(k, words)| is_external(words).then_some(k))
    }

    /// How many bytes of the input the row takes, counted from its first one. The next row of a block begins there.
    #[inline]
    pub fn used(&self) -> usize {
        self.used
    }

    /// How many characters of the texts stand for what was malformed: a U+FFFD for each malformed part of UTF-8 that is as long as can be and
    /// for each unpaired surrogate of UTF-16. A U+FFFD that the host itself sent is not counted.
    ///
    /// ```
    /// use vejupa::{decode_row_into, Buffers, Column, Columns, Db2Type, Value};
    /// let columns = Columns::from([Column::new(Db2Type::VarChar(8)).with_ccsid(1208)]);
    /// let mut buffers = Buffers::new();
    /// let row = decode_row_into(b"\x00\x05cr\xC3me", &columns, 2, &mut buffers)?;
    /// assert_eq!(row.value(0), Value::VarChar("cr\u{FFFD}me"));
    /// assert_eq!(row.replaced(), 1);
    /// # Ok::<(), vejupa::Refusal>(())
    /// ```
    #[inline]
    pub fn replaced(&self) -> usize {
        self.replaced
    }

    /// The texts of all values, one after the other.
    #[inline]
    pub fn text(&self) -> &'a str {
        self.text
    }

    /// The values' words, three a value; `include/vejupa.h` has their layout. Places of texts are places in [`Row::text`].
    pub fn words(&self) -> &'a [u64] {
        self.words
    }

    /// The row with texts and bytes of its own.
    pub fn into_owned(self) -> OwnedRow {
        OwnedRow {
            values: self.values().map(Value::into_owned).collect(),
            external_columns: self.external_columns().collect(),
            used: self.used,
            replaced: self.replaced,
        }
    }

    #[inline]
    fn find(&self, k: usize) -> Option<&'a [u64; VALUE_WORDS]> {
        let at = k.checked_mul(VALUE_WORDS)?;
        self.words.get(at..)?.first_chunk()
    }

    #[track_caller]
    #[inline]
    fn words_of(&self, k: usize) -> &'a [u64; VALUE_WORDS] {
        match self.find(k) {
            Some(words) => words,
            None => no_column(k, self.len()),
        }
    }
}

#[inline]
fn value<'a>(words: &[u64], data: &'a [u8], text: &'a str) -> Value<'a> {
    Value::from_words([words[0], words[1], words[2]], data, text).expect(PLACES)
}

#[inline]
fn is_external(words: &[u64]) -> bool {
    words[0] >> 8 & 1 == 1
}

#[cold]
#[track_caller]
fn no_column(k: usize, count: usize) -> ! {
    let s = if count == 1 { "" } else { "s" };
    panic!("column {k} of a row of {count} column{s}, which count from 0");
}

/// The values, the external columns, the bytes used and the characters replaced.
impl fmt::Debug for Row<'_> {
    fn fmt(&self, f: &mut fmt::Formatter<'_>) -> fmt::Result {
        let external_columns: Vec<usize> = self.external_columns().collect();
        f.debug_struct("Row")
            .field("values", &self.values())
            .field("external_columns", &external_columns)
            .field("used", &self.used)
            .field("replaced", &self.replaced)
            .finish()
    }
}

/// The same values, the same external columns, as many bytes used and characters replaced; wherever the bytes lie.
impl PartialEq for Row<'_> {
    fn eq(&self, other: &Row<'_>) -> bool {
        self.used == other.used
            && self.replaced == other.replaced
            && self.values().eq(other.values())
            && self.external_columns().eq(other.external_columns())
    }
}

impl PartialEq<OwnedRow> for Row<'_> {
    fn eq(&self, other: &OwnedRow) -> bool {
        self.used == other.used
            && self.replaced == other.replaced
            && self
                .values()
                .eq(other.values.iter().map(OwnedValue::as_value))
            && self
                .external_columns()
                .eq(other.external_columns.iter().copied())
    }
}

impl<'a> IntoIterator for Row<'a> {
    type Item = Value<'a>;
    type IntoIter = Values<'a>;

    fn into_iter(self) -> Values<'a> {
        self.values()
    }
}

impl<'a> IntoIterator for &Row<'a> {
    type Item = Value<'a>;
    type IntoIter = Values<'a>;

    fn into_iter(self) -> Values<'a> {
        self.values()
    }
}

/// The values of a row, in the columns' order.
#[derive(Clone)]
#[must_use = "iterators do nothing unless they are used"]
pub struct Values<'a> {
    words: ChunksExact<'a, u64>,
    data: &'a [u8],
    text: &'a str,
}

impl<'a> Iterator for Values<'a> {
    type Item = Value<'a>;

    #[inline]
    fn next(&mut self) -> Option<Value<'a>> {
        let words = self.words.next()?;
        Some(value(words, self.data, self.text))
    }

    #[inline]
    fn nth(&mut self, n: usize) -> Option<Value<'a>> {
        let words = self.words.nth(n)?;
        Some(value(words, self.data, self.text))
    }

    #[inline]
    fn size_hint(&self) -> (usize, Option<usize>) {
        self.words.size_hint()
    }
}

impl DoubleEndedIterator for Values<'_> {
    #[inline]
    fn next_back(&mut self) -> Option<Self::Item> {
        let words = self.words.next_back()?;
        Some(value(words, self.data, self.text))
    }
}

impl ExactSizeIterator for Values<'_> {}

impl FusedIterator for Values<'_> {}

/// A list of the values that are left.
impl fmt::Debug for Values<'_> {
    fn fmt(&self, f: &mut fmt::Formatter<'_>) -> fmt::Result {
        f.debug_list().entries(self.clone()).finish()
    }
}

/// A decoded row with texts and bytes of its own.
#[derive(Debug, Clone, PartialEq, Default)]
#[non_exhaustive]
pub struct OwnedRow {
    /// The values, as many as columns.
    pub values: Vec<OwnedValue>,
    /// The columns whose values refer to data outside of the row, which come apart (EXTDTA), in order.
    pub external_columns: Vec<usize>,
    /// How many bytes of the input the row takes, counted from its first one. The next row of a block begins there.
    pub used: usize,
    /// How many characters of the texts stand for what was malformed, as [`Row::replaced`] counts them.
    pub replaced: usize,
}

impl OwnedRow {
    /// Whether the value of column k refers to data outside of the row.
    pub fn is_external(&self, k: usize) -> bool {
        self.external_columns.contains(&k)
    }
}

impl From<Row<'_>> for OwnedRow {
    fn from(row: Row<'_>) -> OwnedRow {
        row.into_owned()
    }
}

impl IntoIterator for OwnedRow {
    type Item = OwnedValue;
    type IntoIter = vec::IntoIter<OwnedValue>;

    fn into_iter(self) -> vec::IntoIter<OwnedValue> {
        self.values.into_iter()
    }
}

impl<'a> IntoIterator for &'a OwnedRow {
    type Item = &'a OwnedValue;
    type IntoIter = slice::Iter<'a, OwnedValue>;

    fn into_iter(self) -> slice::Iter<'a, OwnedValue> {
        self.values.iter()
    }
}
