//! A row call written a third time, plainly and with a switch for each fault. Without a fault it answers as the Rust does, which
//! the run is asked to say; with one it is a wrong library, whose fault shows only on some rows, as a real one would.
//! The conversions of single texts are the Rust's, and what they replace is `replaced`'s: `crate::faults` has faults of those.
use super::columns::has_text;
use super::faults::Fault;
use super::port_side::{plain as refused, Asked, Library};
use super::{List, LARGEST_NUMBER, ROW_LIMIT};
use crate::descriptions::{rust_side, COLUMN_LIMIT};
use crate::releases::{is_known, is_named, is_utf16, BY_037, PORTED};
use crate::replaced::Reading;
use db2_proto::fdoca::exposed;
use db2_proto::types::decode_packed_decimal;
use port::column::{Column, Name, Order, Origin};
use port::value::{Sort, Value, VALUE_WORDS};
use port::{Decoded, NO_COLUMN_WORDS, TOO_FEW_WORDS};

pub struct Model(pub Option<Fault>);

/// One call of it.
struct Call {
    fault: Option<Fault>,
    /// The release, as it is taken.
    release: u32,
}

/// A value before it has its place.
struct Found {
    sort: Sort,
    held: Held,
    external: bool,
}

enum Held {
    Number(u64),
    /// Bytes of the column's rest: from where, how many.
    Part(usize, usize),
    Text(Converted),
}

/// A text, and how many U+FFFD were put in.
type Converted = (String, usize);

/// A value and the bytes that it takes, or the bytes that it would take.
type Decision = Result<(Found, usize), usize>;

fn number(sort: Sort, number: u64) -> Found {
    Found {
        sort,
        held: Held::Number(number),
        external: false,
    }
}

fn part(sort: Sort, from: usize, length: usize) -> Found {
    Found {
        sort,
        held: Held::Part(from, length),
        external: false,
    }
}

fn converted(sort: Sort, converted: Converted) -> Found {
    Found {
        sort,
        held: Held::Text(converted),
        external: false,
    }
}

/// A text in which nothing can be malformed.
fn text(sort: Sort, text: String) -> Found {
    converted(sort, (text, 0))
}

impl Found {
    fn external(self, external: bool) -> Found {
        Found { external, ..self }
    }
}

fn need(rest: &[u8], length: usize) -> Result<&[u8], usize> {
    rest.get(..length).ok_or(length)
}

fn all_zero(bytes: &[u8]) -> bool {
    bytes.iter().all(|byte| *byte == 0)
}

fn is_graphic(name: Name) -> bool {
    matches!(name, Name::Graphic | Name::VarGraphic)
}

fn low15(number: u16) -> usize {
    usize::from(number & 0x7FFF)
}

fn too_short(expected: usize, actual: usize) -> Decoded {
    Decoded {
        expected,
        actual,
        ..refused(8)
    }
}

/// The empty value of a LOB.
fn empty_lob(column: &Column) -> Found {
    match column.db2_type.name {
        Name::Blob => part(Sort::Blob, 0, 0),
        Name::Xml => text(Sort::Xml, String::new()),
        _ => text(Sort::Clob, String::new()),
    }
}

/// What 22 may wrongly come after.
const LATE: [(Fault, u32); 7] = [
    (Fault::ReleaseAfterCount, 3),
    (Fault::ReleaseAfterWords, TOO_FEW_WORDS),
    (Fault::ReleaseAfterColumns, NO_COLUMN_WORDS),
    (Fault::ReleaseAfterLength, 4),
    (Fault::ReleaseAfterDecFloat, 5),
    (Fault::ReleaseAfterShort, 8),
    (Fault::ReleaseAfterNine, 9),
];

impl Call {
    fn new(fault: Option<Fault>, release: u32) -> Call {
        let release = match fault {
            Some(Fault::ReleaseIgnored) if release == BY_037 => PORTED,
            Some(Fault::ReleaseAlways3) if release == PORTED => BY_037,
            Some(Fault::ReleaseCutTo8) => release & 0xFF,
            Some(Fault::ReleaseCutTo16) => release & 0xFFFF,
            Some(Fault::ReleaseCutTo31) => release & 0x7FFF_FFFF,
            Some(Fault::LargerReleases) => release.min(BY_037),
            Some(Fault::SmallerReleases) => release.max(PORTED),
            _ => release,
        };
        Call { fault, release }
    }

    fn has(&self, fault: Fault) -> bool {
        self.fault == Some(fault)
    }

    /// Refusal 22, which comes before all others.
    fn unknown(&self, asked: Asked, values: &mut [u64], text: &mut [u8]) -> Decoded {
        if let Some((_, number)) = LATE.into_iter().find(|(fault, _)| self.has(*fault)) {
            let release = PORTED;
            let known = Asked { release, ..asked };
            let other = Model(None).decode_row(known, &mut values.to_vec(), &mut text.to_vec());
            if other.number == number {
                return other;
            }
        }
        let mut unknown = refused(22);
        match self.fault {
            Some(Fault::UnknownWithUsed) => unknown.used = 2,
            Some(Fault::UnknownWithLength) => unknown.text_length = 1,
            Some(Fault::UnknownWithCount) => unknown.replaced = 1,
            Some(Fault::UnknownWritesValues) if !values.is_empty() => values[0] = 0,
            Some(Fault::UnknownWritesText) if !text.is_empty() => text[0] ^= 0x55,
            _ => {}
        }
        unknown
    }

    /// Whether a column's characters are code page 037 for want of a name.
    fn is_by_037(&self, column: &Column) -> bool {
        self.release == BY_037 && !is_named(column.ccsid)
    }

    /// The CCSID by which a column's characters are read.
    fn ccsid(&self, column: &Column) -> u16 {
        let name = column.db2_type.name;
        let guessed = match self.fault {
            Some(Fault::LobCharGuessed) => name == Name::LobChar,
            Some(Fault::LobBytesGuessed) => name == Name::LobBytes,
            Some(Fault::DatesGuessed) => {
                matches!(name, Name::Date | Name::Time | Name::Timestamp)
            }
            Some(Fault::LongGuessed) => name == Name::LongVarChar,
            Some(Fault::GraphicGuessed) => name == Name::Graphic,
            Some(Fault::VarGraphicGuessed) => name == Name::VarGraphic,
            Some(Fault::CharactersGuessed) => {
                !is_graphic(name) && matches!(column.ccsid, 1200 | 13488)
            }
            Some(Fault::OnlyZeroBy037) => column.ccsid != 0,
            Some(Fault::NullableGuessed) => column.nullable,
            _ => false,
        };
        match column.ccsid {
            819 if self.release == BY_037 && self.has(Fault::Latin1By037) => 37,
            _ if self.is_by_037(column) && !guessed => 37,
            own => own,
        }
    }

    /// The columns of the words, if they are columns'.
    fn columns(&self, words: &[u64]) -> Option<Vec<Column>> {
        let (pairs, rest) = words.as_chunks::<2>();
        if !rest.is_empty() && !self.has(Fault::OddWordTaken) {
            return None;
        }
        pairs.iter().map(|pair| self.column(*pair)).collect()
    }

    fn column(&self, [mut first, mut second]: [u64; 2]) -> Option<Column> {
        if self.has(Fault::SpareBitTaken) {
            first &= !(1 << 53);
        }
        if self.has(Fault::OriginThreeTaken) && first >> 51 & 3 == 3 {
            first &= !(1 << 51);
        }
        if self.has(Fault::WidthWithoutBitTaken) && first & 1 << 50 == 0 {
            second &= (1 << 48) - 1;
        }
        let column = self.by_origin(Column::from_words([first, second])?)?;
        let largest = if self.has(Fault::LargeNumberTaken) {
            u16::MAX
        } else {
            LARGEST_NUMBER
        };
        (column.index <= largest).then_some(column)
    }

    /// A column as the row call takes it. Only by a fault it is another, or none, for its origin.
    fn by_origin(&self, column: Column) -> Option<Column> {
        let of_sda = column.origin == Origin::Sda;
        let little = column.order == Order::Little;
        let is_graphic = is_graphic(column.db2_type.name);
        let mut taken = column;
        match self.fault {
            Some(Fault::OriginRefused) if !of_sda => return None,
            Some(Fault::ContradictionRefused) if of_sda != little => return None,
            Some(Fault::DeclaredNullable) if column.origin == Origin::DeclaredLid => {
                taken.nullable = true;
            }
            Some(Fault::SdaLittle) if of_sda => taken.order = Order::Little,
            Some(Fault::LidBig) if !of_sda => taken.order = Order::Big,
            Some(Fault::LidGraphicInBytes) if !of_sda && is_graphic => taken.order = Order::Big,
            Some(Fault::UndeclaredCcsid) if column.origin == Origin::UndeclaredLid => {
                taken.ccsid = 1208;
            }
            _ => {}
        }
        Some(taken)
    }

    /// The refusal before the row is read, if any.
    fn early(&self, words: &[u64], data: &[u8], lent: usize) -> Result<Vec<Column>, Decoded> {
        let count = words.len() / 2;
        let needed = VALUE_WORDS * count;
        let most = if self.has(Fault::ColumnsEarly) {
            COLUMN_LIMIT - 1
        } else {
            COLUMN_LIMIT
        };
        let too_many = || count > most;
        let few = match self.fault {
            Some(Fault::TooFewTaken) => lent + 1 < needed,
            Some(Fault::TooFewEarly) => lent <= needed && count > 0,
            _ => lent < needed,
        };
        let columns = self.columns(words);
        let longest = match self.fault {
            Some(Fault::RowEarly) => ROW_LIMIT - 1,
            Some(Fault::RowLate) => ROW_LIMIT + 1,
            _ => ROW_LIMIT,
        };
        let long = data.len() > longest;
        let decfloat = |columns: &[Column]| {
            let mut names = columns.iter().map(|column| column.db2_type.name);
            match self.fault {
                Some(Fault::DecFloatLast) => names.next_back() == Some(Name::DecFloat),
                _ => names.any(|name| name == Name::DecFloat),
            }
        };
        let too_few = match self.fault {
            Some(Fault::TooFewWithNeeded) => Decoded {
                expected: needed,
                ..refused(TOO_FEW_WORDS)
            },
            Some(Fault::TooFewWithLent) => Decoded {
                text_length: lent,
                ..refused(TOO_FEW_WORDS)
            },
            _ => refused(TOO_FEW_WORDS),
        };
        if few && self.has(Fault::TooFewFirst) {
            return Err(too_few);
        }
        if too_many() {
            return Err(refused(3));
        }
        if columns.is_none() && self.has(Fault::NoColumnFirst) {
            return Err(refused(NO_COLUMN_WORDS));
        }
        if few {
            return Err(too_few);
        }
        if long && self.has(Fault::LongFirst) {
            return Err(refused(4));
        }
        let columns = columns.ok_or(refused(NO_COLUMN_WORDS))?;
        if decfloat(&columns) && self.has(Fault::DecFloatFirst) {
            return Err(refused(5));
        }
        if long {
            return Err(refused(4));
        }
        if decfloat(&columns) && !self.has(Fault::DecFloatDecoded) {
            return Err(refused(5));
        }
        Ok(columns)
    }

    fn skip(&self, data: &[u8]) -> usize {
        match (self.fault, data) {
            (Some(Fault::SkipLooked), [0xFF, second, ..]) if *second != 0 => 0,
            (Some(Fault::SkipOfOne), [0xFF, _, ..]) => 1,
            (Some(Fault::SkipAlone), [0xFF]) => 1,
            (Some(Fault::NoSkip), _) => 0,
            (Some(Fault::SkipOfFE), [0xFE, _, ..]) => 2,
            (_, [0xFF, _, ..]) => 2,
            _ => 0,
        }
    }

    fn is_null(&self, indicator: u8) -> bool {
        match self.fault {
            Some(Fault::HighIndicators) => indicator >= 0x80,
            Some(Fault::AnyIndicator) => indicator != 0,
            _ => indicator == 0xFF,
        }
    }

    /// A text with its count, where these bytes are read so.
    fn counted_in(&self, shown: String, reading: Reading, bytes: &[u8]) -> Converted {
        let replaced = match self.fault {
            Some(Fault::HostsOwnCounted) => shown.matches('\u{FFFD}').count(),
            Some(Fault::BytesCounted) => reading.malformed(bytes).sum(),
            Some(Fault::OneForText) => reading.replaced(bytes).min(1),
            Some(Fault::UnpairedUncounted) if reading == Reading::Utf16 => 0,
            _ => reading.replaced(bytes),
        };
        (shown, replaced)
    }

    fn characters(&self, bytes: &[u8], column: &Column) -> Converted {
        let ccsid = self.ccsid(column);
        let shown = exposed::decode_character_bytes(bytes, ccsid);
        self.counted_in(shown, Reading::of_characters(ccsid), bytes)
    }

    fn graphics(&self, bytes: &[u8], column: &Column) -> Converted {
        let own = match self.fault {
            Some(Fault::EvenUtf16By037) if self.release == BY_037 => false,
            Some(Fault::OddUtf16Guessed) => matches!(column.ccsid, 1200 | 13488),
            _ => is_utf16(column.ccsid, bytes.len()),
        };
        let ccsid = match own {
            true => column.ccsid,
            false => self.ccsid(column),
        };
        let shown = exposed::decode_graphic_bytes(bytes, ccsid);
        self.counted_in(shown, Reading::of_graphics(ccsid, bytes), bytes)
    }

    fn utf8(&self, bytes: &[u8]) -> Converted {
        let shown = String::from_utf8_lossy(bytes).into_owned();
        self.counted_in(shown, Reading::Utf8, bytes)
    }

    /// How many U+FFFD were put into the texts of some values.
    fn replaced(&self, values: &[(Found, usize)]) -> usize {
        let mut counts = values.iter().filter_map(|(found, _)| match &found.held {
            Held::Text((_, replaced)) => Some(*replaced),
            _ => None,
        });
        match self.fault {
            Some(Fault::LastTextCounted) => counts.next_back().unwrap_or(0),
            Some(Fault::OneForRow) => counts.sum::<usize>().min(1),
            _ => counts.sum(),
        }
    }

    /// Refusal 8 at a place of the row, behind some values.
    fn short(
        &self,
        at: usize,
        expected: usize,
        actual: usize,
        values: &[(Found, usize)],
    ) -> Decoded {
        let short = too_short(expected, actual);
        match self.fault {
            Some(Fault::ShortWithCount) => Decoded {
                replaced: self.replaced(values),
                ..short
            },
            Some(Fault::ShortWithUsed) => Decoded { used: at, ..short },
            Some(Fault::ShortSwapped) => too_short(actual, expected),
            _ => short,
        }
    }

    /// Refusal 9 of a row whose texts have so many bytes.
    fn nine(&self, texts: usize, lent: usize, used: usize, replaced: usize) -> Decoded {
        let nine = Decoded {
            text_length: texts,
            ..refused(9)
        };
        match self.fault {
            Some(Fault::NineWithCount) => Decoded { replaced, ..nine },
            Some(Fault::NineLong) => Decoded {
                text_length: texts + 1,
                ..nine
            },
            Some(Fault::NineWithLent) => Decoded {
                actual: lent,
                ..nine
            },
            Some(Fault::NineWithUsed) => Decoded { used, ..nine },
            _ => nine,
        }
    }

    /// The values with their rests' places, and the bytes used; or the refusal.
    fn walk(
        &self,
        columns: &[Column],
        data: &[u8],
    ) -> Result<(Vec<(Found, usize)>, usize), Decoded> {
        let skip = self.skip(data);
        let mut at = skip;
        let mut values = Vec::new();
        let in_zeros = |count: usize| data.len() >= count && all_zero(&data[data.len() - count..]);
        if self.has(Fault::ZerosRefused) && in_zeros(3000) {
            return Err(self.short(at, data.len() + 1, data.len(), &values));
        }
        for (place, column) in columns.iter().enumerate() {
            if column.nullable {
                let from = match self.fault {
                    Some(Fault::IndicatorFromRest) => at,
                    Some(Fault::IndicatorFromRow) => 0,
                    _ => skip,
                };
                let actual = data.len() - from.min(data.len());
                let short = || self.short(at, at + 1 - from, actual, &values);
                let indicator = *data.get(at).ok_or_else(short)?;
                at += 1;
                if self.is_null(indicator) {
                    if self.has(Fault::NullTakesValue) && column.db2_type.name == Name::SmallInt {
                        at = data.len().min(at + 2);
                    }
                    values.push((number(Sort::Null, 0), at));
                    continue;
                }
            }
            if place > 0 && self.has(Fault::OnlyFirst) {
                values.push((number(Sort::Null, 0), at));
                continue;
            }
            let from = if self.has(Fault::ValueFromBody) {
                skip
            } else {
                at
            };
            let (found, used) = self
                .value(&data[at..], column)
                .map_err(|need| self.short(at, at - from + need, data.len() - from, &values))?;
            values.push((found, at));
            at += used;
        }
        if self.has(Fault::UnusedRefused) && at == 0 && data.len() >= 30 {
            return Err(self.short(at, data.len() + 1, data.len(), &values));
        }
        Ok((values, at))
    }

    fn value(&self, rest: &[u8], column: &Column) -> Decision {
        let own = column.db2_type.numbers;
        let [precision, scale] = column.db2_type.precision_and_scale();
        let plain = usize::from(own);
        match column.db2_type.name {
            Name::SmallInt => {
                let bits = self.bits(rest, column, 2)?;
                let wrong = self.has(Fault::SmallIntUnsigned);
                let signed = if wrong { bits } else { bits as i16 as u64 };
                Ok((number(Sort::SmallInt, signed), 2))
            }
            Name::Integer => {
                let bits = self.bits(rest, column, 4)?;
                let wrong = self.has(Fault::IntegerUnsigned);
                let signed = if wrong { bits } else { bits as i32 as u64 };
                Ok((number(Sort::Integer, signed), 4))
            }
            Name::BigInt => Ok((number(Sort::BigInt, self.bits(rest, column, 8)?), 8)),
            Name::Real => {
                let bits = self.bits(rest, column, 4)? as u32;
                Ok((self.real(bits), 4))
            }
            Name::Double => {
                let bits = self.bits(rest, column, 8)?;
                Ok((self.double(bits), 8))
            }
            Name::Decimal => {
                let length = match self.fault {
                    Some(Fault::DecimalByLength) => usize::from(column.length.max(1)),
                    _ => (usize::from(precision) + 2) / 2,
                };
                let scale = if self.has(Fault::ScaleOfColumn) {
                    column.scale
                } else {
                    scale
                };
                let packed = need(rest, length)?;
                let decimal = decode_packed_decimal(packed, precision, scale);
                Ok((text(Sort::Decimal, decimal.expect("it has a byte")), length))
            }
            Name::DecFloat => Ok((number(Sort::Null, 0), 0)),
            Name::Char => {
                let length = match self.fault {
                    Some(Fault::CharByColumn) => usize::from(column.length),
                    _ => plain,
                };
                let bytes = need(rest, length)?;
                let shown = match (self.fault, column.ccsid) {
                    (Some(Fault::CharGraphic), 1200) => self.graphics(bytes, column),
                    _ => self.characters(bytes, column),
                };
                Ok((converted(Sort::Char, shown), length))
            }
            Name::VarChar if own & 0x8000 != 0 => self.header(rest, own),
            Name::VarChar => {
                let (bytes, used) = self.counted(rest, column, 1)?;
                let most = if self.has(Fault::VarCharCut) {
                    plain
                } else {
                    usize::MAX
                };
                let bytes = &bytes[..bytes.len().min(most)];
                let shown = self.characters(bytes, column);
                Ok((converted(Sort::VarChar, shown), used))
            }
            Name::LongVarChar => {
                let (bytes, used) = self.counted(rest, column, 1)?;
                let shown = self.characters(bytes, column);
                let sort = if self.has(Fault::LongIsClob) {
                    Sort::Clob
                } else {
                    Sort::VarChar
                };
                Ok((converted(sort, shown), used))
            }
            Name::Binary => {
                need(rest, plain)?;
                Ok((part(Sort::Binary, 0, plain), plain))
            }
            Name::VarBinary => {
                if own & 0x8000 != 0 && self.has(Fault::VarBinaryHeader) {
                    let (_, used) = self.header(rest, own)?;
                    return Ok((part(Sort::Blob, 0, used).external(true), used));
                }
                let (bytes, used) = self.counted(rest, column, 1)?;
                Ok((part(Sort::Binary, 2, bytes.len()), used))
            }
            Name::Date => self.dated(rest, column, Sort::Date, 10),
            Name::Time => self.dated(rest, column, Sort::Time, 8),
            Name::Timestamp => {
                let length = match (self.fault, column.length) {
                    (Some(Fault::TimestampAlways26), _) => 26,
                    (Some(Fault::TimestampOf0), 0) | (_, 1..) => usize::from(column.length),
                    _ => 26,
                };
                self.dated(rest, column, Sort::Timestamp, length)
            }
            Name::Boolean => {
                let least = if self.has(Fault::BooleanOf0) { 0 } else { 1 };
                let length = usize::from(column.length).max(least);
                let bytes = need(rest, length)?;
                let looked = if self.has(Fault::BooleanFirst) {
                    &bytes[..1]
                } else {
                    bytes
                };
                let truth = !all_zero(looked);
                Ok((number(Sort::Boolean, truth.into()), length))
            }
            Name::Blob | Name::Clob | Name::DbClob | Name::Xml => match column.reference {
                Some(width) => self.reference(rest, column, width.into()),
                None => self.lob(rest, column),
            },
            Name::BlobLocator | Name::ClobLocator | Name::DbClobLocator => {
                let bytes = need(rest, 4)?;
                let empty = self.has(Fault::EmptyLocator) && all_zero(bytes);
                Ok((self.locator(column, bytes, 4).external(!empty), 4))
            }
            Name::LobBytes | Name::LobChar => self.materialized(rest, column),
            Name::RowId => {
                let shown = exposed::format_rowid(need(rest, plain)?);
                let lower = self.has(Fault::LowerRowId);
                let shown = if lower { shown.to_lowercase() } else { shown };
                Ok((text(Sort::RowId, shown), plain))
            }
            Name::Graphic => {
                let length = plain * self.bytes_of_one(column, Fault::GraphicInBytes);
                let shown = self.graphic(need(rest, length)?, column);
                let sort = if self.has(Fault::GraphicIsVarChar) {
                    Sort::VarChar
                } else {
                    Sort::Char
                };
                Ok((converted(sort, shown), length))
            }
            Name::VarGraphic if own & 0x8000 != 0 => self.header(rest, own),
            Name::VarGraphic => {
                let of_one = self.bytes_of_one(column, Fault::VarGraphicInBytes);
                let (bytes, used) = self.counted(rest, column, of_one)?;
                Ok((converted(Sort::VarChar, self.graphic(bytes, column)), used))
            }
            Name::Null => Ok((number(Sort::Null, 0), 0)),
        }
    }

    /// The bits of so many bytes, in the column's order.
    fn bits(&self, rest: &[u8], column: &Column, length: usize) -> Result<u64, usize> {
        let bytes = need(rest, length)?;
        let big = match self.fault {
            Some(Fault::DoubleBig) if column.db2_type.name == Name::Double => true,
            Some(Fault::BigIntLittle) if column.db2_type.name == Name::BigInt => false,
            _ => column.order == Order::Big,
        };
        let add = |bits: u64, byte: &u8| bits << 8 | u64::from(*byte);
        Ok(if big {
            bytes.iter().fold(0, add)
        } else {
            bytes.iter().rev().fold(0, add)
        })
    }

    fn real(&self, bits: u32) -> Found {
        let bits = match self.fault {
            Some(Fault::NanMadeQuiet) if f32::from_bits(bits).is_nan() => bits | 0x0040_0000,
            Some(Fault::SubnormalLost) if f32::from_bits(bits).is_subnormal() => bits & 1 << 31,
            _ => bits,
        };
        let nan = f32::from_bits(bits).is_nan();
        number(if nan { Sort::RealNan } else { Sort::Real }, bits.into())
    }

    fn double(&self, bits: u64) -> Found {
        let bits = match self.fault {
            Some(Fault::MinusZeroLost) if bits == 1 << 63 => 0,
            _ => bits,
        };
        let nan = match self.fault {
            Some(Fault::NanIsDouble) => false,
            Some(Fault::InfinityIsNan) => !f64::from_bits(bits).is_finite(),
            _ => f64::from_bits(bits).is_nan(),
        };
        number(if nan { Sort::DoubleNan } else { Sort::Double }, bits)
    }

    /// Two bytes of length, big-endian, and so many times `of_one` bytes.
    fn counted<'a>(
        &self,
        rest: &'a [u8],
        column: &Column,
        of_one: usize,
    ) -> Result<(&'a [u8], usize), usize> {
        let length = [need(rest, 2)?[0], rest[1]];
        let little = self.has(Fault::LittleLength) && column.order == Order::Little;
        let length = if little {
            u16::from_le_bytes(length)
        } else {
            u16::from_be_bytes(length)
        };
        let total = 2 + of_one * usize::from(length);
        let expected = if self.has(Fault::CountedWithoutLength) {
            total - 2
        } else {
            total
        };
        let bytes = rest.get(..total).ok_or(expected)?;
        if self.has(Fault::LongCountRefused) && total - 2 > 0x7FFF {
            return Err(expected);
        }
        Ok((&bytes[2..], total))
    }

    fn dated(&self, rest: &[u8], column: &Column, sort: Sort, length: usize) -> Decision {
        let length = match (self.fault, sort) {
            (Some(Fault::DateByColumn), Sort::Date) => usize::from(column.length),
            (Some(Fault::TimeOf10), Sort::Time) => 10,
            _ => length,
        };
        let (shown, replaced) = self.characters(need(rest, length)?, column);
        let replaced = match self.fault {
            Some(Fault::DatesUncounted) => 0,
            _ => replaced,
        };
        Ok((converted(sort, (shown, replaced)), length))
    }

    /// How many bytes a length of a graphic column counts as one.
    fn bytes_of_one(&self, column: &Column, never: Fault) -> usize {
        let little = column.order == Order::Little || self.has(Fault::GraphicBigDoubled);
        let utf16 =
            column.ccsid == 1200 || column.ccsid == 13488 && self.has(Fault::Graphic13488Doubled);
        let by_release = self.has(Fault::ReleaseInExtents) && self.release == BY_037;
        if little && utf16 && !self.has(never) && !by_release {
            2
        } else {
            1
        }
    }

    fn graphic(&self, bytes: &[u8], column: &Column) -> Converted {
        if self.has(Fault::GraphicLittle) && column.order == Order::Little && bytes.len() % 2 == 0 {
            let turned: Vec<u8> = bytes
                .chunks(2)
                .flat_map(|unit| [unit[1], unit[0]])
                .collect();
            return self.graphics(&turned, column);
        }
        self.graphics(bytes, column)
    }

    /// A flagged VarChar or VarGraphic.
    fn header(&self, rest: &[u8], own: u16) -> Decision {
        let of_value = match rest {
            [high, low, ..] => Some(u16::from_be_bytes([*high, *low])),
            _ => None,
        };
        let of_value =
            of_value.filter(|length| length & 0x8000 != 0 && !self.has(Fault::HeaderLengthUnread));
        let (start, length) = match of_value {
            Some(length) => (2, low15(length)),
            None => (0, low15(own)),
        };
        let total = start + length;
        let header = &need(rest, total)?[start..];
        let reference = header.len() >= 9 && header[0] == 0x02;
        let empty = match self.fault {
            Some(Fault::HeaderOfZeros) => all_zero(header) || reference && all_zero(&header[1..9]),
            Some(Fault::HeaderEnd) => reference && all_zero(&header[1..]),
            Some(Fault::HeaderFirst) => header.len() >= 9 && all_zero(&header[1..9]),
            _ => reference && all_zero(&header[1..9]),
        };
        if empty {
            return Ok((text(Sort::Clob, String::new()), total));
        }
        let external = !self.has(Fault::HeaderNotExternal);
        let header = if self.has(Fault::HeaderWithLength) {
            &rest[..total]
        } else {
            header
        };
        let shown = exposed::format_lob_locator(header);
        Ok((text(Sort::Clob, shown).external(external), total))
    }

    /// The value that shows a reference, or a locator, of `used` bytes.
    fn locator(&self, column: &Column, bytes: &[u8], used: usize) -> Found {
        match column.db2_type.name {
            Name::Blob | Name::BlobLocator => {
                let most = if self.has(Fault::BlobShowsAll) {
                    used
                } else {
                    4
                };
                part(Sort::Blob, 0, used.min(most))
            }
            Name::Xml => text(Sort::Xml, exposed::format_lob_locator(bytes)),
            _ => text(Sort::Clob, exposed::format_lob_locator(bytes)),
        }
        .external(true)
    }

    /// A LOB with a reference length.
    fn reference(&self, rest: &[u8], column: &Column, width: usize) -> Decision {
        let bytes = need(rest, width)?;
        let nine = width >= 9 && bytes[0] == 0x02;
        let empty = match self.fault {
            Some(Fault::ReferenceOfZeros) => nine && all_zero(&bytes[1..]),
            Some(Fault::ReferenceEnd) => all_zero(bytes) || nine && all_zero(&bytes[1..9]),
            _ => all_zero(bytes) || nine && all_zero(&bytes[1..]),
        };
        let empty = empty || width == 0;
        if empty {
            return Ok((empty_lob(column), width));
        }
        let external = !self.has(Fault::ReferenceNotExternal);
        Ok((self.locator(column, bytes, width).external(external), width))
    }

    /// A LOB without one.
    fn lob(&self, rest: &[u8], column: &Column) -> Decision {
        let is_xml = column.db2_type.name == Name::Xml;
        need(rest, 4)?;
        let least = if self.has(Fault::ReferenceOf10) {
            10
        } else {
            9
        };
        let looked = !(is_xml && self.has(Fault::XmlAlwaysInline))
            && !(column.length != 0 && self.has(Fault::ReferenceOfLength0));
        if rest.len() >= least && rest[0] == 0x02 && looked {
            let bytes = &rest[..9];
            if all_zero(&bytes[1..]) {
                return Ok((empty_lob(column), 9));
            }
            return Ok((self.locator(column, bytes, 9), 9));
        }
        if column.length == 0 && (!is_xml || self.has(Fault::XmlLocator)) {
            let bytes = &rest[..4];
            if self.has(Fault::LocatorOfZeros) && all_zero(bytes) {
                return Ok((empty_lob(column), 4));
            }
            return Ok((self.locator(column, bytes, 4), 4));
        }
        let length = u32::from_be_bytes([rest[0], rest[1], rest[2], rest[3]]);
        let length = if self.has(Fault::InlineOf16) {
            length & 0xFFFF
        } else {
            length
        };
        let total = 4 + length as usize;
        let bytes = &need(rest, total)?[4..];
        let shown = || match self.fault {
            Some(Fault::InlineByCcsid) => self.characters(bytes, column),
            Some(Fault::InlineBy037) if self.is_by_037(column) => self.characters(bytes, column),
            Some(Fault::InlineUncounted) => (self.utf8(bytes).0, 0),
            _ => self.utf8(bytes),
        };
        let found = match column.db2_type.name {
            Name::Blob => part(Sort::Blob, 4, bytes.len()),
            Name::Xml => converted(Sort::Xml, shown()),
            _ => converted(Sort::Clob, shown()),
        };
        Ok((found, total))
    }

    /// LobBytes and LobChar.
    fn materialized(&self, rest: &[u8], column: &Column) -> Decision {
        let is_bytes = column.db2_type.name == Name::LobBytes;
        let own = column.db2_type.numbers;
        let length = if self.has(Fault::LobBitKept) {
            own.into()
        } else {
            low15(own)
        };
        if rest.len() < length {
            return self.short_reference(rest, is_bytes, length).ok_or(length);
        }
        let bytes = &rest[..length];
        let by_037 = self.is_by_037(column);
        let likely = !is_bytes
            || match self.fault {
                Some(Fault::LikelyAfterConversion) if by_037 => {
                    let (shown, _) = self.characters(bytes, column);
                    exposed::bytes_are_likely_text(shown.as_bytes())
                }
                Some(Fault::LobBytesAlwaysText) => true,
                Some(Fault::EmptyLobIsBlob) => length > 0 && exposed::bytes_are_likely_text(bytes),
                _ => exposed::bytes_are_likely_text(bytes),
            };
        let shown = || match self.fault {
            Some(Fault::LikelyAsUtf8) if is_bytes => self.utf8(bytes),
            Some(Fault::LobCharUtf8) if by_037 && !is_bytes => self.utf8(bytes),
            Some(Fault::LobBytesUtf8) if by_037 && is_bytes => self.utf8(bytes),
            Some(Fault::LobCharUncounted) if !is_bytes => (self.characters(bytes, column).0, 0),
            _ => self.characters(bytes, column),
        };
        let found = match (likely, is_bytes) {
            (true, true) => converted(Sort::VarChar, shown()),
            (true, false) => converted(Sort::Clob, shown()),
            (false, _) => part(Sort::Blob, 0, length),
        };
        Ok((found, length))
    }

    /// All that is left, where it is a reference.
    fn short_reference(
        &self,
        rest: &[u8],
        is_bytes: bool,
        length: usize,
    ) -> Option<(Found, usize)> {
        let least = match self.fault {
            Some(Fault::Lob1025) => 1025,
            Some(Fault::Lob1023) => 1023,
            _ => 1024,
        };
        let bytes = if self.has(Fault::Lob17) { 17 } else { 16 };
        let is_digit = |byte: &&u8| match self.fault {
            Some(Fault::LobUpperOnly) => matches!(byte, b'0'..=b'9' | b'A'..=b'F'),
            Some(Fault::LobLetterG) => byte.is_ascii_hexdigit() || **byte == b'G',
            _ => byte.is_ascii_hexdigit(),
        };
        let looked = if self.has(Fault::LobFirst16) {
            &rest[..rest.len().min(16)]
        } else {
            rest
        };
        let digits = looked.iter().filter(is_digit).count();
        let enough = if self.has(Fault::Lob15Digits) { 15 } else { 16 };
        if length < least || rest.len() < bytes || digits < enough {
            return None;
        }
        let used = if self.has(Fault::LobTakes16) {
            16
        } else {
            rest.len()
        };
        let found = match is_bytes {
            true => part(Sort::Blob, 0, used),
            false => text(Sort::Clob, exposed::format_lob_locator(&rest[..used])),
        };
        Some((found.external(!self.has(Fault::LobNotExternal)), used))
    }

    /// By a fault a malformed text is taken for well-formed where another is so: a question mark here stands for each malformed part.
    fn taken_for_good(&self, values: &mut [(Found, usize)]) {
        let other = |good: &[Option<bool>], place: usize| match self.fault {
            Some(Fault::FoundOfLast) => good[place.checked_sub(1)?],
            Some(Fault::FoundOf64Before) => good[place.checked_sub(64)?],
            _ => None,
        };
        let is_good = |(found, _): &(Found, usize)| match &found.held {
            Held::Text((shown, _)) => Some(!shown.contains('\u{FFFD}')),
            _ => None,
        };
        let good: Vec<Option<bool>> = values.iter().map(is_good).collect();
        for (place, (found, _)) in values.iter_mut().enumerate() {
            if let (Held::Text((shown, _)), Some(true)) = (&mut found.held, other(&good, place)) {
                *shown = shown.replace('\u{FFFD}', "?");
            }
        }
    }

    /// The words of the values, and the texts.
    fn placed(&self, values: Vec<(Found, usize)>, skip: usize) -> (Vec<u64>, Vec<u8>) {
        let mut words = Vec::new();
        let mut texts = Vec::new();
        for (place, (found, rest)) in values.into_iter().enumerate() {
            let (mut number, mut length) = match found.held {
                Held::Number(number) => (number, 0),
                Held::Part(from, 0) if self.has(Fault::EmptyBinaryPlace) => {
                    ((rest + from) as u64, 0)
                }
                Held::Part(_, 0) => (0, 0),
                Held::Part(from, length) if self.has(Fault::PlaceFromBody) => {
                    ((rest + from - skip) as u64, length as u64)
                }
                Held::Part(from, length) => ((rest + from) as u64, length as u64),
                Held::Text((shown, _)) => {
                    let start = texts.len();
                    texts.extend_from_slice(shown.as_bytes());
                    (start as u64, shown.len() as u64)
                }
            };
            let held = found.sort.held();
            match self.fault {
                Some(Fault::EmptyTextAt0) if held == port::value::Held::Text && length == 0 => {
                    number = 0
                }
                Some(Fault::LengthOfNumber) if found.sort == Sort::BigInt => length = 8,
                _ => {}
            }
            let external = found.external && !(self.has(Fault::ExternalOfFirst8) && place >= 8);
            let value = Value {
                sort: found.sort,
                external,
                number,
                length,
            };
            let mut value = value.words();
            if self.has(Fault::SpareValueBit) && external {
                value[0] |= 1 << 9;
            }
            words.extend(value);
        }
        (words, texts)
    }

    /// Hands an accepted row out, or refuses it for want of text space.
    fn hand_out(
        &self,
        (words, texts): (Vec<u64>, Vec<u8>),
        used: usize,
        replaced: usize,
        values: &mut [u64],
        text: &mut [u8],
    ) -> Decoded {
        let fits = match self.fault {
            Some(Fault::NineAtFit) => texts.len() < text.len() || texts.is_empty(),
            Some(Fault::NineLate) => texts.len() <= text.len() + 1,
            _ => texts.len() <= text.len(),
        };
        if !fits {
            match self.fault {
                Some(Fault::NineWritesText) if !text.is_empty() => text[0] ^= 0x55,
                Some(Fault::NineWritesValues) if !values.is_empty() => values[0] ^= 0x55,
                _ => {}
            }
            return self.nine(texts.len(), text.len(), used, replaced);
        }
        let taken = words.len().min(values.len());
        values[..taken].copy_from_slice(&words[..taken]);
        let shown = texts.len().min(text.len());
        if !self.has(Fault::NoText) {
            text[..shown].copy_from_slice(&texts[..shown]);
        }
        if self.has(Fault::WordAfterChanged) && values.len() > words.len() {
            values[words.len()] = 0;
        }
        if self.has(Fault::ByteAfterChanged) && text.len() > texts.len() + 20 {
            text[texts.len()] = 0;
        }
        let text_length = if self.has(Fault::TextsCountedWrong) {
            used
        } else {
            texts.len()
        };
        let expected = if self.has(Fault::ExpectedLeft) {
            used
        } else {
            0
        };
        let large = text.len() > texts.len() + 20;
        let replaced = if self.has(Fault::UncountedInLarge) && large {
            0
        } else {
            replaced
        };
        Decoded {
            used,
            text_length,
            replaced,
            expected,
            ..refused(0)
        }
    }
}

impl Library for Model {
    /// The other call, which has no fault here but those of this one.
    fn replaced_by_value(
        &self,
        description: &[u8],
        data: &[u8],
        release: u32,
        text: &mut [u8],
    ) -> usize {
        let (fault, release) = match self.0 {
            Some(Fault::ByValueUncountedInLarge) => (Some(Fault::UncountedInLarge), release),
            Some(Fault::ByValueNineWithCount) => (Some(Fault::NineWithCount), release),
            Some(Fault::ByValueShortWithCount) => (Some(Fault::ShortWithCount), release),
            Some(Fault::ByValueReleaseIgnored) => (Some(Fault::ReleaseIgnored), release),
            Some(Fault::ByValueReleaseCut) => (Some(Fault::ReleaseCutTo8), release),
            Some(Fault::ByValueUnknownTaken) if !is_known(release) => (None, PORTED),
            _ => (None, release),
        };
        let Some(columns) = rust_side::columns(description) else {
            return 0;
        };
        let mut values = vec![0; VALUE_WORDS * columns.len()];
        let list = List::of(&columns);
        let asked = list.asked(data, release);
        let decoded = Model(fault).decode_row(asked, &mut values, text);
        match self.0 {
            Some(Fault::ByValueUncounted) => 0,
            _ => decoded.replaced,
        }
    }

    fn decode_row(&self, asked: Asked, values: &mut [u64], text: &mut [u8]) -> Decoded {
        let Asked {
            columns,
            data,
            release,
        } = asked;
        let call = Call::new(self.0, release);
        let without_text = || {
            let columns = call.columns(columns).unwrap_or_default();
            !columns.iter().any(|column| has_text(column.db2_type.name))
        };
        let taken = call.has(Fault::UnknownWithoutTexts) && without_text();
        if !is_known(call.release) && !taken {
            return call.unknown(asked, values, text);
        }
        let columns = match call.early(columns, data, values.len()) {
            Ok(columns) => columns,
            Err(refusal) => return refusal,
        };
        let (mut found, used) = match call.walk(&columns, data) {
            Ok(walked) => walked,
            Err(refusal) => {
                if call.has(Fault::ShortWritesValues) && !values.is_empty() {
                    values[0] = 0;
                }
                return refusal;
            }
        };
        call.taken_for_good(&mut found);
        let skip = call.skip(data);
        let counted = if call.has(Fault::UsedWithoutSkip) {
            used - skip
        } else {
            used
        };
        let replaced = call.replaced(&found);
        call.hand_out(call.placed(found, skip), counted, replaced, values, text)
    }
}
