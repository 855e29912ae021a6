//! The answers of the published Rust. It has no limits of its own: those of the port are applied here. Nor does it say where a column came from, or whether a
//! description breaks off: those are second opinions, of `origins` and `wholeness`.
use super::wholeness::{self, Zeros};
use super::{
    origins, Answers, Description, FixedLength, BREAKS_OFF, COLUMN_LIMIT, DESCRIPTION_LIMIT,
};
use db2_proto::fdoca::{parse_qrydsc, ByteOrder, ColumnDescriptor};
use db2_proto::types::Db2Type;
use port::column::{Column, Name, Order, Origin, Type};

pub fn answers(data: &[u8]) -> Answers {
    answers_by(data, Zeros::IfCut)
}

/// `Parser::Ported` refuses by 1, then 2; `Parser::Whole` by 1, 15, 2.
pub fn answers_by(data: &[u8], zeros: Zeros) -> Answers {
    if data.len() > DESCRIPTION_LIMIT {
        return Answers {
            ported: Description::Refusal(1),
            whole: Description::Refusal(1),
        };
    }
    let published = parsed(data);
    let is_whole = wholeness::is_whole(data, published.len(), zeros);
    let ported = match with_origins(data, &published) {
        None => Description::Refusal(2),
        Some(columns) => Description::Columns {
            columns,
            broken_off: !is_whole,
        },
    };
    let whole = match is_whole {
        false => Description::Refusal(BREAKS_OFF),
        true => ported.clone(),
    };
    Answers { ported, whole }
}

/// The columns that `Parser::Ported` accepts; None where it refuses.
pub fn columns(data: &[u8]) -> Option<Vec<Column>> {
    let fits = data.len() <= DESCRIPTION_LIMIT;
    fits.then(|| with_origins(data, &parsed(data))).flatten()
}

/// None where there are too many.
fn with_origins(data: &[u8], published: &[ColumnDescriptor]) -> Option<Vec<Column>> {
    if published.len() > COLUMN_LIMIT {
        return None;
    }
    let origins = origins::of(data, published);
    let both = published.iter().zip(origins);
    Some(
        both.map(|(published, origin)| column(published, origin))
            .collect(),
    )
}

/// The columns that the Rust gives, without limits.
pub fn parsed(data: &[u8]) -> Vec<ColumnDescriptor> {
    parse_qrydsc(data).expect("the Rust refuses no description")
}

pub fn fixed_length(asked: Type) -> FixedLength {
    match published_type(asked).fixed_length() {
        Some(length) => FixedLength::Bytes(length),
        None => FixedLength::Varies,
    }
}

fn column(column: &ColumnDescriptor, origin: Origin) -> Column {
    Column {
        index: u16::try_from(column.column_index).expect("below the limit"),
        db2_type: named(&column.db2_type),
        code: column.drda_type,
        length: column.length,
        precision: column.precision,
        scale: column.scale,
        nullable: column.nullable,
        ccsid: column.ccsid,
        reference: column.extdta_reference_length,
        order: match column.byte_order {
            ByteOrder::BigEndian => Order::Big,
            ByteOrder::LittleEndian => Order::Little,
        },
        origin,
    }
}

/// A type of the Rust by its name and its numbers.
fn named(published: &Db2Type) -> Type {
    match *published {
        Db2Type::SmallInt => Name::SmallInt.plain(),
        Db2Type::Integer => Name::Integer.plain(),
        Db2Type::BigInt => Name::BigInt.plain(),
        Db2Type::Real => Name::Real.plain(),
        Db2Type::Double => Name::Double.plain(),
        Db2Type::Decimal { precision, scale } => Type::decimal(precision, scale),
        Db2Type::DecFloat(digits) => Name::DecFloat.with(digits.into()),
        Db2Type::Char(length) => Name::Char.with(length),
        Db2Type::VarChar(length) => Name::VarChar.with(length),
        Db2Type::LongVarChar => Name::LongVarChar.plain(),
        Db2Type::Clob => Name::Clob.plain(),
        Db2Type::Binary(length) => Name::Binary.with(length),
        Db2Type::VarBinary(length) => Name::VarBinary.with(length),
        Db2Type::Blob => Name::Blob.plain(),
        Db2Type::BlobLocator => Name::BlobLocator.plain(),
        Db2Type::Date => Name::Date.plain(),
        Db2Type::Time => Name::Time.plain(),
        Db2Type::Timestamp => Name::Timestamp.plain(),
        Db2Type::Graphic(length) => Name::Graphic.with(length),
        Db2Type::VarGraphic(length) => Name::VarGraphic.with(length),
        Db2Type::DbClob => Name::DbClob.plain(),
        Db2Type::ClobLocator => Name::ClobLocator.plain(),
        Db2Type::DbClobLocator => Name::DbClobLocator.plain(),
        Db2Type::LobBytes(length) => Name::LobBytes.with(length),
        Db2Type::LobChar(length) => Name::LobChar.with(length),
        Db2Type::RowId(length) => Name::RowId.with(length),
        Db2Type::Boolean => Name::Boolean.plain(),
        Db2Type::Xml => Name::Xml.plain(),
        Db2Type::Null => Name::Null.plain(),
    }
}

/// The Rust's type of a name and its numbers.
pub fn published_type(asked: Type) -> Db2Type {
    let length = asked.numbers;
    let [precision, scale] = asked.precision_and_scale();
    match asked.name {
        Name::SmallInt => Db2Type::SmallInt,
        Name::Integer => Db2Type::Integer,
        Name::BigInt => Db2Type::BigInt,
        Name::Real => Db2Type::Real,
        Name::Double => Db2Type::Double,
        Name::Decimal => Db2Type::Decimal { precision, scale },
        // The digits stand where a Decimal has its precision.
        Name::DecFloat => Db2Type::DecFloat(precision),
        Name::Char => Db2Type::Char(length),
        Name::VarChar => Db2Type::VarChar(length),
        Name::LongVarChar => Db2Type::LongVarChar,
        Name::Clob => Db2Type::Clob,
        Name::Binary => Db2Type::Binary(length),
        Name::VarBinary => Db2Type::VarBinary(length),
        Name::Blob => Db2Type::Blob,
        Name::BlobLocator => Db2Type::BlobLocator,
        Name::Date => Db2Type::Date,
        Name::Time => Db2Type::Time,
        Name::Timestamp => Db2Type::Timestamp,
        Name::Graphic => Db2Type::Graphic(length),
        Name::VarGraphic => Db2Type::VarGraphic(length),
        Name::DbClob => Db2Type::DbClob,
        Name::ClobLocator => Db2Type::ClobLocator,
        Name::DbClobLocator => Db2Type::DbClobLocator,
        Name::LobBytes => Db2Type::LobBytes(length),
        Name::LobChar => Db2Type::LobChar(length),
        Name::RowId => Db2Type::RowId(length),
        Name::Boolean => Db2Type::Boolean,
        Name::Xml => Db2Type::Xml,
        Name::Null => Db2Type::Null,
    }
}

#[cfg(test)]
mod tests {
    use super::*;
    use crate::request::Form;
    use port::column::NAMES;

    #[test]
    fn a_type_goes_to_the_rust_and_back() {
        for name in NAMES {
            for numbers in [0, 5, 34, 0x0205, 0x8000, 0xFFFF] {
                if let Some(asked) = Type::from_word(name.with(numbers).word()) {
                    assert_eq!(named(&published_type(asked)), asked);
                    let shown = format!("{:?}", published_type(asked));
                    assert!(shown.starts_with(&format!("{name:?}")));
                }
            }
        }
    }

    #[test]
    fn the_limits_stand_where_they_must_and_in_their_order() {
        let columns = |count: usize| [5, 0x70, 2, 0, 4].repeat(count);
        let padded = |count: usize, length: usize| {
            let mut data = columns(count);
            data.resize(length, 0);
            data
        };
        // The numbers, by both; 0 where columns are given.
        let numbers = |data: &[u8]| {
            let Answers { ported, whole } = answers(data);
            [ported, whole].map(|answer| match answer {
                Description::Refusal(number) => number,
                _ => 0,
            })
        };
        assert_eq!(numbers(&columns(128)), [0, 0]);
        assert_eq!(numbers(&columns(129)), [2, 2]);
        assert_eq!(numbers(&padded(128, 641)), [0, 15]);
        assert_eq!(numbers(&padded(129, 646)), [2, 15]);
        assert_eq!(numbers(&padded(128, DESCRIPTION_LIMIT)), [0, 15]);
        assert_eq!(numbers(&padded(129, DESCRIPTION_LIMIT)), [2, 15]);
        assert_eq!(numbers(&padded(129, DESCRIPTION_LIMIT + 1)), [1, 1]);
        assert_eq!(numbers(&[2, 0x99].repeat(DESCRIPTION_LIMIT / 2)), [0, 0]);
        assert_eq!(
            numbers(&[2, 0x99].repeat(DESCRIPTION_LIMIT / 2 + 1)),
            [1, 1]
        );
    }

    /// A few of the published rules' own examples.
    #[test]
    fn known_answers() {
        let shown = |data: &[u8]| answers(data).ported.shown(Form::Shared);
        let whole = |data: &[u8]| answers(data).ported.shown(Form::Whole);
        let listed = |data: &[u8]| answers(data).whole.listed();
        let group = [9, 0x76, 0xD0, 5, 0, 2, 0x0F, 5, 2];
        let column = [5, 0x70, 0xC8, 0x80, 0];
        let cut = [6, 0x76, 0xD0, 5, 2];
        assert_eq!((shown(&[]), whole(&[])), ("C 0".into(), "C 0 whole".into()));
        assert_eq!(listed(&[]), "A 0");
        assert_eq!(
            shown(&group),
            "C 2 SmallInt:05:2:0:0:1:0:-:B Decimal.5.2:0F:3:5:2:1:0:-:B"
        );
        assert_eq!(
            whole(&group),
            "C 2 SmallInt:05:2:0:0:1:0:-:B:U Decimal.5.2:0F:3:5:2:1:0:-:B:U whole"
        );
        assert_eq!(
            listed(&group),
            "A 2 SmallInt:05:2:0:0:1:0:-:B:U Decimal.5.2:0F:3:5:2:1:0:-:B:U"
        );
        assert_eq!(
            (shown(&cut), whole(&cut)),
            ("C 0".into(), "C 0 broken".into())
        );
        assert_eq!(listed(&cut), "A REFUSE15");
        assert_eq!(shown(&column), "C 1 Blob:C8:32768:0:0:0:0:0:L");
        assert_eq!(whole(&column), "C 1 Blob:C8:32768:0:0:0:0:0:L:S whole");
        assert_eq!(
            whole(&[3, 0x78, 0x30, 3, 0x70, 0x44, 6, 0x76, 0xD0, 0x44, 0, 2, 0, 0]),
            "C 1 Char.2:30:2:0:0:0:0:-:B:D broken"
        );
        assert_eq!(fixed_length(Name::Graphic.with(3)), FixedLength::Bytes(6));
        assert_eq!(fixed_length(Name::Xml.plain()), FixedLength::Varies);
    }
}
