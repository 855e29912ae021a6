//! The columns by which the Rust reads a row as release 3 wants it: CCSID 37 in place of an unnamed one. Graphic and VarGraphic of 1200 or 13488 have it only
//! where the bytes that were read are no UTF-16: how many these are goes by the CCSID too.
use super::{of_characters, of_graphics, BY_037};
use crate::rows::walk::Walk;
use crate::rows::Answer;
use db2_proto::fdoca::ColumnDescriptor;
use db2_proto::types::Db2Type;
use port::value::{Held, Value, VALUE_WORDS};

/// The columns for a row that the Rust accepts by its own; None where they are the same.
pub fn by_037(columns: &[ColumnDescriptor], data: &[u8]) -> Option<Vec<ColumnDescriptor>> {
    let mut walk = Walk::over(columns, data);
    let mut count = |place: usize| walk.taken(place).map_or(0, <[u8]>::len);
    let ccsid = |(place, column): (usize, &ColumnDescriptor)| match column.db2_type {
        Db2Type::Graphic(_) => of_graphics(column.ccsid, BY_037, count(place)),
        // A length of two bytes stands in front. With bit 8000 there is a header, and no conversion.
        Db2Type::VarGraphic(own) if own & 0x8000 == 0 => {
            of_graphics(column.ccsid, BY_037, count(place).saturating_sub(2))
        }
        _ => of_characters(column.ccsid, BY_037),
    };
    let ccsids: Vec<u16> = columns.iter().enumerate().map(ccsid).collect();
    let others = columns.iter().zip(ccsids);
    others
        .clone()
        .any(|(column, ccsid)| column.ccsid != ccsid)
        .then(|| {
            let other = |(column, ccsid): (&ColumnDescriptor, u16)| ColumnDescriptor {
                ccsid,
                ..column.clone()
            };
            others.map(other).collect()
        })
}

/// Whether two answers to a row agree in all but what their texts are.
pub fn same_but_texts(one: &Answer, other: &Answer) -> bool {
    one.outcome == other.outcome && shapes(one).eq(shapes(other))
}

/// The columns whose texts are not the same in two answers that agree in all else.
pub fn other_texts(one: &Answer, other: &Answer) -> Vec<usize> {
    if one.text == other.text {
        return Vec::new();
    }
    let texts = texts(one).zip(texts(other)).enumerate();
    let others = texts.filter(|(_, (one, other))| one != other);
    others.map(|(column, _)| column).collect()
}

/// The text of each value; None where it has none.
fn texts(answer: &Answer) -> impl Iterator<Item = Option<&[u8]>> + '_ {
    let (values, _) = answer.values.as_chunks::<VALUE_WORDS>();
    values.iter().map(|words| {
        let value = Value::from_words(*words)?;
        let (start, length) = (value.number as usize, value.length as usize);
        (value.sort.held() == Held::Text).then(|| &answer.text[start..start + length])
    })
}

/// The values without their texts' places, the sorts and what is external with them.
fn shapes(answer: &Answer) -> impl Iterator<Item = Option<[u64; VALUE_WORDS]>> + '_ {
    let (values, _) = answer.values.as_chunks::<VALUE_WORDS>();
    values.iter().map(|words| {
        let value = Value::from_words(*words)?;
        Some(match value.sort.held() {
            Held::Text => [words[0], 0, 0],
            _ => *words,
        })
    })
}
