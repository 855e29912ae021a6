//! The answers of the published Rust. It has no limits of its own: those of the port are applied here, before it is asked. Nor does it count
//! characters replaced, or read a packed decimal as a number: `replaced` and `packed_whole` do. Nor has it releases: at release 3 it is asked with the CCSID that
//! `releases` gives.
use crate::leaf::{Answer, Leaf, DECIMAL_LIMIT, TEXT_LIMIT};
use crate::packed_whole;
use crate::releases;
use crate::replaced::Reading;
use db2_proto::fdoca::exposed;
use db2_proto::types::decode_packed_decimal;

/// The refusal that the release and the limits give, if any.
fn refused(leaf: Leaf, data: &[u8]) -> Option<u32> {
    match leaf {
        _ if leaf
            .release()
            .is_some_and(|release| !releases::is_known(release)) =>
        {
            Some(22)
        }
        Leaf::Likely | Leaf::PackedWhole { .. } => None,
        Leaf::Decimal { .. } if data.is_empty() => Some(6),
        Leaf::Decimal { .. } if data.len() > DECIMAL_LIMIT => Some(7),
        Leaf::Decimal { .. } => None,
        _ if data.len() > TEXT_LIMIT => Some(4),
        _ => None,
    }
}

/// The text that the Rust gives, without limits (every leaf but Likely and PackedWhole, and no empty packed decimal).
pub fn text(leaf: Leaf, data: &[u8]) -> String {
    match leaf {
        Leaf::Character { ccsid, release } => {
            exposed::decode_character_bytes(data, releases::of_characters(ccsid, release))
        }
        Leaf::Graphic { ccsid, release } => {
            let ccsid = releases::of_graphics(ccsid, release, data.len());
            exposed::decode_graphic_bytes(data, ccsid)
        }
        Leaf::Decimal { precision, scale } => decode_packed_decimal(data, precision, scale)
            .expect("the Rust refuses no packed decimal that has a byte"),
        Leaf::Locator => exposed::format_lob_locator(data),
        Leaf::RowId => exposed::format_rowid(data),
        Leaf::Likely => panic!("bytes_are_likely_text gives no text"),
        Leaf::PackedWhole { .. } => panic!("decode_packed_whole gives no text"),
    }
}

pub fn likely(data: &[u8]) -> bool {
    exposed::bytes_are_likely_text(data)
}

pub fn answer(leaf: Leaf, data: &[u8]) -> Answer<'static> {
    if let Some(number) = refused(leaf, data) {
        return Answer::Refusal(number);
    }
    match leaf {
        Leaf::Likely => Answer::Truth(likely(data)),
        Leaf::PackedWhole { scale } => whole(data, scale),
        _ => Answer::Text {
            text: text(leaf, data).into_bytes().into(),
            replaced: Reading::of_leaf(leaf, data).replaced(data),
        },
    }
}

/// By the second opinion, which the Rust's text must bear out.
fn whole(data: &[u8], scale: u8) -> Answer<'static> {
    match packed_whole::read(data) {
        Ok(number) => {
            let told = packed_whole::is_in_the_rusts_text(number, data, scale);
            assert!(told, "the Rust's text of {data:02X?} is not {number}");
            Answer::Whole { number, scale }
        }
        Err(number) => Answer::Refusal(number),
    }
}

#[cfg(test)]
mod tests {
    use super::*;

    #[test]
    fn the_limits_stand_where_they_must() {
        let at = vec![0x41; TEXT_LIMIT];
        let above = vec![0x41; TEXT_LIMIT + 1];
        for leaf in [
            Leaf::character(1208),
            Leaf::graphic(1200),
            Leaf::character(273).at(releases::BY_037),
            Leaf::Locator,
            Leaf::RowId,
        ] {
            assert!(matches!(answer(leaf, &at), Answer::Text { .. }));
            assert_eq!(answer(leaf, &above), Answer::Refusal(4));
        }
        for leaf in [Leaf::character(1208), Leaf::graphic(1200)] {
            for release in [0, 1, 4, 258, 259, u32::MAX] {
                for data in [&[][..], &at, &above] {
                    assert_eq!(answer(leaf.at(release), data), Answer::Refusal(22));
                }
            }
        }
        assert_eq!(answer(Leaf::Likely, &above), Answer::Truth(true));
        assert_eq!(answer(Leaf::decimal(0), &[]), Answer::Refusal(6));
        assert!(matches!(
            answer(Leaf::decimal(0), &at[..128]),
            Answer::Text { .. }
        ));
        assert_eq!(answer(Leaf::decimal(0), &at[..129]), Answer::Refusal(7));
    }

    /// A few of the published rules' own examples: the exposed functions pass on to the right ones.
    #[test]
    fn known_answers() {
        assert_eq!(text(Leaf::character(1208), &[0xC1, 0x41]), "\u{FFFD}A");
        assert_eq!(text(Leaf::character(37), &[0xC1, 0xC2]), "AB");
        assert_eq!(text(Leaf::graphic(1200), &[0x00, 0x41]), "A");
        assert_eq!(text(Leaf::Locator, &[0x80]), "LOB locator 0x80");
        assert_eq!(text(Leaf::RowId, &[0x0A]), "0x0A");
        assert_eq!(text(Leaf::decimal(2), &[0x00, 0x5C]), "0.05");
        assert_eq!(text(Leaf::decimal(3), &[0x1C]), "0.001");
        assert_eq!(text(Leaf::decimal(0), &[0x0D]), "-0");
        assert_eq!(text(Leaf::decimal(0), &[0x12, 0x3B]), "123");
    }
}
