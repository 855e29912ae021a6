//! Packed decimals as whole numbers. As texts they are in `text`.
use crate::raw::{self, ACCEPTED};
use crate::Refusal;

/// What [`decode_packed_whole`] gives: a whole number, and how many of its digits stand behind the point.
#[derive(Debug, Clone, Copy, PartialEq, Eq, Hash)]
#[non_exhaustive]
pub struct PackedWhole {
    /// What the digits and the sign say, without a point.
    pub number: i64,
    /// The scale that was handed in.
    pub scale: u8,
}

/// A packed decimal as a whole number, and its scale beside it: 12.50 in millimetres, of scale 2, is 1250 hundredths of a millimetre. The
/// scale is handed back as it was handed in, and decides nothing.
///
/// The last nibble is the sign, as z/Architecture has it: A, C, E and F are plus, B and D minus. (In the text that
/// [`decode_packed_decimal`](crate::decode_packed_decimal) and a row give, D alone is minus: B is plus there, and so is what is no sign.)
/// Every other nibble is a digit. Any number of zeros may lead; minus zero is 0.
///
/// The bytes are a Decimal column's in a row: (precision + 2) / 2 of them, rounded down, behind the indicator where it may be null. A row
/// has their text ([`Value::Decimal`](crate::Value::Decimal)) and does not say where they begin. A row of the columns before this one
/// alone does: the column begins where the bytes used end.
///
/// # Errors
/// The first of these that applies to the bytes as a whole: [`Refusal::DecimalEmpty`], [`Refusal::DecimalTooLong`],
/// [`Refusal::DecimalDigit`], [`Refusal::DecimalSign`] and [`Refusal::DecimalOutOfRange`].
///
/// ```
/// use vejupa::{decode_packed_whole, Refusal};
/// let height = decode_packed_whole(&[0x01, 0x25, 0x0C], 2)?;
/// assert_eq!((height.number, height.scale), (1250, 2));
/// assert_eq!(decode_packed_whole(&[0x01, 0x25, 0x0D], 2)?.number, -1250);
/// assert_eq!(decode_packed_whole(&[0x01, 0x25, 0x00], 2), Err(Refusal::DecimalSign));
/// # Ok::<(), Refusal>(())
/// ```
///
/// In a row:
///
/// ```
/// use vejupa::{decode_packed_whole, Columns};
/// // A VarChar and a Decimal of 5 digits, 2 of them behind the point, both of which may be null.
/// let columns = Columns::parse_whole(&[0x09, 0x76, 0xD0, 0x33, 0x00, 0x08, 0x0F, 0x05, 0x02])?;
/// let row = [0x00, 0x00, 0x03, b'G', b'U', b'L', 0x00, 0x01, 0x25, 0x0C];
/// let before: Columns = columns.iter().take(1).collect();
/// let at = before.decode_row(&row, 2)?.used + 1; // behind the indicator, which says that it is not null
/// assert_eq!(decode_packed_whole(&row[at..at + 3], 2)?.number, 1250);
/// # Ok::<(), vejupa::Refusal>(())
/// ```
pub fn decode_packed_whole(data: &[u8], scale: u8) -> Result<PackedWhole, Refusal> {
    let answer = raw::decode_packed_whole(data, scale);
    match answer.number {
        ACCEPTED => Ok(PackedWhole {
            number: answer.whole,
            scale: answer.scale,
        }),
        number => Err(Refusal::from_number(number)),
    }
}
