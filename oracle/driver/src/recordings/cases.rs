//! A value of a row beside what the client shows of it. Where the two differ a rule says how, by the client's value and the column: each rule has a name, and what none of
//! them foretells is a failure.
use super::Shown;
use crate::leaf::Leaf;
use crate::rust_side;
use port::column::Column;

#[derive(Debug, Clone, Copy, PartialEq, Eq)]
pub enum Case {
    Same,
    /// CHAR comes as code 3E, which is read as a varying text; so is the 32 that stands for it in a description that was changed.
    CharAsVarChar,
    /// The client writes a timestamp with a blank and colons, and without the fraction's last zeros.
    TimestampForm,
    /// To an older client this server sends a Boolean as a SmallInt.
    BooleanAsSmallInt,
    /// Bit data come as a text; its bytes are those of the data.
    BitDataAsText,
    /// Bit data that are no UTF-8: what is malformed became U+FFFD.
    BitDataLost,
    /// A CHAR with a byte above 7F: the whole text is read by code page 037.
    CharAbove7F,
    /// To an older client this server sends six digits of a timestamp's fraction.
    TimestampCut,
    /// A LOB by its locator: the client fetches it by further calls.
    LobLocator,
    /// A LOB by a reference: its bytes come as an EXTDTA.
    LobExtdta,
    /// The column stands behind a triplet 7F, or its row behind such a column.
    Missing,
}

pub const CASES: [Case; 11] = [
    Case::Same,
    Case::CharAsVarChar,
    Case::TimestampForm,
    Case::BooleanAsSmallInt,
    Case::BitDataAsText,
    Case::BitDataLost,
    Case::CharAbove7F,
    Case::TimestampCut,
    Case::LobLocator,
    Case::LobExtdta,
    Case::Missing,
];

impl Case {
    pub fn name(self) -> &'static str {
        match self {
            Case::Same => "same",
            Case::CharAsVarChar => "CHAR as VarChar",
            Case::TimestampForm => "timestamp in another form",
            Case::BooleanAsSmallInt => "Boolean as SmallInt",
            Case::BitDataAsText => "bit data as text",
            Case::BitDataLost => "bit data lost",
            Case::CharAbove7F => "CHAR above 7F",
            Case::TimestampCut => "timestamp cut",
            Case::LobLocator => "LOB locator",
            Case::LobExtdta => "LOB as EXTDTA",
            Case::Missing => "missing behind 7F",
        }
    }

    /// Whether the value is the client's: nothing of it is lost or wrong, though its sort or its form may be another.
    pub fn is_clients(self) -> bool {
        matches!(
            self,
            Case::Same | Case::CharAsVarChar | Case::TimestampForm | Case::BooleanAsSmallInt
        )
    }
}

/// Which case a value is that lies in the row itself.
pub fn inline(column: &Column, ours: &Shown, theirs: &Shown) -> Option<Case> {
    if ours == theirs {
        return Some(Case::Same);
    }
    match (column.code, ours.letter, theirs.letter) {
        (0x3E | 0x3F, 'V', 'C') => char_text(ours, theirs),
        (0x32 | 0x33, 'V', 'C') => (ours.held == theirs.held).then_some(Case::CharAsVarChar),
        (0x28..=0x2B, 'V', 'B') => bit_data(ours, theirs),
        (0x24 | 0x25, 's', 's') => timestamp(ours, theirs),
        (0x04 | 0x05, 'S', 'b') => (ours.held == theirs.held).then_some(Case::BooleanAsSmallInt),
        _ => None,
    }
}

fn char_text(ours: &Shown, theirs: &Shown) -> Option<Case> {
    let (ours, theirs) = (ours.bytes()?, theirs.bytes()?);
    if theirs.is_ascii() {
        return (ours == theirs).then_some(Case::CharAsVarChar);
    }
    let by_037 = rust_side::text(Leaf::character(37), &theirs);
    (ours == by_037.as_bytes()).then_some(Case::CharAbove7F)
}

fn bit_data(ours: &Shown, theirs: &Shown) -> Option<Case> {
    let (ours, theirs) = (ours.bytes()?, theirs.bytes()?);
    if ours == theirs {
        return Some(Case::BitDataAsText);
    }
    let lossy = String::from_utf8_lossy(&theirs);
    (ours == lossy.as_bytes()).then_some(Case::BitDataLost)
}

/// Digits of a fraction that an older client gets.
const DIGITS_OF_OLD: usize = 6;

fn timestamp(ours: &Shown, theirs: &Shown) -> Option<Case> {
    let (ours, theirs) = (ours.bytes()?, theirs.bytes()?);
    let form = client_form(&ours)?;
    if form == theirs {
        return Some(Case::TimestampForm);
    }
    let fraction = theirs.iter().position(|byte| *byte == b'.')? + 1;
    let cut = theirs.get(..fraction + DIGITS_OF_OLD)?;
    (form == cut).then_some(Case::TimestampCut)
}

/// A server's `2026-12-01-13.14.15.500000` as the client writes it, `2026-12-01 13:14:15.5`: at least one digit of the fraction stays.
fn client_form(sent: &[u8]) -> Option<Vec<u8>> {
    let mut form = sent.to_vec();
    for (place, from, to) in [(10, b'-', b' '), (13, b'.', b':'), (16, b'.', b':')] {
        let byte = form.get_mut(place).filter(|byte| **byte == from)?;
        *byte = to;
    }
    while form.len() > 21 && form.last() == Some(&b'0') {
        form.pop();
    }
    Some(form)
}

/// What a reference holds where the bytes come as an EXTDTA.
const EXTDTA_FOLLOWS: [u8; 4] = [0x00, 0x00, 0x80, 0x04];

/// Which case a value is that only refers to its bytes. `extdta` has the EXTDTAs not yet used, where there were any at all.
pub fn external(
    column: &Column,
    ours: &Shown,
    theirs: &Shown,
    extdta: Option<&mut std::slice::Iter<'_, Vec<u8>>>,
) -> Option<Case> {
    if ours.letter != theirs.letter {
        return None;
    }
    let reference = reference(ours)?;
    let Some(extdta) = extdta else {
        return (reference != [0; 4]).then_some(Case::LobLocator);
    };
    let sent = extdta.next().filter(|_| reference == EXTDTA_FOLLOWS)?;
    // An indicator stands first exactly where the column may be null.
    let data = match column.nullable {
        true => sent.strip_prefix(&[0x00])?,
        false => sent,
    };
    (theirs.bytes()? == data).then_some(Case::LobExtdta)
}

/// The four bytes of a reference: a Blob shows them, a Clob as the text of a locator.
fn reference(ours: &Shown) -> Option<[u8; 4]> {
    let held = ours.bytes()?;
    match ours.letter {
        'O' => held.try_into().ok(),
        'K' => {
            let text = String::from_utf8(held).ok()?;
            let digits = text.strip_prefix("LOB locator 0x")?;
            crate::request::bytes(digits).ok()?.try_into().ok()
        }
        _ => None,
    }
}

#[cfg(test)]
mod tests {
    use super::*;
    use crate::descriptions::rust_side::columns;

    fn column(code: u8) -> Column {
        columns(&[0x06, 0x76, 0xD0, code, 0x80, 0x04]).unwrap()[0]
    }

    fn case(code: u8, ours: &str, theirs: &str) -> Option<Case> {
        let [ours, theirs] = [ours, theirs].map(|field| Shown::read(field).unwrap());
        inline(&column(code), &ours, &theirs)
    }

    #[test]
    fn a_rule_foretells_the_value() {
        for (code, ours, theirs, found) in [
            (0x02, "I:1", "I:1", Some(Case::Same)),
            (0x02, "I:1", "I:2", None),
            (0x02, "I:1", "N", None),
            (0x3E, "V:4142", "C:4142", Some(Case::CharAsVarChar)),
            (0x3E, "V:4143", "C:4142", None),
            (0x34, "V:4142", "C:4142", None),
            (0x32, "V:C3BC", "C:C3BC", Some(Case::CharAsVarChar)),
            (0x32, "V:C3BC", "C:C3BD", None),
            (0x3E, "V:43C2AF", "C:C3BC", Some(Case::CharAbove7F)),
            (0x3E, "V:C3BC", "C:C3BC", None),
            (0x28, "V:0102", "B:0102", Some(Case::BitDataAsText)),
            (0x29, "V:41EFBFBD", "B:418B", Some(Case::BitDataLost)),
            (0x29, "V:41EFBFBDEFBFBD", "B:418B", None),
            (0x28, "V:0103", "B:0102", None),
            (0x04, "S:1", "b:1", Some(Case::BooleanAsSmallInt)),
            (0x04, "S:0", "b:1", None),
            (0x02, "S:1", "b:1", None),
        ] {
            assert_eq!(case(code, ours, theirs), found, "{ours} {theirs}");
        }
    }

    #[test]
    fn timestamps() {
        let hex = |text: &str| format!("s:{}", crate::request::Hex(text.as_bytes()));
        let of = |ours: &str, theirs: &str| case(0x24, &hex(ours), &hex(theirs));
        let nine = "2026-12-01-13.14.15.123456789";
        let form = Some(Case::TimestampForm);
        assert_eq!(of(nine, "2026-12-01 13:14:15.123456789"), form);
        assert_eq!(of(nine, "2026-12-01 13:14:15.12345678"), None);
        let zeros = "2026-12-01-13.14.15.000000";
        assert_eq!(of(zeros, "2026-12-01 13:14:15.0"), form);
        let six = "2026-12-01-13.14.15.123456";
        let cut = Some(Case::TimestampCut);
        assert_eq!(of(six, "2026-12-01 13:14:15.123456789"), cut);
        assert_eq!(of(six, "2026-12-01 13:14:15.1234569"), cut);
        assert_eq!(of(six, "2026-12-01 13:14:15.123457"), None);
        assert_eq!(of(six, "2026-12-01 13:14:16.123456"), None);
    }

    #[test]
    fn references() {
        let sent = [vec![0x00, 0x41], vec![0x42]];
        let case = |code: u8, ours: &str, theirs: &str, from: Option<usize>| {
            let [ours, theirs] = [ours, theirs].map(|field| Shown::read(field).unwrap());
            let mut left = from.map(|from| sent[from..].iter());
            external(&column(code), &ours, &theirs, left.as_mut())
        };
        let locator = Some(Case::LobLocator);
        let extdta = Some(Case::LobExtdta);
        assert_eq!(case(0xC9, "O:00000001", "O:41", None), locator);
        assert_eq!(case(0xC9, "O:00000000", "O:41", None), None);
        assert_eq!(case(0xC9, "O:00008004", "O:41", Some(0)), extdta);
        assert_eq!(case(0xC9, "O:00008004", "O:42", Some(0)), None);
        assert_eq!(case(0xC9, "O:00000001", "O:41", Some(0)), None);
        // without an indicator where the column may be null, with one where it may not, and none left
        assert_eq!(case(0xC9, "O:00008004", "O:42", Some(1)), None);
        assert_eq!(case(0xC8, "O:00008004", "O:42", Some(1)), extdta);
        assert_eq!(case(0xC8, "O:00008004", "O:41", Some(0)), None);
        assert_eq!(case(0xC8, "O:00008004", "O:41", Some(2)), None);
        let clob = "K:4C4F42206C6F6361746F72203078303030303830303";
        assert_eq!(case(0xCF, &format!("{clob}4"), "K:41", Some(0)), extdta);
        assert_eq!(case(0xCF, &format!("{clob}5"), "K:41", Some(0)), None);
        assert_eq!(case(0xCF, &format!("{clob}4"), "V:41", Some(0)), None);
    }
}
