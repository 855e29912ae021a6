//! Conversions of single texts. What goes by the host's release is in releases.rs.
use vejupa::raw::{self, TextAnswer, ACCEPTED, TEXT_BUFFER_TOO_SHORT};
use vejupa::{
    bytes_are_likely_text, decode_character_bytes, decode_character_bytes_into,
    decode_graphic_bytes, decode_graphic_bytes_into, decode_packed_decimal,
    decode_packed_decimal_into, format_lob_locator, format_lob_locator_into, format_rowid,
    format_rowid_into, Refusal,
};

#[test]
fn texts_longer_than_the_first_try() {
    let text = decode_character_bytes(&[0x80; 1000], 1208, 2).unwrap();
    assert_eq!((text.text, text.replaced), ("\u{FFFD}".repeat(1000), 1000));
    let text = decode_graphic_bytes(&[0xD8; 1000], 1200, 2).unwrap();
    assert_eq!((text.text, text.replaced), ("\u{FFFD}".repeat(500), 500));
}

/// One for a malformed part that is as long as can be and one for an unpaired surrogate; not for the host's own U+FFFD, nor in other code
/// pages. As much in a buffer of the text's length as in longer ones.
#[test]
fn replaced_characters() {
    let characters: [(&[u8], u16, &str, usize); 7] = [
        (b"cr\xC3\xA8me", 1208, "cr\u{E8}me", 0),
        (b"cr\xC3me", 1208, "cr\u{FFFD}me", 1),
        (b"\xF0\x9F\x98z\xE2\x82", 1208, "\u{FFFD}z\u{FFFD}", 2),
        (b"\xEF\xBF\xBD", 1208, "\u{FFFD}", 0),
        (b"\xEF\xBF\xBD\xEF\xBF", 1208, "\u{FFFD}\u{FFFD}", 1),
        (b"\xEF\xBF", 819, "\u{EF}\u{BF}", 0),
        (b"\xC1\x4A", 37, "A\u{A2}", 0),
    ];
    for ((data, ccsid, text, replaced), release) in at_either_release(&characters) {
        let made = decode_character_bytes(data, ccsid, release).unwrap();
        assert_eq!((made.text.as_str(), made.replaced), (text, replaced));
        for more in [0, 1, 100] {
            let mut buffer = vec![0; text.len() + more];
            let made = decode_character_bytes_into(data, ccsid, release, &mut buffer).unwrap();
            assert_eq!((made.text, made.replaced), (text, replaced));
        }
    }
    let graphics: [(&[u8], &str, usize); 4] = [
        (&[0xD8, 0x3D, 0xDE, 0x00], "\u{1F600}", 0),
        (&[0xDE, 0x00, 0xD8, 0x3D], "\u{FFFD}\u{FFFD}", 2),
        (&[0xD8, 0x3D, 0xFF, 0xFD], "\u{FFFD}\u{FFFD}", 1),
        (&[0xFF, 0xFD], "\u{FFFD}", 0),
    ];
    for ((data, text, replaced), release) in at_either_release(&graphics) {
        let made = decode_graphic_bytes(data, 1200, release).unwrap();
        assert_eq!((made.text.as_str(), made.replaced), (text, replaced));
        let mut buffer = vec![0; text.len()];
        let made = decode_graphic_bytes_into(data, 1200, release, &mut buffer).unwrap();
        assert_eq!((made.text, made.replaced), (text, replaced));
    }
}

/// Each case at release 2 and at release 3.
fn at_either_release<T: Copy>(cases: &[T]) -> impl Iterator<Item = (T, u32)> + '_ {
    cases.iter().flat_map(|case| [(*case, 2), (*case, 3)])
}

type Call = fn(&[u8], u16, u32, &mut [u8]) -> TextAnswer;

/// Through the plain calls: a refusal counts nothing.
#[test]
fn a_refusal_counts_nothing() {
    let mut text = [0; 6];
    let short = TextAnswer {
        number: TEXT_BUFFER_TOO_SHORT,
        text_length: 6,
        replaced: 0,
    };
    let accepted = TextAnswer {
        number: ACCEPTED,
        replaced: 2,
        ..short
    };
    let too_long = TextAnswer {
        number: 4,
        text_length: 0,
        replaced: 0,
    };
    let long = vec![0x80; vejupa::MAX_INPUT + 1];
    let calls: [(Call, &[u8], u16); 2] = [
        (raw::decode_character_bytes, &[0x80, 0x80], 1208),
        (raw::decode_graphic_bytes, &[0xD8, 0x00, 0xD8, 0x00], 1200),
    ];
    for ((call, data, ccsid), release) in at_either_release(&calls) {
        assert_eq!(call(data, ccsid, release, &mut text[..5]), short);
        assert_eq!(call(data, ccsid, release, &mut text), accepted);
        assert_eq!(call(&long, ccsid, release, &mut text), too_long);
    }
}

#[test]
fn empty_texts() {
    for release in [2, 3] {
        for ccsid in [37, 1047, 1200] {
            assert_eq!(
                decode_character_bytes(&[], ccsid, release).unwrap().text,
                ""
            );
            assert_eq!(decode_graphic_bytes(&[], ccsid, release).unwrap().text, "");
        }
    }
    assert_eq!(format_lob_locator(&[]).unwrap(), "LOB locator 0x");
    assert_eq!(format_rowid(&[]).unwrap(), "0x");
    assert!(bytes_are_likely_text(&[]));
}

#[test]
fn lent_buffers() {
    let short = Err(Refusal::TextBufferTooShort { needed: 4 });
    let mut text = [0; 3];
    assert_eq!(format_rowid_into(&[0xAB], &mut text), short);
    assert_eq!(
        decode_graphic_bytes_into(&[0xD8, 0x3D, 0xDE, 0x00], 13488, 2, &mut text)
            .map(|made| made.text),
        short
    );
    assert_eq!(
        decode_packed_decimal_into(&[0x12, 0x3C], 1, &mut text),
        short
    );
    assert_eq!(text, [0; 3]);
    let mut text = [0; 20];
    assert_eq!(
        format_lob_locator_into(&[0xAB], &mut text),
        Ok("LOB locator 0xAB")
    );
}

#[test]
fn refusals() {
    let long = vec![0x41; vejupa::MAX_INPUT + 1];
    assert_eq!(
        decode_character_bytes(&long, 1208, 2),
        Err(Refusal::InputTooLong)
    );
    assert_eq!(
        decode_graphic_bytes(&long, 1200, 2),
        Err(Refusal::InputTooLong)
    );
    assert_eq!(format_lob_locator(&long), Err(Refusal::InputTooLong));
    assert_eq!(format_rowid(&long), Err(Refusal::InputTooLong));
    assert!(bytes_are_likely_text(&long));
    assert_eq!(decode_packed_decimal(&[], 2), Err(Refusal::DecimalEmpty));
    assert_eq!(
        decode_packed_decimal(&[0; vejupa::MAX_DECIMAL + 1], 2),
        Err(Refusal::DecimalTooLong)
    );
}
