//! How many U+FFFD a conversion puts in for what is malformed. The Rust has no such number: this is a second opinion, by the standard library's parts
//! of UTF-8 and errors of UTF-16, and looks at the text of neither side.
use crate::leaf::Leaf;

/// How bytes are read.
#[derive(Debug, Clone, Copy, PartialEq, Eq)]
pub enum Reading {
    Utf8,
    /// Big-endian.
    Utf16,
    /// By a code page, as digits or in hexadecimal: nothing is malformed.
    Other,
}

impl Reading {
    pub fn of_characters(ccsid: u16) -> Reading {
        match ccsid {
            1208 => Reading::Utf8,
            _ => Reading::Other,
        }
    }

    /// A graphic value that is not UTF-16 goes as characters.
    pub fn of_graphics(ccsid: u16, data: &[u8]) -> Reading {
        match ccsid {
            1200 | 13488 if data.len().is_multiple_of(2) => Reading::Utf16,
            _ => Reading::of_characters(ccsid),
        }
    }

    pub fn of_leaf(leaf: Leaf, data: &[u8]) -> Reading {
        match leaf {
            Leaf::Character { ccsid, .. } => Reading::of_characters(ccsid),
            Leaf::Graphic { ccsid, .. } => Reading::of_graphics(ccsid, data),
            _ => Reading::Other,
        }
    }

    /// The malformed parts, each by the number of its bytes.
    pub fn malformed(self, data: &[u8]) -> impl Iterator<Item = usize> + '_ {
        let utf8 = (self == Reading::Utf8).then(|| data.utf8_chunks());
        let parts = utf8
            .into_iter()
            .flatten()
            .map(|chunk| chunk.invalid().len());
        let units = data
            .as_chunks::<2>()
            .0
            .iter()
            .copied()
            .map(u16::from_be_bytes);
        let utf16 = (self == Reading::Utf16).then(|| char::decode_utf16(units));
        let unpaired = utf16
            .into_iter()
            .flatten()
            .filter(Result::is_err)
            .map(|_| 2);
        parts.filter(|bytes| *bytes > 0).chain(unpaired)
    }

    /// How many U+FFFD are put in: one for each malformed part.
    pub fn replaced(self, data: &[u8]) -> usize {
        self.malformed(data).count()
    }
}

#[cfg(test)]
mod tests {
    use super::*;

    /// The Unicode Standard's examples of U+FFFD for maximal subparts (Tables 3-8 to 3-11), and the host's own.
    #[test]
    fn parts_of_utf8() {
        let parts = |data: &[u8]| Reading::Utf8.malformed(data).collect::<Vec<_>>();
        assert_eq!(parts(b"\xC0\xAF\xE0\x80\xBF\xF0\x81\x82A"), [1; 8]);
        assert_eq!(parts(b"\xED\xA0\x80\xED\xBF\xBF\xED\xAFA"), [1; 8]);
        assert_eq!(parts(b"\xF4\x91\x92\x93\xFFA\x80\xBFB"), [1; 7]);
        assert_eq!(parts(b"\xE1\x80\xE2\xF0\x91\x92\xF1\xBFA"), [2, 1, 3, 2]);
        assert_eq!(parts(b"A\xEF\xBF\xBD\xC3\xA9"), []);
        assert_eq!(parts(b"\xEF\xBF\xBD\xEF\xBF"), [2]);
    }

    #[test]
    fn surrogates() {
        let replaced = |data: &[u8]| Reading::of_graphics(1200, data).replaced(data);
        assert_eq!(replaced(b"\xD8\x00\xDC\x00"), 0);
        assert_eq!(replaced(b"\xDC\x00\xD8\x00"), 2);
        assert_eq!(replaced(b"\xD8\x00\xD8\x00\xDC\x00"), 1);
        assert_eq!(replaced(b"\xFF\xFD\xD8\x00"), 1);
        assert_eq!(replaced(b"\xD8\x00\xD8"), 0);
    }

    #[test]
    fn other_code_pages_have_nothing_malformed() {
        let data = b"\x80\xFF\xD8\x00";
        for leaf in [
            Leaf::character(37),
            Leaf::character(819),
            Leaf::character(1200),
            Leaf::graphic(0),
            Leaf::Locator,
            Leaf::RowId,
            Leaf::decimal(2),
        ] {
            assert_eq!(Reading::of_leaf(leaf, data).replaced(data), 0, "{leaf:?}");
        }
        let graphic = Leaf::graphic(1208);
        assert_eq!(Reading::of_leaf(graphic, data).replaced(data), 3);
    }
}
