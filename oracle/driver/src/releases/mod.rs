//! The host's release, by which unnamed CCSIDs are read. Release 2 is the Rust's own reading. At release 3 a text that is converted by a CCSID without a name,
//! and is not read as UTF-16, is code page 037, whatever its bytes. The Rust has no releases: the second opinion on release 3 is the Rust's answer with CCSID 37
//! in place of the unnamed one.
//!
//! - `columns`: the same for the columns of a row
//! - `unknown`: numbers that are no release, and what to ask with them
//! - `faults`: calls that take a release wrong, to see that the run notices them
pub mod columns;
pub mod faults;
pub mod unknown;

/// The release at which the port answers as the Rust does.
pub const PORTED: u32 = 2;

/// The release at which unnamed CCSIDs are code page 037.
pub const BY_037: u32 = 3;

/// Refusal 22 otherwise.
pub fn is_known(release: u32) -> bool {
    matches!(release, PORTED | BY_037)
}

/// 1200 and 13488 are no names of characters: a graphic value of them may be UTF-16, which goes before.
pub fn is_named(ccsid: u16) -> bool {
    matches!(ccsid, 1208 | 819 | 37 | 500)
}

/// Whether so many bytes of a graphic value are read as UTF-16.
pub fn is_utf16(ccsid: u16, count: usize) -> bool {
    matches!(ccsid, 1200 | 13488) && count.is_multiple_of(2)
}

/// The CCSID by which the Rust reads characters as the release wants them.
pub fn of_characters(ccsid: u16, release: u32) -> u16 {
    match release {
        BY_037 if !is_named(ccsid) => 37,
        _ => ccsid,
    }
}

/// The same for a graphic value of so many bytes.
pub fn of_graphics(ccsid: u16, release: u32, count: usize) -> u16 {
    match is_utf16(ccsid, count) {
        true => ccsid,
        false => of_characters(ccsid, release),
    }
}

#[cfg(test)]
mod tests {
    use super::*;
    use crate::leaf::Leaf;
    use crate::rust_side::text;

    /// The blank of code page 037, which the Rust shows as `@` where the CCSID is unnamed and no byte is above 7F.
    #[test]
    fn a_blank_is_a_blank_at_release_3() {
        for ccsid in [0, 273, 1047, 1140, 1200, 13488, 65535] {
            let blank = Leaf::character(ccsid);
            assert_eq!(text(blank, b"\x40"), "@", "{ccsid}");
            assert_eq!(text(blank.at(BY_037), b"\x40"), " ", "{ccsid}");
            assert_eq!(text(blank.at(BY_037), b"\xC1\x40"), "A ", "{ccsid}");
        }
        for (ccsid, shown) in [(1208, "@"), (819, "@"), (37, " "), (500, " ")] {
            let blank = Leaf::character(ccsid);
            assert_eq!(text(blank, b"\x40"), shown, "{ccsid}");
            assert_eq!(text(blank.at(BY_037), b"\x40"), shown, "{ccsid}");
        }
    }

    #[test]
    fn utf16_stays_utf16_where_its_bytes_are_even() {
        for ccsid in [1200, 13488] {
            let graphic = Leaf::graphic(ccsid);
            for release in [PORTED, BY_037] {
                assert_eq!(text(graphic.at(release), b"\x00\x40"), "@", "{ccsid}");
                assert_eq!(text(graphic.at(release), b""), "", "{ccsid}");
            }
            assert_eq!(text(graphic, b"\x40\x40\x40"), "@@@", "{ccsid}");
            assert_eq!(text(graphic.at(BY_037), b"\x40\x40\x40"), "   ", "{ccsid}");
        }
        let other = Leaf::graphic(300);
        assert_eq!(text(other, b"\x40\x40"), "@@");
        assert_eq!(text(other.at(BY_037), b"\x40\x40"), "  ");
    }
}
