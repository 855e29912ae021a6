//! A description changed before it is read, as `docs/HOSTS.md` tells a caller to: its columns are then read as the client reads them.

/// The code to put in place of another: a CHAR is a varying text, bit data and objects are bytes behind their length.
fn code(sent: u8) -> u8 {
    match sent {
        0x3E => 0x32,
        0x3F => 0x33,
        0x28 | 0x2A | 0x50 => 0x62,
        0x29 | 0x2B | 0x51 => 0x63,
        other => other,
    }
}

/// The description so changed, and what continues a group (`7F 00`) made a group of its own (`76 D0`).
pub fn mended(description: &[u8]) -> Vec<u8> {
    let mut other = description.to_vec();
    let mut at = 0;
    while at + 2 < other.len() && other[at] >= 2 {
        let end = other.len().min(at + usize::from(other[at]));
        if is_continuation(&other[at..]) {
            other[at + 1..at + 3].copy_from_slice(&[0x76, 0xD0]);
        }
        if other[at + 1..at + 3] == [0x76, 0xD0] {
            let lids = other[at + 3..end.max(at + 3)].iter_mut().step_by(3);
            lids.for_each(|lid| *lid = code(*lid));
        }
        at = end;
    }
    other
}

fn is_continuation(triplet: &[u8]) -> bool {
    triplet.get(1..3) == Some(&[0x7F, 0x00])
}

/// Whether a triplet continues the one before it.
pub fn is_continued(description: &[u8]) -> bool {
    let mut at = 0;
    while at + 2 < description.len() && description[at] >= 2 {
        if is_continuation(&description[at..]) {
            return true;
        }
        at += usize::from(description[at]);
    }
    false
}

#[cfg(test)]
mod tests {
    use super::*;

    #[test]
    fn codes_are_changed_in_groups_alone() {
        let sent = [
            0x0C, 0x76, 0xD0, 0x3E, 0x3E, 0x28, 0x28, 0x00, 0x3F, 0x02, 0x00, 0x04, 0x06, 0x71,
            0xD0, 0x3E, 0x00, 0x01, 0x06, 0x76, 0xE0, 0x3E, 0x00, 0x01,
        ];
        let mut wanted = sent;
        wanted[3] = 0x32;
        wanted[6] = 0x62;
        assert_eq!(mended(&sent), wanted);
        assert!(!is_continued(&sent));
    }

    #[test]
    fn what_continues_a_group_becomes_one() {
        let continued = [0x06, 0x76, 0xD0, 4, 0, 2, 0x06, 0x7F, 0x00, 0x29, 0, 2];
        let whole = [0x06, 0x76, 0xD0, 4, 0, 2, 0x06, 0x76, 0xD0, 0x63, 0, 2];
        assert_eq!(mended(&continued), whole);
        assert!(is_continued(&continued));
        for plain in [
            &[0x06, 0x76, 0xD0, 0x7F, 0x00, 0x02][..],
            &[0x00, 0x7F, 0x00],
            &[],
        ] {
            assert!(!is_continued(plain));
        }
    }

    #[test]
    fn what_breaks_off_is_left() {
        for cut in [
            &[0x09, 0x76, 0xD0, 0x02, 0x00][..],
            &[0x02, 0x76, 0xD0],
            &[0x06, 0x76],
        ] {
            assert_eq!(mended(cut), cut);
        }
    }
}
