//! The SQLCA that stands before a row, or in place of one. A row without it begins FF, which says that there is none; behind it, as behind that FF, one
//! byte says whether a row follows. Only what the walk needs is read, in the form in which the recorded server sends it.

/// The SQLCODE that says that no row is left.
const NO_MORE_ROWS: i32 = 100;

#[derive(Debug, Clone, PartialEq, Eq)]
pub struct Status {
    pub code: i32,
    /// The second of its six numbers, in which this server sends how many rows there are.
    pub rows: i32,
    /// Bytes before the last two. Those are FF (no diagnostics) and 00 where a row follows, so that what is left begins as a row does.
    pub length: usize,
    pub row_follows: bool,
}

impl Status {
    pub fn is_query_end(&self) -> bool {
        self.code == NO_MORE_ROWS && !self.row_follows
    }

    /// All its bytes, where no row follows.
    pub fn whole(&self) -> usize {
        self.length + 2
    }
}

/// None where the bytes are no such SQLCA.
pub fn read(rest: &[u8]) -> Option<Status> {
    let mut left = Left(rest);
    left.expect(&[0x00])?;
    let code = left.number()?;
    // SQLSTATE and the product's name
    left.take(5 + 8)?;
    left.expect(&[0x00])?;
    let numbers = [left.number()?, left.number()?];
    // four numbers more, and the eleven warning flags
    left.take(4 * 4 + 11)?;
    for _ in ["database", "message", "message of one byte a character"] {
        left.text()?;
    }
    let length = rest.len() - left.0.len();
    let row_follows = match left.take(2)? {
        [0xFF, 0x00] => true,
        [0xFF, 0xFF] => false,
        _ => return None,
    };
    Some(Status {
        code,
        rows: numbers[1],
        length,
        row_follows,
    })
}

/// Bytes not yet read.
struct Left<'a>(&'a [u8]);

impl<'a> Left<'a> {
    fn take(&mut self, count: usize) -> Option<&'a [u8]> {
        let (taken, left) = self.0.split_at_checked(count)?;
        self.0 = left;
        Some(taken)
    }

    fn expect(&mut self, wanted: &[u8]) -> Option<()> {
        (self.take(wanted.len())? == wanted).then_some(())
    }

    fn number(&mut self) -> Option<i32> {
        Some(i32::from_be_bytes(self.take(4)?.try_into().ok()?))
    }

    /// Bytes behind their number.
    fn text(&mut self) -> Option<&'a [u8]> {
        let length = u16::from_be_bytes(self.take(2)?.try_into().ok()?);
        self.take(length.into())
    }
}

#[cfg(test)]
mod tests {
    use super::*;

    fn query_end() -> Vec<u8> {
        let mut bytes = vec![0x00, 0x00, 0x00, 0x00, 0x64];
        bytes.extend(b"02000CSS10140");
        bytes.push(0x00);
        for number in [0, 7, 0, 0, 0, 0_i32] {
            bytes.extend(number.to_be_bytes());
        }
        bytes.extend([b' '; 11]);
        bytes.extend([0; 6]);
        bytes.extend([0xFF, 0xFF]);
        bytes
    }

    #[test]
    fn the_query_end_is_read() {
        let end = query_end();
        let status = read(&end).unwrap();
        assert_eq!(
            (status.code, status.rows, status.length),
            (100, 7, end.len() - 2)
        );
        assert!(status.is_query_end());
        assert_eq!(status.whole(), 62);
        for cut in 0..end.len() {
            assert_eq!(read(&end[..cut]), None, "{cut}");
        }
    }

    #[test]
    fn a_row_may_follow() {
        let mut warning = query_end();
        *warning.last_mut().unwrap() = 0x00;
        warning[4] = 0x65;
        let status = read(&warning).unwrap();
        assert!(status.row_follows && !status.is_query_end());
        for place in [0, 18, 60, 61] {
            let mut other = query_end();
            other[place] = 0x01;
            assert_eq!(read(&other), None, "{place}");
        }
    }
}
