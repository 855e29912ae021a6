//! What the `Display` and `Debug` of several types share.
use std::fmt::{self, Write};

/// Writes a text with the width and alignment that are asked for, and all of it: a precision is for floats, and cuts nothing else. Without a
/// width nothing is allocated.
pub(crate) fn pad(f: &mut fmt::Formatter<'_>, text: fmt::Arguments<'_>) -> fmt::Result {
    let Some(width) = f.width() else {
        return f.write_fmt(text);
    };
    let text = text.to_string();
    let lacking = width.saturating_sub(text.chars().count());
    let before = match f.align() {
        Some(fmt::Alignment::Right) => lacking,
        Some(fmt::Alignment::Center) => lacking / 2,
        _ => 0,
    };
    let fill = f.fill();
    (0..before).try_for_each(|_| f.write_char(fill))?;
    f.write_str(&text)?;
    (before..lacking).try_for_each(|_| f.write_char(fill))
}

/// Bytes in upper-case hexadecimal: `8B1A` by `Display`, `X'8B1A'` by `Debug`, which shows the first bytes of many and says how many
/// there are.
pub(crate) struct Hex<'a>(pub &'a [u8]);

// The most bytes that `Debug` shows.
const SHOWN: usize = 64;

impl fmt::Display for Hex<'_> {
    fn fmt(&self, f: &mut fmt::Formatter<'_>) -> fmt::Result {
        self.0.iter().try_for_each(|byte| write!(f, "{byte:02X}"))
    }
}

impl fmt::Debug for Hex<'_> {
    fn fmt(&self, f: &mut fmt::Formatter<'_>) -> fmt::Result {
        let bytes = self.0;
        match bytes.get(..SHOWN) {
            Some(first) if first.len() < bytes.len() => {
                write!(f, "X'{}..' of {} bytes", Hex(first), bytes.len())
            }
            _ => write!(f, "X'{self}'"),
        }
    }
}
