//! Packed decimals as whole numbers. The Rust has no such reading: beside the port's call stands the Rust's text, with the number made of it.
use differential::leaf::Leaf;
use differential::port_side::{Archive, Library};
use differential::rust_side;

/// By the Rust's text. Its digits are summed up in one pass that leaves out the point: nothing is copied, and nothing more allocated.
pub fn rust(data: &[u8], scale: u8) -> Option<i64> {
    let text = rust_side::text(Leaf::decimal(scale), data);
    let (is_minus, digits) = match text.as_bytes() {
        [b'-', digits @ ..] => (true, digits),
        digits => (false, digits),
    };
    let mut digits = digits.iter().filter(|digit| **digit != b'.');
    // Below zero, where the smallest number finds its place.
    let sum = digits.try_fold(0_i64, |sum, digit| {
        sum.checked_mul(10)?.checked_sub((digit - b'0').into())
    })?;
    match is_minus {
        true => Some(sum),
        false => sum.checked_neg(),
    }
}

pub fn port(data: &[u8], scale: u8) -> Option<i64> {
    let answer = Archive.packed_whole(data, scale);
    (answer.number == 0).then_some(answer.whole)
}

/// The number, so that neither side's can be left out.
pub fn read(number: Option<i64>) -> u64 {
    number.map_or(0, |number| number as u64)
}
