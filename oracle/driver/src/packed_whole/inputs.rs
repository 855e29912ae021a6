//! Packed decimals around all that their reading as whole numbers goes by: signs, digits and what is none, the ends of the range and of 64 bits, zeros in
//! front, lengths, scales, and several causes for a refusal at once.
use crate::inputs::Case;
use crate::leaf::{Leaf, DECIMAL_LIMIT};
use crate::run::Flow;
use std::iter::once;
use std::ops::ControlFlow::Continue;

/// All that go by rule. They take the scales in turn, each with the next one.
pub fn by_rule(case: Case) -> Flow {
    let mut next: u8 = 0;
    let mut ask = |data: &[u8]| {
        next = next.wrapping_add(1);
        case(Leaf::PackedWhole { scale: next }, data)
    };
    short(&mut ask)?;
    numbers_with_zeros(&mut ask)?;
    places(&mut ask)?;
    too_long(&mut ask)?;
    scales(case)
}

/// Asks about bytes with the next scale.
type Ask<'a> = &'a mut dyn FnMut(&[u8]) -> Flow;

/// The bytes of digits and a sign. So many bytes: zeros fill them in front, and digits that find no place there are left out.
pub fn packed(digits: &[u8], sign: u8, length: usize) -> Vec<u8> {
    let nibble = |from_right: usize| match (from_right, digits.len().checked_sub(from_right)) {
        (0, _) => sign,
        (_, Some(place)) => digits[place],
        (_, None) => 0,
    };
    let bytes = (0..length).rev();
    bytes
        .map(|byte| nibble(2 * byte + 1) << 4 | nibble(2 * byte))
        .collect()
}

pub fn digits_of(number: u128) -> Vec<u8> {
    let text = number.to_string();
    text.bytes().map(|digit| digit - b'0').collect()
}

/// The fewest bytes that hold so many digits and a sign.
fn least(digits: usize) -> usize {
    digits / 2 + 1
}

/// Lengths of which each one may be read otherwise: those of one, two and three words, and around powers of two.
fn lengths() -> impl Iterator<Item = usize> + Clone {
    (1..=20).chain([24, 25, 31, 32, 33, 63, 64, 65, 127, DECIMAL_LIMIT])
}

/// No byte, every byte, and up to four bytes of digits that are the first, the last or just none, with every sign.
fn short(ask: Ask) -> Flow {
    const EDGES: [u8; 3] = [0x0, 0x9, 0xA];
    ask(&[])?;
    for byte in 0..=0xFF {
        ask(&[byte])?;
    }
    for length in 2..=4 {
        let count = 2 * length - 1;
        for number in 0..EDGES.len().pow(count as u32) {
            let mut rest = number;
            let mut digit = || {
                let digit = EDGES[rest % EDGES.len()];
                rest /= EDGES.len();
                digit
            };
            let digits: Vec<u8> = (0..count).map(|_| digit()).collect();
            for sign in 0..=0xF {
                ask(&packed(&digits, sign, length))?;
            }
        }
    }
    Continue(())
}

/// Numbers around powers of two and ten and around multiples of 2^63, in as few bytes as hold them with every sign, and with zeros in front.
fn numbers_with_zeros(ask: Ask) -> Flow {
    let twos = (0..=127).map(|power| 1_u128 << power);
    let tens = (0..=38).map(|power| 10_u128.pow(power));
    let wraps = (1..=40).map(|times| times << 63);
    for middle in twos.chain(tens).chain(wraps) {
        for number in middle.saturating_sub(2)..=middle + 2 {
            let digits = digits_of(number);
            let least = least(digits.len());
            for sign in 0..=0xF {
                ask(&packed(&digits, sign, least))?;
            }
            let longer = lengths().chain(once(DECIMAL_LIMIT + 1));
            for length in longer.filter(|length| *length > least) {
                for sign in [0x9, 0xB, 0xC, 0xD] {
                    ask(&packed(&digits, sign, length))?;
                }
            }
        }
    }
    Continue(())
}

/// Every digit, and every nibble that is none, at every place among zeros, and those that are none among nines; with a sign and without one.
fn places(ask: Ask) -> Flow {
    for length in lengths() {
        let count = 2 * length - 1;
        for place in 0..count {
            for digit in 1..=0xF {
                let others: &[u8] = if digit > 9 { &[0, 9] } else { &[0] };
                for other in others {
                    let mut digits = vec![*other; count];
                    digits[place] = digit;
                    for sign in [0x0, 0xC, 0xD] {
                        ask(&packed(&digits, sign, length))?;
                    }
                }
            }
        }
    }
    Continue(())
}

/// More bytes than a packed decimal has, with each other cause for a refusal and with none.
fn too_long(ask: Ask) -> Flow {
    for length in (DECIMAL_LIMIT + 1..=DECIMAL_LIMIT + 9).chain([192, 255, 256, 257, 384, 65_664]) {
        for digit in [0x0, 0x1, 0x9, 0xA, 0xF] {
            for place in [0, 1, length, 2 * length - 3, 2 * length - 2] {
                let mut digits = vec![0; 2 * length - 1];
                digits[place] = digit;
                for sign in [0x0, 0x9, 0xA, 0xD] {
                    ask(&packed(&digits, sign, length))?;
                }
            }
        }
    }
    Continue(())
}

/// Every scale with an input of each kind of answer.
fn scales(case: Case) -> Flow {
    let least = least(19);
    let end = digits_of(1 << 63);
    let inputs = [
        vec![],
        vec![0x0C],
        vec![0x1D],
        vec![0x12, 0x3F],
        vec![0x10],
        vec![0xA0],
        packed(&digits_of((1 << 63) - 1), 0xC, least),
        packed(&end, 0xD, least),
        packed(&end, 0xC, least),
        packed(&end, 0xB, DECIMAL_LIMIT),
        packed(&end, 0xB, DECIMAL_LIMIT + 1),
    ];
    for scale in 0..=0xFF {
        for data in &inputs {
            case(Leaf::PackedWhole { scale }, data)?;
        }
    }
    Continue(())
}

#[cfg(test)]
mod tests {
    use super::*;
    use crate::packed_whole::read;

    #[test]
    fn digits_and_signs_stand_where_they_must() {
        assert_eq!(packed(&[1, 2, 3], 0xD, 2), [0x12, 0x3D]);
        assert_eq!(packed(&[1, 2, 3], 0xD, 4), [0x00, 0x00, 0x12, 0x3D]);
        assert_eq!(packed(&[1, 2, 3], 0xD, 1), [0x3D]);
        assert_eq!(packed(&[], 0xC, 1), [0x0C]);
        assert_eq!(packed(&[1], 0xC, 0), []);
        assert_eq!(digits_of(1 << 63).len(), 19);
        for (digits, bytes) in [(1, 1), (2, 2), (3, 2), (18, 10), (19, 10), (20, 11)] {
            assert_eq!(least(digits), bytes);
        }
    }

    /// How many inputs get which answer: none is rare.
    #[test]
    fn every_answer_is_among_them() {
        let mut counts = [0; 15];
        let by_rule = by_rule(&mut |_, data| {
            counts[read(data).err().unwrap_or(0) as usize] += 1;
            Continue(())
        });
        assert!(by_rule.is_continue());
        assert_eq!(counts[6], 257);
        for answer in [0, 7, 12, 13, 14] {
            assert!(counts[answer] > 1000, "{answer}: {}", counts[answer]);
        }
    }
}
