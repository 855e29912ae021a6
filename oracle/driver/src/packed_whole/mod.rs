//! Packed decimals as whole numbers. The Rust has no such reading: this is a second opinion, by z/Architecture's rules and i128 arithmetic over the
//! nibbles. Where it accepts, the Rust's text of the same bytes tells the same number, save of sign B, which is plus there.
//!
//! - `inputs`: the decimals that are asked about by rule
//! - `model`: a reading with a switch for each fault
pub mod inputs;
pub mod model;

use crate::leaf::{Leaf, DECIMAL_LIMIT};
use crate::rust_side;

/// The number, or the refusal's.
pub fn read(data: &[u8]) -> Result<i64, u32> {
    // From the right: the sign, then the digits of 1, 10, 100 and so on.
    let mut nibbles = data.iter().rev().flat_map(|byte| [byte & 0x0F, byte >> 4]);
    let sign = nibbles.next().ok_or(6_u32)?;
    if data.len() > DECIMAL_LIMIT {
        return Err(7);
    }
    if nibbles.clone().any(|digit| digit > 9) {
        return Err(12);
    }
    let sign = match sign {
        0xA | 0xC | 0xE | 0xF => 1,
        0xB | 0xD => -1,
        _ => return Err(13),
    };
    let mut digits = nibbles.zip(0..).filter(|(digit, _)| *digit != 0);
    let sum = digits.try_fold(0_i128, |sum, (digit, place)| {
        let value = 10_i128.checked_pow(place)?.checked_mul(digit.into())?;
        sum.checked_add(value)
    });
    // What an i128 does not hold is outside of the range too.
    let number = sum.and_then(|sum| i64::try_from(sign * sum).ok());
    number.ok_or(14)
}

/// Whether the Rust's text of the same bytes, without its point, tells this number: without its minus where the sign is B.
pub fn is_in_the_rusts_text(number: i64, data: &[u8], scale: u8) -> bool {
    let number = i128::from(number);
    let told = match data.last().map(|byte| byte & 0x0F) {
        Some(0xB) => number.abs(),
        _ => number,
    };
    let text = rust_side::text(Leaf::decimal(scale), data);
    text.replace('.', "").parse() == Ok(told)
}

#[cfg(test)]
mod tests {
    use super::*;
    use crate::inputs::{fill, random_length, random_scale, random_style};
    use crate::random::Random;
    use crate::request::bytes;
    use std::ops::ControlFlow::Continue;

    fn of(digits: &str) -> Result<i64, u32> {
        read(&bytes(digits).unwrap())
    }

    #[test]
    fn signs() {
        for (sign, number) in [("A", 1), ("B", -1), ("C", 1), ("D", -1), ("E", 1), ("F", 1)] {
            assert_eq!(of(&format!("1{sign}")), Ok(number));
            assert_eq!(of(&format!("0{sign}")), Ok(0));
        }
        for sign in 0..=9 {
            assert_eq!(of(&format!("1{sign}")), Err(13));
        }
    }

    #[test]
    fn the_range_and_zeros_in_front() {
        for zeros in ["", "00", "000000000000", &"00".repeat(118)] {
            let of = |digits: &str| of(&format!("{zeros}{digits}"));
            assert_eq!(of("9223372036854775807C"), Ok(i64::MAX));
            assert_eq!(of("9223372036854775808D"), Ok(i64::MIN));
            assert_eq!(of("9223372036854775808C"), Err(14));
            assert_eq!(of("9223372036854775809D"), Err(14));
            assert_eq!(of("9999999999999999999B"), Err(14));
            assert_eq!(of("1000000000000000000E"), Ok(1_000_000_000_000_000_000));
        }
        // 2^64, 2^127, 2^128, and the largest: more digits than an i128 holds.
        assert_eq!(of("018446744073709551616C"), Err(14));
        assert_eq!(of("170141183460469231731687303715884105728C"), Err(14));
        assert_eq!(of("340282366920938463463374607431768211456D"), Err(14));
        assert_eq!(of(&format!("{}9C", "99".repeat(127))), Err(14));
        assert_eq!(of(&format!("1{}0C", "00".repeat(126) + "0")), Err(14));
    }

    #[test]
    fn refusals_in_their_order() {
        assert_eq!(of("-"), Err(6));
        assert_eq!(of(&"FF".repeat(129)), Err(7));
        assert_eq!(of(&format!("{}0C", "00".repeat(127))), Ok(0));
        assert_eq!(of(&format!("{}0C", "00".repeat(128))), Err(7));
        assert_eq!(of("A0"), Err(12));
        assert_eq!(of("0A0C"), Err(12));
        assert_eq!(of("A9999999999999999999999C"), Err(12));
        assert_eq!(of("99999999999999999999F0"), Err(12));
        assert_eq!(of("99999999999999999990"), Err(13));
    }

    /// Over the inputs by rule, every two bytes, and random ones.
    #[test]
    fn the_rusts_text_tells_the_same_number() {
        let mut accepted = 0;
        let mut hold = |data: &[u8], scale: u8| {
            if let Ok(number) = read(data) {
                accepted += 1;
                assert!(is_in_the_rusts_text(number, data, scale), "{data:02X?}");
            }
        };
        let by_rule = inputs::by_rule(&mut |leaf, data| {
            if let Leaf::PackedWhole { scale } = leaf {
                hold(data, scale);
            }
            Continue(())
        });
        assert!(by_rule.is_continue());
        for pair in 0..=0xFFFF_u16 {
            hold(&pair.to_be_bytes(), pair as u8);
        }
        let mut random = Random::new(1);
        let mut data = Vec::new();
        for _ in 0..200_000 {
            let scale = random_scale(&mut random);
            let style = random_style(&mut random, Leaf::PackedWhole { scale });
            let length = random_length(&mut random).min(DECIMAL_LIMIT);
            fill(&mut random, style, length, &mut data);
            hold(&data, scale);
        }
        assert!(accepted > 100_000, "{accepted}");
    }
}
