//! A packed decimal read as a whole number, a third time, plainly and with a switch for each fault. Without one it gives the archive's answers; with one
//! it is a wrong library, whose fault shows only on some inputs, as a real one would.
use crate::leaf::DECIMAL_LIMIT;
use port::PackedWhole;

/// What is done wrong.
#[derive(Debug, Clone, Copy, PartialEq, Eq)]
pub enum Misread {
    /// This sign is minus where it is plus, or plus where it is minus.
    Turned(u8),
    /// This sign is none.
    NoSign(u8),
    /// Every nibble is a sign, and 0 to 9 are plus.
    AnySign,
    /// 9 is a sign too.
    NineIsASign,
    /// Every nibble is a digit, and A is ten.
    AnyDigit,
    /// A is a digit too.
    TenIsADigit,
    /// The first digit is not tested.
    FirstUntested,
    /// The last digit is not tested.
    LastUntested,
    /// High nibbles are not tested.
    HighUntested,
    /// Low nibbles are not tested.
    LowUntested,
    /// Digits are not tested that no number in range has.
    FrontUntested,
    /// The eighth byte of each eight is not tested.
    EighthUntested,
    /// The refusals come in another order.
    Order([u32; 5]),
    /// This refusal comes before 7.
    BeforeSeven(u32),
    /// No byte is the number 0.
    EmptyIsZero,
    /// No byte is a bad sign.
    EmptyIsNoSign,
    /// Refusal 7 at 128 bytes.
    LimitEarly,
    /// No refusal 7 at 129 bytes.
    LimitLate,
    /// -2^63 is out of range.
    NoMinimum,
    /// 2^63 - 1 is out of range.
    NoMaximum,
    /// 2^63 is in range, and its 64 bits are taken for a signed number.
    AboveMaximum,
    /// -2^63 - 1 is in range, in the same way.
    BelowMinimum,
    /// Digits are summed up in 64 bits, and what goes beyond is lost.
    SumOf64Bits,
    /// Every number is in range, by its last 64 bits.
    NoRange,
    /// A number of 19 digits is out of range.
    EighteenDigits,
    /// More bytes than these are out of range, whatever zeros are in front.
    LongOutOfRange(usize),
    /// Only so many bytes count, the last ones.
    LastBytes(usize),
    /// The first digit does not count.
    FirstLost,
    /// The first digit of so many bytes does not count.
    FirstLostOf(usize),
    /// The digit of this power of ten does not count.
    PowerLost(usize),
    /// Minus zero is out of range.
    NoMinusZero,
    /// Minus zero is the smallest number.
    MinusZeroIsMinimum,
    /// The number is multiplied by the scale's power of ten.
    ScaleMultiplies,
    /// The number is divided by it.
    ScaleDivides,
    /// A scale above 31 is out of range.
    ScaleOutOfRange,
    /// The scale handed back is 0.
    ScaleLost,
    /// The scale is not handed back.
    ScaleUnwritten,
    /// The number stays beside this refusal.
    NumberKept(u32),
    /// The scale stays beside this refusal.
    ScaleKept(u32),
    /// A refusal writes no number.
    NumberUnwritten,
}

/// The order of refusals.
const ORDER: [u32; 5] = [6, 7, 12, 13, 14];

/// 13 before 12, 14 before 13, and 14 before both.
const ORDERS: [[u32; 5]; 3] = [[6, 7, 13, 12, 14], [6, 7, 12, 14, 13], [6, 7, 14, 12, 13]];

pub fn all() -> Vec<Misread> {
    let mut all = Vec::new();
    all.extend((0xA..=0xF).map(Misread::Turned));
    all.extend((0xA..=0xF).map(Misread::NoSign));
    all.extend([
        Misread::AnySign,
        Misread::NineIsASign,
        Misread::AnyDigit,
        Misread::TenIsADigit,
        Misread::FirstUntested,
        Misread::LastUntested,
        Misread::HighUntested,
        Misread::LowUntested,
        Misread::FrontUntested,
        Misread::EighthUntested,
    ]);
    all.extend(ORDERS.map(Misread::Order));
    all.extend([12, 13, 14].map(Misread::BeforeSeven));
    all.extend([
        Misread::EmptyIsZero,
        Misread::EmptyIsNoSign,
        Misread::LimitEarly,
        Misread::LimitLate,
        Misread::NoMinimum,
        Misread::NoMaximum,
        Misread::AboveMaximum,
        Misread::BelowMinimum,
        Misread::SumOf64Bits,
        Misread::NoRange,
        Misread::EighteenDigits,
    ]);
    all.extend([10, 16].map(Misread::LongOutOfRange));
    all.extend([8, 10, 16].map(Misread::LastBytes));
    all.extend([8, 9, 16, 17, 33, 128].map(Misread::FirstLostOf));
    all.extend([0, 7, 8, 15, 16, 18].map(Misread::PowerLost));
    all.extend([
        Misread::FirstLost,
        Misread::NoMinusZero,
        Misread::MinusZeroIsMinimum,
        Misread::ScaleMultiplies,
        Misread::ScaleDivides,
        Misread::ScaleOutOfRange,
        Misread::ScaleLost,
        Misread::ScaleUnwritten,
    ]);
    all.extend([12, 13, 14].map(Misread::NumberKept));
    all.extend(ORDER.map(Misread::ScaleKept));
    all.push(Misread::NumberUnwritten);
    all
}

pub struct Model(pub Option<Misread>);

impl Model {
    pub fn answer(&self, data: &[u8], scale: u8) -> PackedWhole {
        match self.refusal(data, scale) {
            None => PackedWhole {
                number: 0,
                whole: self.whole(data, scale),
                scale: match self.0 {
                    Some(Misread::ScaleLost) => 0,
                    Some(Misread::ScaleUnwritten) => u8::MAX,
                    _ => scale,
                },
            },
            Some(number) => PackedWhole {
                number,
                whole: match self.0 {
                    Some(Misread::NumberKept(kept)) if kept == number => self.whole(data, scale),
                    Some(Misread::NumberUnwritten) => i64::MAX,
                    _ => 0,
                },
                scale: match self.0 {
                    Some(Misread::ScaleKept(kept)) if kept == number => scale,
                    _ => 0,
                },
            },
        }
    }

    fn refusal(&self, data: &[u8], scale: u8) -> Option<u32> {
        let order = match self.0 {
            Some(Misread::Order(order)) => order,
            Some(Misread::BeforeSeven(number)) if self.is_too_long(data) => [number, 7, 7, 7, 7],
            _ => ORDER,
        };
        let holds = |number: &u32| match number {
            6 => self.is_empty(data),
            7 => self.is_too_long(data),
            12 => self.has_no_digit(data),
            13 => self.has_no_sign(data),
            _ => self.is_out_of_range(data, scale),
        };
        order.into_iter().find(holds)
    }

    fn is_empty(&self, data: &[u8]) -> bool {
        let accepted = matches!(
            self.0,
            Some(Misread::EmptyIsZero) | Some(Misread::EmptyIsNoSign)
        );
        data.is_empty() && !accepted
    }

    fn is_too_long(&self, data: &[u8]) -> bool {
        data.len()
            > match self.0 {
                Some(Misread::LimitEarly) => DECIMAL_LIMIT - 1,
                Some(Misread::LimitLate) => DECIMAL_LIMIT + 1,
                _ => DECIMAL_LIMIT,
            }
    }

    fn has_no_digit(&self, data: &[u8]) -> bool {
        let digits = digits(data);
        let most = match self.0 {
            Some(Misread::AnyDigit) => 0xF,
            Some(Misread::TenIsADigit) => 0xA,
            _ => 9,
        };
        let tested = |place: usize| match self.0 {
            Some(Misread::FirstUntested) => place > 0,
            Some(Misread::LastUntested) => place + 1 < digits.len(),
            Some(Misread::HighUntested) => place % 2 == 1,
            Some(Misread::LowUntested) => place.is_multiple_of(2),
            Some(Misread::FrontUntested) => digits.len() - place <= 19,
            Some(Misread::EighthUntested) => place / 2 % 8 < 7,
            _ => true,
        };
        let mut places = digits.iter().enumerate();
        places.any(|(place, digit)| *digit > most && tested(place))
    }

    fn has_no_sign(&self, data: &[u8]) -> bool {
        match (self.0, sign(data)) {
            (misread, None) => misread == Some(Misread::EmptyIsNoSign),
            (Some(Misread::NoSign(none)), Some(sign)) if sign == none => true,
            (Some(Misread::AnySign), _) => false,
            (Some(Misread::NineIsASign), Some(sign)) => sign < 9,
            (_, Some(sign)) => sign < 0xA,
        }
    }

    fn is_out_of_range(&self, data: &[u8], scale: u8) -> bool {
        let number = self.number(data);
        let (mut least, mut most) = (i128::from(i64::MIN), i128::from(i64::MAX));
        match self.0 {
            Some(Misread::NoMinimum) => least += 1,
            Some(Misread::NoMaximum) => most -= 1,
            Some(Misread::BelowMinimum) => least -= 1,
            Some(Misread::AboveMaximum) => most += 1,
            Some(Misread::EighteenDigits) => {
                most = 10_i128.pow(18) - 1;
                least = -most;
            }
            Some(Misread::NoRange) => return false,
            Some(Misread::LongOutOfRange(bytes)) if data.len() > bytes => return true,
            Some(Misread::NoMinusZero) if number == 0 && is_minus(data) => return true,
            Some(Misread::ScaleOutOfRange) if scale > 31 => return true,
            _ => {}
        }
        !(least..=most).contains(&number)
    }

    /// The number that is answered.
    fn whole(&self, data: &[u8], scale: u8) -> i64 {
        let number = self.number(data) as i64;
        let power = 10_i64.pow(u32::from(scale.min(18)));
        match self.0 {
            Some(Misread::ScaleMultiplies) => number.wrapping_mul(power),
            Some(Misread::ScaleDivides) => number / power,
            Some(Misread::MinusZeroIsMinimum) if number == 0 && is_minus(data) => i64::MIN,
            _ => number,
        }
    }

    /// The number that the digits and the sign make. What an i128 does not hold is its largest or smallest.
    fn number(&self, data: &[u8]) -> i128 {
        let bytes = match self.0 {
            Some(Misread::LastBytes(count)) => &data[data.len().saturating_sub(count)..],
            _ => data,
        };
        let digits = digits(bytes);
        let counts = |place: usize| match self.0 {
            Some(Misread::FirstLost) => place > 0,
            Some(Misread::FirstLostOf(length)) if length == data.len() => place > 0,
            Some(Misread::PowerLost(power)) => place + power + 1 != digits.len(),
            _ => true,
        };
        let sum = (0..digits.len()).fold(0_i128, |sum, place| {
            let digit = if counts(place) { digits[place] } else { 0 };
            let sum = sum.saturating_mul(10).saturating_add(digit.into());
            match self.0 {
                Some(Misread::SumOf64Bits) => sum % (1 << 64),
                _ => sum,
            }
        });
        let turned = sign(data).is_some_and(|sign| self.0 == Some(Misread::Turned(sign)));
        match is_minus(data) != turned {
            true => -sum,
            false => sum,
        }
    }
}

/// All nibbles but the last.
fn digits(data: &[u8]) -> Vec<u8> {
    let mut nibbles: Vec<u8> = data
        .iter()
        .flat_map(|byte| [byte >> 4, byte & 0xF])
        .collect();
    nibbles.pop();
    nibbles
}

fn sign(data: &[u8]) -> Option<u8> {
    data.last().map(|byte| byte & 0xF)
}

fn is_minus(data: &[u8]) -> bool {
    matches!(sign(data), Some(0xB | 0xD))
}

#[cfg(test)]
mod tests {
    use super::*;
    use crate::compare::{Run, Stage};
    use crate::faults::{Fault, Faulty};
    use crate::leaf::Leaf;
    use crate::packed_whole::inputs::by_rule;
    use crate::port_side::{Archive, Library};
    use crate::releases::PORTED;
    use crate::run::Until;
    use crate::shrink::{held_to, middle_left_out};
    use std::ops::ControlFlow::Continue;

    #[test]
    fn without_a_fault_the_model_is_right() {
        let right = by_rule(&mut |leaf, data| {
            if let Leaf::PackedWhole { scale } = leaf {
                let answer = Model(None).answer(data, scale);
                assert_eq!(answer, Archive.packed_whole(data, scale), "{data:02X?}");
            }
            Continue(())
        });
        assert!(right.is_continue());
    }

    /// A fault, after how many cases it was noticed, and the smallest input that shows it, as the wrong library answers it.
    fn noticed(misread: Misread) -> String {
        let library = Faulty(Fault::Misread(misread));
        let mut run = Run::new(library, 1, Until::Cases(1_000_000), PORTED);
        let difference = run.from(Stage::PackedWholes).difference();
        let difference = difference.unwrap_or_else(|| panic!("{misread:?} was not noticed"));
        let line = middle_left_out(&difference.port);
        format!("{misread:?} {} {line}\n", run.cases())
    }

    #[test]
    fn every_fault_is_noticed_and_its_input_made_small() {
        let noticed: String = all().into_iter().map(noticed).collect();
        held_to(
            include_str!("faults.txt"),
            &noticed,
            "packed-whole-faults.txt",
        );
    }
}
