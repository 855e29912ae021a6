//! Packed decimals as whole numbers.
mod common;

use common::Random;
use vejupa::raw::{self, PackedWholeAnswer, ACCEPTED};
use vejupa::{
    decode_packed_decimal, decode_packed_whole, decode_row, decode_row_into, Buffers, Column,
    Columns, Db2Type, Refusal, Value, MAX_DECIMAL,
};

/// The same by plain arithmetic, which stops at the ends of an `i128`, far outside of the range.
fn by_arithmetic(data: &[u8]) -> Result<i64, Refusal> {
    let mut nibbles: Vec<u8> = data.iter().flat_map(|b| [b >> 4, b & 0x0F]).collect();
    let sign = nibbles.pop().ok_or(Refusal::DecimalEmpty)?;
    if data.len() > 128 {
        return Err(Refusal::DecimalTooLong);
    }
    if nibbles.iter().any(|&digit| digit > 9) {
        return Err(Refusal::DecimalDigit);
    }
    if sign < 0xA {
        return Err(Refusal::DecimalSign);
    }
    let digits = nibbles.into_iter().map(i128::from);
    let size = digits.fold(0_i128, |all, digit| {
        all.saturating_mul(10).saturating_add(digit)
    });
    let number = match sign {
        0xB | 0xD => -size,
        _ => size,
    };
    i64::try_from(number).map_err(|_| Refusal::DecimalOutOfRange)
}

/// Both calls give what the arithmetic gives, with this scale; after a refusal the plain one has zeros.
fn is_as_by_arithmetic(data: &[u8], scale: u8) {
    let expected = by_arithmetic(data);
    let answer = decode_packed_whole(data, scale);
    assert_eq!(answer.map(|whole| whole.number), expected, "{data:X?}");
    let plain = match expected {
        Ok(whole) => PackedWholeAnswer {
            number: ACCEPTED,
            whole,
            scale,
        },
        Err(refusal) => PackedWholeAnswer {
            number: refusal.number(),
            whole: 0,
            scale: 0,
        },
    };
    assert_eq!(raw::decode_packed_whole(data, scale), plain, "{data:X?}");
    if let Ok(whole) = answer {
        assert_eq!(whole.scale, scale);
    }
}

/// Digits and a sign in so many bytes, with zeros before them.
fn packed(digits: &str, sign: u8, length: usize) -> Vec<u8> {
    let count = 2 * length - 1;
    let digits = format!("{digits:0>count$}").into_bytes();
    assert_eq!(digits.len(), count);
    let nibbles: Vec<u8> = digits.iter().map(|d| d - b'0').chain([sign]).collect();
    nibbles
        .chunks(2)
        .map(|pair| pair[0] << 4 | pair[1])
        .collect()
}

const SIGNS: [u8; 6] = [0xA, 0xB, 0xC, 0xD, 0xE, 0xF];

#[test]
fn all_of_up_to_two_bytes() {
    is_as_by_arithmetic(&[], 2);
    for n in 0..=u16::MAX {
        let data = n.to_be_bytes();
        is_as_by_arithmetic(&data, data[0]);
        is_as_by_arithmetic(&data[1..], data[1]);
    }
}

/// What digits come to with a plus and with a minus sign, in as few bytes as can be and behind any number of zeros.
fn come_to(digits: &str, plus: Result<i64, Refusal>, minus: Result<i64, Refusal>) {
    for length in digits.len() / 2 + 1..=MAX_DECIMAL {
        for sign in SIGNS {
            let data = packed(digits, sign, length);
            let expected = match sign {
                0xB | 0xD => minus,
                _ => plus,
            };
            let number = decode_packed_whole(&data, 2).map(|whole| whole.number);
            assert_eq!(number, expected, "{data:X?}");
            is_as_by_arithmetic(&data, 2);
        }
    }
}

#[test]
fn the_ends_of_the_range() {
    let beyond = Err(Refusal::DecimalOutOfRange);
    come_to("0", Ok(0), Ok(0));
    come_to("1", Ok(1), Ok(-1));
    come_to("9223372036854775806", Ok(i64::MAX - 1), Ok(i64::MIN + 2));
    come_to("9223372036854775807", Ok(i64::MAX), Ok(i64::MIN + 1));
    come_to("9223372036854775808", beyond, Ok(i64::MIN));
    come_to("9223372036854775809", beyond, beyond);
    come_to("9999999999999999999", beyond, beyond);
    come_to(&"9".repeat(255), beyond, beyond);
}

/// Around the powers of two: where only so many bits of a number are kept, it is small again.
#[test]
fn around_powers_of_two() {
    for bits in 0..=126 {
        for difference in -5..=5 {
            let number = (1_i128 << bits) + difference;
            if number < 0 {
                continue;
            }
            let digits = number.to_string();
            for sign in SIGNS {
                let shortest = digits.len() / 2 + 1;
                is_as_by_arithmetic(&packed(&digits, sign, shortest), 2);
                is_as_by_arithmetic(&packed(&digits, sign, MAX_DECIMAL), 2);
            }
        }
    }
}

/// Of each number of digits the least and the greatest, up to 255 of them.
#[test]
fn any_number_of_digits() {
    for count in 1..=255 {
        for digits in [format!("1{}", "0".repeat(count - 1)), "9".repeat(count)] {
            for length in [count / 2 + 1, MAX_DECIMAL] {
                is_as_by_arithmetic(&packed(&digits, 0xC, length), 2);
                is_as_by_arithmetic(&packed(&digits, 0xD, length), 2);
            }
        }
    }
    assert_eq!(
        decode_packed_whole(&packed(&"9".repeat(255), 0xC, MAX_DECIMAL), 2),
        Err(Refusal::DecimalOutOfRange)
    );
}

/// Digits at random, mostly with zeros before them, so that many are in the range; now and then with a nibble that may be none.
#[test]
fn numbers_at_random() {
    let mut random = Random(0x9E37_79B9_7F4A_7C15);
    let mut found = [0; 16];
    for _ in 0..100_000 {
        let longest = random.pick(&[3, 10, 12, MAX_DECIMAL + 1]);
        let length = 1 + random.below(longest);
        let most = random.pick(&[19, 20, 21, 255]).min(2 * length - 1);
        let count = random.below(most + 1);
        let digits: String = (0..count)
            .map(|_| char::from(b'0' + random.below(10) as u8))
            .collect();
        let sign = random.pick(&SIGNS);
        let mut data = packed(&digits, sign, length);
        if random.below(4) == 0 {
            let place = random.below(2 * length);
            data[place / 2] ^= (random.below(16) as u8) << (4 * (place % 2));
        }
        is_as_by_arithmetic(&data, random.below(256) as u8);
        found[by_arithmetic(&data).map_or_else(|refusal| refusal.number() as usize, |_| 0)] += 1;
    }
    // All answers were among them, save that there are no bytes.
    for number in [0, 7, 12, 13, 14] {
        assert!(found[number] > 100, "{found:?}");
    }
}

#[test]
fn too_many_bytes_and_none() {
    assert_eq!(decode_packed_whole(&[], 2), Err(Refusal::DecimalEmpty));
    for byte in [0x00, 0x0C, 0x99, 0xFF] {
        for length in [129, 130, 1000, 1_048_577] {
            let data = vec![byte; length];
            assert_eq!(decode_packed_whole(&data, 2), Err(Refusal::DecimalTooLong));
            is_as_by_arithmetic(&data, 2);
        }
    }
    let zeros = packed("", 0xC, 129);
    assert_eq!(decode_packed_whole(&zeros, 2), Err(Refusal::DecimalTooLong));
    let zeros = decode_packed_whole(&zeros[1..], 2).unwrap();
    assert_eq!((zeros.number, zeros.scale), (0, 2));
}

/// A digit above 9 at any place comes before a sign that is none and before the range, and such a sign before the range.
#[test]
fn which_refusal_comes_first() {
    for length in [1, 2, 10, 11, MAX_DECIMAL] {
        for sign in 0..=0xF {
            let data = packed(&"9".repeat(2 * length - 1), sign, length);
            let expected = match (sign, length) {
                (0..=9, _) => Some(Refusal::DecimalSign),
                (_, 1 | 2) => None,
                _ => Some(Refusal::DecimalOutOfRange),
            };
            assert_eq!(decode_packed_whole(&data, 2).err(), expected, "{data:X?}");
            for place in 0..2 * length - 1 {
                for digit in 0xA..=0xF {
                    let mut data = data.clone();
                    data[place / 2] &= 0xF0 >> (4 * (1 - place % 2));
                    data[place / 2] |= digit << (4 * (1 - place % 2));
                    assert_eq!(decode_packed_whole(&data, 2), Err(Refusal::DecimalDigit));
                    is_as_by_arithmetic(&data, 2);
                }
            }
        }
    }
}

/// Through the plain call, with a scale that is not 0.
#[test]
fn a_refusal_leaves_zeros() {
    let too_long = [0x0C; MAX_DECIMAL + 1];
    let too_large = packed("9223372036854775808", 0xC, 10);
    let refused: [(&[u8], u32); 5] = [
        (&[], 6),
        (&too_long, 7),
        (&[0x1A, 0x2C], 12),
        (&[0x12, 0x34], 13),
        (&too_large, 14),
    ];
    for (data, number) in refused {
        for scale in [0, 2, u8::MAX] {
            let expected = PackedWholeAnswer {
                number,
                whole: 0,
                scale: 0,
            };
            assert_eq!(raw::decode_packed_whole(data, scale), expected);
        }
    }
}

#[test]
fn the_scale_is_handed_back() {
    for scale in 0..=u8::MAX {
        let whole = decode_packed_whole(&[0x12, 0x34, 0x5D], scale).unwrap();
        assert_eq!((whole.number, whole.scale), (-12345, scale));
    }
}

/// Beside the text, which has minus for D alone and takes what is no sign as plus.
#[test]
fn signs() {
    for sign in 0..=0xF {
        let data = [0x12, 0x30 | sign];
        let number = decode_packed_whole(&data, 0).map(|whole| whole.number);
        let text = decode_packed_decimal(&data, 0).unwrap();
        let (expected, expected_text) = match sign {
            0x0..=0x9 => (Err(Refusal::DecimalSign), "123"),
            0xB => (Ok(-123), "123"),
            0xD => (Ok(-123), "-123"),
            _ => (Ok(123), "123"),
        };
        assert_eq!((number, text.as_str()), (expected, expected_text));
    }
    // Minus zero.
    assert_eq!(decode_packed_whole(&[0x0D], 0).unwrap().number, 0);
    assert_eq!(decode_packed_decimal(&[0x0D], 0).unwrap(), "-0");
}

fn some_column(random: &mut Random) -> Column {
    let precision = random.pick(&[1, 2, 5, 18, 31, 255]);
    let scale = random.pick(&[0, 2, 5]);
    let column = Column::new(random.pick(&[
        Db2Type::Decimal { precision, scale },
        Db2Type::Decimal { precision, scale },
        Db2Type::Integer,
        Db2Type::Char(3),
        Db2Type::VarChar(9),
        Db2Type::Blob,
        Db2Type::LobChar(1024),
        Db2Type::Null,
    ]));
    let nullable = random.below(2) == 0;
    column.with_nullable(nullable).with_ccsid(1208)
}

/// Where a Decimal's packed bytes begin in a row: a row of the columns before it alone uses the bytes up to its column. Rows of bytes at
/// random: the bytes found are right where they have the value's text.
#[test]
fn packed_bytes_in_rows() {
    let mut random = Random(0x2545_F491_4F6C_DD1D);
    let mut buffers = Buffers::new();
    let mut found = 0;
    for _ in 0..5_000 {
        let columns: Columns = (0..1 + random.below(12))
            .map(|_| some_column(&mut random))
            .collect();
        let mut data: Vec<u8> = (0..1500).map(|_| random.below(256) as u8).collect();
        for byte in &mut data {
            if random.below(3) == 0 {
                *byte = random.pick(&[0x00, 0x00, 0x00, 0x01, 0x0C, 0x1D, 0xFF]);
            }
        }
        if random.below(2) == 0 {
            data[..2].copy_from_slice(&[0xFF, 0x00]);
        }
        let Ok(row) = decode_row_into(&data, &columns, 2, &mut buffers) else {
            continue;
        };
        for (k, column) in columns.iter().enumerate() {
            let (Db2Type::Decimal { precision, scale }, Value::Decimal(text)) =
                (column.db2_type, row.value(k))
            else {
                continue;
            };
            let before: Vec<Column> = columns.iter().take(k).collect();
            let begins = decode_row(&data, &before, 2).unwrap().used;
            let packed = &data[begins + usize::from(column.nullable)..];
            let packed = &packed[..(usize::from(precision) + 2) / 2];
            assert_eq!(decode_packed_decimal(packed, scale).as_deref(), Ok(text));
            is_as_by_arithmetic(packed, scale);
            found += 1;
        }
    }
    assert!(found > 1000, "{found}");
}
