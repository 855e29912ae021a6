//! Numbers that are no release, which are refused before all else (22), and texts to ask about with them.
use super::is_known;
use crate::inputs::Case;
use crate::leaf::{Leaf, TEXT_LIMIT};
use crate::run::Flow;
use std::ops::ControlFlow::Continue;

/// Numbers of more than 16 bits, most of which are a release where some of their bits are lost.
const WIDE: [u32; 20] = [
    0x0001_0000,
    0x0001_0001,
    0x0001_0002,
    0x0001_0003,
    0x0001_0004,
    0x0002_0000,
    0x0003_0000,
    0x0002_0002,
    0x0003_0003,
    0x0100_0002,
    0x0100_0003,
    0x0200_0000,
    0x0300_0000,
    0x7FFF_FFFF,
    0x8000_0000,
    0x8000_0002,
    0x8000_0003,
    0xFFFF_0002,
    0xFFFF_0003,
    u32::MAX,
];

/// Every number of 16 bits but the two, and the wide ones, these behind the smallest.
pub fn numbers() -> impl Iterator<Item = u32> {
    let smallest = (0..0x400).filter(|number| !is_known(*number));
    smallest.chain(WIDE).chain(0x400..=0xFFFF)
}

/// Those with which long inputs are asked about as well, which take their time.
pub fn is_near(number: u32) -> bool {
    !(8..=0xFFFF).contains(&number) || number < 0x400 && is_known(number & 0xFF)
}

/// Short texts with every number; those that are too long with a few.
pub fn texts(case: Case) -> Flow {
    let leaves = [
        Leaf::character(1208),
        Leaf::character(273),
        Leaf::graphic(1200),
        Leaf::graphic(273),
    ];
    let short: [&[u8]; 3] = [b"", b"\x40", b"\x80\x40\x80"];
    let long = vec![0x40; TEXT_LIMIT + 1];
    for number in numbers() {
        let long = is_near(number).then_some(&long[..]);
        for leaf in leaves {
            for data in short.into_iter().chain(long) {
                case(leaf.at(number), data)?;
            }
        }
    }
    Continue(())
}

#[cfg(test)]
mod tests {
    use super::*;

    #[test]
    fn no_number_is_a_release() {
        assert_eq!(numbers().count(), 65_534 + WIDE.len());
        assert!(numbers().all(|number| !is_known(number)));
        for number in [258, 259, 65_538, 65_539, 0x8000_0002, u32::MAX] {
            assert!(numbers().any(|other| other == number) && is_near(number));
        }
    }
}
