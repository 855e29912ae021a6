//! Whether a description breaks off: a second opinion, since the Rust does not say. It goes by what the published parse_qrydsc answers to other
//! descriptions, and looks at nothing of the port.
//!
//! G is a group of one column. A description is whole exactly where
//!
//! - G right behind it is read: there is one column more, the last, and that is G's;
//! - no column is read of G behind k zeros, k from 1 to 254: there are as many as the description and the zeros alone give.
//!
//! For the reading comes to what stands behind a description only where it has left no byte unread. Bytes behind a triplet that is cut may fill it, though, and a
//! column come of that which looks like G's: so the first does not tell alone. As many zeros as the triplet lacks fill it, and then G is read behind them, while behind
//! a whole description the first zero ends the reading. A triplet lacks at most 254 bytes: its length byte is there.
//!
//! Mostly one answer is enough to see that none of the 254 reads a column. Where one does, a triplet goes past the description's end, and it begins in the description,
//! since a zero begins none. With a zero and a long run of 70 behind the description the reading comes behind that triplet to some place of the run, and at every place an SDA of
//! 112 bytes begins: the second of them is a column whatever stood before. So where there are no more columns than the description's, all 254 may be left out
//! (`Zeros::IfCut`). The tests hold this to all 254, and a run does for some descriptions.
use super::inputs::{COMPACT, GDA, SDA};
use super::rust_side::parsed;
use db2_proto::fdoca::{ByteOrder, ColumnDescriptor};

/// The group that is put behind a description, and the length of its column.
const G: [u8; 6] = [6, GDA, COMPACT, 0x04, 0x00, 0x02];
const LENGTH: u16 = 2;

/// The most bytes that a triplet can lack.
const MOST: usize = 254;

/// A run of SDAs: behind the last byte that a triplet can lack there are two.
const RUN: usize = MOST + 2 * SDA as usize;

/// When zeros are tried.
#[derive(Debug, Clone, Copy, PartialEq, Eq)]
pub enum Zeros {
    /// Always.
    Every,
    /// Where the run of SDAs gives a column.
    IfCut,
}

/// Whether a description, of which the Rust reads `count` columns, is whole.
pub fn is_whole(data: &[u8], count: usize, zeros: Zeros) -> bool {
    let mut behind = Behind::new(data);
    let with_g = behind.with_g(0);
    let is_read = with_g.len() == count + 1 && with_g.last().is_some_and(is_of_g);
    if !is_read || zeros == Zeros::IfCut && behind.with_run().len() == count {
        return is_read;
    }
    !(1..=MOST).any(|zeros| behind.reads(zeros))
}

/// Of whichever type: the description may declare G's LID.
fn is_of_g(column: &ColumnDescriptor) -> bool {
    column.byte_order == ByteOrder::BigEndian && column.length == LENGTH
}

/// A description with more behind it.
struct Behind {
    bytes: Vec<u8>,
    /// Of the description.
    length: usize,
}

impl Behind {
    fn new(data: &[u8]) -> Behind {
        let mut bytes = Vec::with_capacity(data.len() + 1 + RUN);
        bytes.extend_from_slice(data);
        Behind {
            bytes,
            length: data.len(),
        }
    }

    /// The columns with so many zeros, and G.
    fn with_g(&mut self, zeros: usize) -> Vec<ColumnDescriptor> {
        self.bytes.truncate(self.length);
        self.bytes.resize(self.length + zeros, 0);
        self.bytes.extend_from_slice(&G);
        parsed(&self.bytes)
    }

    /// The columns with a zero, and the run.
    fn with_run(&mut self) -> Vec<ColumnDescriptor> {
        self.bytes.truncate(self.length);
        self.bytes.push(0);
        self.bytes.resize(self.length + 1 + RUN, SDA);
        parsed(&self.bytes)
    }

    /// Whether behind so many zeros a column is read of G.
    fn reads(&mut self, zeros: usize) -> bool {
        let with_g = self.with_g(zeros).len();
        with_g != parsed(&self.bytes[..self.length + zeros]).len()
    }
}

#[cfg(test)]
mod tests {
    use super::*;
    use crate::descriptions::endings;
    use crate::descriptions::inputs::{of_code, random_description, triplets, KINDS};
    use crate::random::Random;

    /// Whether the outer reading comes to the end: a plain model, which the opinion itself does not use.
    fn comes_to_the_end(data: &[u8]) -> bool {
        triplets(data).last().map_or(0, |last| last.end) == data.len()
    }

    /// Both ways are one, and the plain model's.
    fn agrees(data: &[u8]) {
        let count = parsed(data).len();
        let every = is_whole(data, count, Zeros::Every);
        assert_eq!(is_whole(data, count, Zeros::IfCut), every, "{data:02X?}");
        assert_eq!(comes_to_the_end(data), every, "{data:02X?}");
    }

    #[test]
    fn zeros_are_left_out_where_they_would_say_nothing() {
        for code in (0..=0xFF).step_by(17) {
            of_code(code).iter().for_each(|data| agrees(data));
        }
        for first in KINDS {
            for second in KINDS {
                agrees(&[first, second].concat());
            }
        }
        let short = endings::short();
        short.iter().step_by(7).for_each(|data| agrees(data));
        let (mut random, mut data) = (Random::new(1), Vec::new());
        for _ in 0..5_000 {
            random_description(&mut random, &mut data);
            agrees(&data);
        }
    }

    /// The run gives a column for each number of bytes that a triplet of each type lacks.
    #[test]
    fn the_run_shows_every_cut() {
        for kind in 0..=0xFF {
            for lacks in 1..=MOST {
                let data = [&[0xFF, kind][..], &[0; 253]].concat();
                let cut = &data[..0xFF - lacks];
                assert_ne!(Behind::new(cut).with_run().len(), 0, "{cut:02X?}");
            }
        }
    }

    /// G fills what is cut, and one column comes of it, which may look like its own.
    #[test]
    fn one_group_behind_does_not_tell() {
        for data in [&[6, GDA, COMPACT][..], &[7, GDA, COMPACT, 0x00, 0x00, 0x02]] {
            assert_eq!(Behind::new(data).with_g(0).len(), 1);
            for zeros in [Zeros::Every, Zeros::IfCut] {
                assert!(!is_whole(data, 0, zeros));
            }
        }
        let like = [7, GDA, COMPACT, 0x00, 0x00, 0x02];
        assert!(Behind::new(&like).with_g(0).iter().all(is_of_g));
    }

    #[test]
    fn known_answers() {
        let group = [6, GDA, COMPACT, 0x02, 0x00, 0x04];
        let with = |end: &[u8]| [&group[..], end].concat();
        for (data, whole) in [
            (vec![], true),
            (with(&[]), true),
            (with(&[2, 0x99]), true),
            (with(&[5]), false),
            (with(&[0]), false),
            (with(&[0, 0, 0]), false),
            (with(&[1, 0x70]), false),
            (with(&[3, 0x70]), false),
            (with(&[0xFF, 0x70]), false),
            (with(&[3, 0x78, 0x31]), true),
            (with(&[7, GDA, COMPACT, 0x04, 0x00, 0x02, 0x44]), true),
            (with(&[5, GDA, 1, 0x70, 0x02]), true),
            // G's own LID, declared.
            (with(&[3, 0x78, 0x31, 3, 0x70, 0x04]), true),
        ] {
            let count = parsed(&data).len();
            for zeros in [Zeros::Every, Zeros::IfCut] {
                assert_eq!(is_whole(&data, count, zeros), whole, "{data:02X?}");
            }
        }
    }
}
