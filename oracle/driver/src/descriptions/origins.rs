//! Where a column came from: a second opinion, since the Rust does not say. It goes by what the published parse_qrydsc answers to other
//! descriptions, and looks at nothing of the port.
//!
//! A little-endian column is an SDA's. Every other is a LID's of a group. Right before its group an entry is put that declares this LID, once with the
//! type 02 and once with 16: the column is undeclared exactly where the two answers differ in it. For of a LID's entries the first counts, and the one
//! put in is the first only where there was none.
//!
//! What other LIDs are declared, and what comes behind the group, has no part in a column. So the entries for all LIDs of a group are put in at once, and the
//! description ends with the group: two answers are enough for a group. The tests do it for each column alone.
use super::inputs::{triplets, COMPACT, GDA, MDD, SDA};
use super::rust_side::parsed;
use db2_proto::fdoca::{ByteOrder, ColumnDescriptor};
use port::column::Origin;

/// The types of the entries that are put in.
const TYPES: [u8; 2] = [0x02, 0x16];

/// The bytes of such an entry, and where among them its type stands.
const ENTRY: usize = 6;
const TYPE: usize = 2;

fn entry(of_type: u8, lid: u8) -> [u8; ENTRY] {
    [3, MDD, of_type, 3, SDA, lid]
}

/// The origins of the columns that the Rust reads out of a description.
pub fn of(data: &[u8], columns: &[ColumnDescriptor]) -> Vec<Origin> {
    let is_sda = |column: &ColumnDescriptor| column.byte_order == ByteOrder::LittleEndian;
    // Of a LID's column: declared, unless its group says otherwise.
    let mut origins: Vec<Origin> = columns
        .iter()
        .map(|column| match is_sda(column) {
            true => Origin::Sda,
            false => Origin::DeclaredLid,
        })
        .collect();
    if columns.iter().all(is_sda) {
        return origins;
    }
    for place in triplets(data) {
        let lids = lids(&data[place.clone()]);
        if lids.is_empty() {
            continue;
        }
        let before = &data[..place.start];
        let entries = lids.iter().flat_map(|lid| entry(TYPES[0], *lid));
        let mut other: Vec<u8> = Vec::with_capacity(place.end + ENTRY * lids.len());
        other.extend_from_slice(before);
        other.extend(entries);
        other.extend_from_slice(&data[place.clone()]);
        let first = parsed(&other);
        for number in 0..lids.len() {
            other[place.start + ENTRY * number + TYPE] = TYPES[1];
        }
        let second = parsed(&other);
        for (place, (first, second)) in first.iter().zip(&second).enumerate() {
            if first.drda_type != second.drda_type {
                origins[place] = Origin::UndeclaredLid;
            }
        }
    }
    origins
}

/// The LIDs of a triplet that is a group of them, each once.
fn lids(triplet: &[u8]) -> Vec<u8> {
    let [_, GDA, COMPACT, columns @ ..] = triplet else {
        return Vec::new();
    };
    let mut lids = Vec::new();
    for [lid, ..] in columns.as_chunks::<3>().0 {
        if !lids.contains(lid) {
            lids.push(*lid);
        }
    }
    lids
}

#[cfg(test)]
mod tests {
    use super::*;
    use crate::descriptions::inputs::{of_code, random_description, KINDS};
    use crate::random::Random;

    /// The origin of one column. Its group is the triplet before which there are not so many columns and behind which there are, its LID stands there at the
    /// column's place; one entry is put in, and the description stays whole.
    fn alone(data: &[u8], place: usize) -> Origin {
        if parsed(data)[place].byte_order == ByteOrder::LittleEndian {
            return Origin::Sda;
        }
        let count = |end: usize| parsed(&data[..end]).len();
        let group = triplets(data)
            .into_iter()
            .find(|triplet| (count(triplet.start)..count(triplet.end)).contains(&place))
            .expect("a column is of a triplet");
        let lid = data[group.start + 3 + 3 * (place - count(group.start))];
        let [first, second] = TYPES.map(|of_type| {
            let entry = &entry(of_type, lid)[..];
            let other = [&data[..group.start], entry, &data[group.start..]].concat();
            format!("{:?}", parsed(&other)[place])
        });
        match first == second {
            true => Origin::DeclaredLid,
            false => Origin::UndeclaredLid,
        }
    }

    fn agrees(data: &[u8]) {
        let columns = parsed(data);
        let each: Vec<Origin> = (0..columns.len()).map(|k| alone(data, k)).collect();
        assert_eq!(of(data, &columns), each, "{data:02X?}");
    }

    #[test]
    fn all_of_a_group_at_once_is_each_column_alone() {
        for code in (0..=0xFF).step_by(5) {
            of_code(code).iter().for_each(|data| agrees(data));
        }
        for first in KINDS {
            for second in KINDS {
                agrees(&[first, second].concat());
                for third in KINDS {
                    agrees(&[first, second, third].concat());
                }
            }
        }
        let (mut random, mut data) = (Random::new(1), Vec::new());
        for _ in 0..10_000 {
            random_description(&mut random, &mut data);
            agrees(&data);
        }
    }

    #[test]
    fn known_answers() {
        const S: Origin = Origin::Sda;
        const U: Origin = Origin::UndeclaredLid;
        const D: Origin = Origin::DeclaredLid;
        let group = [6, GDA, COMPACT, 0x44, 0x00, 0x01];
        let both = [9, GDA, COMPACT, 0x44, 0x00, 0x01, 0x02, 0x00, 0x04];
        let declared = [3, MDD, 0x30, 3, SDA, 0x44];
        let column = [3, SDA, 0x44];
        let inner = [8, GDA, 3, MDD, 0x30, 3, SDA, 0x44];
        let empty = [2, MDD];
        for (parts, origins) in [
            (&[&column[..], &group][..], &[S, U][..]),
            (&[&declared, &group], &[D]),
            (&[&declared, &both], &[D, U]),
            (&[&group, &declared, &group], &[U, D]),
            (&[&declared, &declared, &group], &[D]),
            (&[&inner, &group], &[S, U]),
            (&[&empty, &column, &group], &[S, U]),
            // An entry of type 00 and LID 00, which has no CCSID.
            (
                &[&[3, MDD, 0, 3, SDA, 0], &[6, GDA, COMPACT, 0, 0, 1]],
                &[D],
            ),
            // A group clears the type that an MDD before it has left.
            (&[&[3, MDD, 0x30], &group, &column], &[U, S]),
        ] {
            let data = parts.concat();
            assert_eq!(of(&data, &parsed(&data)), origins, "{data:02X?}");
        }
    }
}
