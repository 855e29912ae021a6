//! Wrong libraries, each the archive with one fault in its answers. Each is wrong in the same way for every buffer, so that only what a row is compared with can show it. The
//! tests also put faults into the recordings themselves, where port and Rust still agree.
use crate::rows::port_side::{Archive, Asked, Library};
use port::value::{Held, Value, VALUE_WORDS};
use port::Decoded;

#[derive(Debug, Clone, Copy, PartialEq, Eq)]
pub enum Fault {
    /// The last number of a row is one more.
    WrongNumber,
    /// The first byte of a row's texts is another.
    WrongText,
    /// A byte more is used.
    UsedLong,
    /// A byte less is used.
    UsedShort,
    /// No value is external.
    NotExternal,
    /// Every value is external.
    AllExternal,
    /// A character more was replaced.
    MoreReplaced,
    /// None was replaced.
    NoneReplaced,
    /// A row with more behind it is refused.
    RestRefused,
}

pub const FAULTS: [Fault; 9] = [
    Fault::WrongNumber,
    Fault::WrongText,
    Fault::UsedLong,
    Fault::UsedShort,
    Fault::NotExternal,
    Fault::AllExternal,
    Fault::MoreReplaced,
    Fault::NoneReplaced,
    Fault::RestRefused,
];

/// The archive with a fault.
pub struct Faulty(pub Fault);

/// The bit of a value's first word that says that it is external.
const EXTERNAL: u64 = 1 << 8;

impl Library for Faulty {
    fn decode_row(&self, asked: Asked, values: &mut [u64], text: &mut [u8]) -> Decoded {
        let data = asked.data;
        let (before, text_before) = (values.to_vec(), text.to_vec());
        let mut decoded = Archive.decode_row(asked, values, text);
        if decoded.number != 0 {
            return decoded;
        }
        let count = VALUE_WORDS * (asked.columns.len() / 2);
        let (rows, _) = values[..count].as_chunks_mut::<VALUE_WORDS>();
        match self.0 {
            Fault::WrongNumber => {
                if let Some(words) = rows.iter_mut().rfind(|words| is_number(words)) {
                    words[1] ^= 1;
                }
            }
            Fault::WrongText if decoded.text_length > 0 => text[0] ^= 1,
            Fault::WrongText => {}
            Fault::UsedLong => decoded.used += 1,
            Fault::UsedShort => decoded.used -= 1,
            Fault::NotExternal => rows.iter_mut().for_each(|words| words[0] &= !EXTERNAL),
            Fault::AllExternal => rows.iter_mut().for_each(|words| words[0] |= EXTERNAL),
            Fault::MoreReplaced => decoded.replaced += 1,
            Fault::NoneReplaced => decoded.replaced = 0,
            Fault::RestRefused if decoded.used < data.len() => {
                values.copy_from_slice(&before);
                text.copy_from_slice(&text_before);
                decoded = Decoded {
                    number: 8,
                    used: 0,
                    text_length: 0,
                    replaced: 0,
                    expected: data.len() + 1,
                    actual: data.len(),
                };
            }
            Fault::RestRefused => {}
        }
        decoded
    }

    fn replaced_by_value(
        &self,
        description: &[u8],
        data: &[u8],
        release: u32,
        text: &mut [u8],
    ) -> usize {
        Archive.replaced_by_value(description, data, release, text)
    }
}

fn is_number(words: &[u64; VALUE_WORDS]) -> bool {
    let value = Value::from_words(*words);
    value.is_some_and(|value| value.sort.held() == Held::Number && value.words()[0] != 0)
}

#[cfg(test)]
mod tests {
    use super::super::cases::{Case, CASES};
    use super::super::sides::Sides;
    use super::super::walk::{walk, walk_mended, Walk};
    use super::super::{stored, Recording, Shown};
    use super::*;

    /// Both walks, as the program makes them; what the first found.
    fn found(recording: &Recording) -> Result<Walk, String> {
        let mut sides = Sides::new(Archive);
        let sent = walk(recording, &mut sides)?;
        walk_mended(recording, &mut sides)?;
        Ok(sent)
    }

    /// The walk through a recording with something changed in it must fail.
    fn noticed(recording: &Recording, what: &str, change: impl FnOnce(&mut Recording)) {
        let mut other = recording.clone();
        change(&mut other);
        let name = &recording.name;
        assert!(found(&other).is_err(), "{name}: {what} was not noticed");
    }

    #[test]
    fn without_a_fault_all_is_as_it_must_be() {
        for recording in stored() {
            found(&recording).unwrap_or_else(|message| panic!("{}: {message}", recording.name));
        }
    }

    /// By the descriptions changed nothing is missing, and only what the row does not hold is not the client's.
    #[test]
    fn by_descriptions_changed_values_are_the_clients() {
        for recording in stored() {
            let mended = walk_mended(&recording, &mut Sides::new(Archive)).unwrap();
            assert_eq!(mended.rows.len(), recording.rows.len());
            for case in CASES {
                let held = case.is_clients()
                    || matches!(
                        case,
                        Case::TimestampCut | Case::LobLocator | Case::LobExtdta
                    );
                assert!(
                    held || mended.count(case) == 0,
                    "{}: {case:?}",
                    recording.name
                );
            }
        }
    }

    #[test]
    fn every_wrong_library_is_noticed() {
        for fault in FAULTS {
            let mut sides = Sides::new(Faulty(fault));
            let failed = |recording: &Recording| walk(recording, &mut sides).is_err();
            let failed = stored().iter().map(failed).filter(|failed| *failed).count();
            assert!(failed > 0, "{fault:?}");
        }
    }

    /// A value other than this one.
    fn other(value: &Shown) -> Shown {
        let held = match (value.letter, value.held.as_str()) {
            ('N', _) => return Shown::read("S:0").unwrap(),
            ('S' | 'I' | 'L' | 'b', held) => (held.parse::<i64>().unwrap() ^ 1).to_string(),
            (_, "-") => "41".to_string(),
            (_, held) => {
                let last = if held.ends_with('0') { '1' } else { '0' };
                held[..held.len() - 1].to_string() + &last.to_string()
            }
        };
        Shown {
            letter: value.letter,
            held,
        }
    }

    /// Each value of the client's changed is noticed, but those whose last bytes were not sent.
    #[test]
    fn every_wrong_value_is_noticed() {
        for recording in stored() {
            let walk = found(&recording).unwrap();
            let mut unnoticed = 0;
            for row in 0..recording.rows.len() {
                for place in 0..recording.rows[row].len() {
                    let mut wrong = recording.clone();
                    let value = &mut wrong.rows[row][place];
                    *value = other(value);
                    unnoticed += usize::from(found(&wrong).is_ok());
                }
            }
            let not_sent = walk.count(Case::LobLocator) + walk.count(Case::TimestampCut);
            assert_eq!(unnoticed, not_sent, "{}", recording.name);
        }
    }

    /// A value of another sort, or none, is noticed everywhere.
    #[test]
    fn every_wrong_sort_is_noticed() {
        for recording in stored() {
            for place in 0..recording.rows.first().map_or(0, Vec::len) {
                for field in ["N", "X:41"] {
                    let field = Shown::read(field).unwrap();
                    if recording.rows[0][place] == field {
                        continue;
                    }
                    noticed(&recording, "another sort", |recording| {
                        recording.rows[0][place] = field;
                    });
                }
            }
        }
    }

    #[test]
    fn rows_that_are_missing_are_noticed() {
        for recording in stored() {
            let extents = found(&recording).unwrap().rows;
            for row in 0..recording.rows.len() {
                noticed(&recording, "a row that the client lacks", |recording| {
                    recording.rows.remove(row);
                });
                noticed(&recording, "a row more of the client", |recording| {
                    let again = recording.rows[row].clone();
                    recording.rows.insert(row, again);
                });
            }
            for (start, end) in extents {
                noticed(&recording, "a row that is not sent", |recording| {
                    let mut data = recording.blocks.concat();
                    data.drain(start..end);
                    recording.blocks = vec![data];
                });
                noticed(&recording, "a row that is sent twice", |recording| {
                    let mut data = recording.blocks.concat();
                    let row = data[start..end].to_vec();
                    data.splice(start..start, row);
                    recording.blocks = vec![data];
                });
            }
        }
    }

    #[test]
    fn bytes_too_many_or_too_few_are_noticed() {
        for recording in stored() {
            let extents = found(&recording).unwrap().rows;
            for (_, end) in extents {
                noticed(&recording, "a byte behind a row", |recording| {
                    let mut data = recording.blocks.concat();
                    data.insert(end, 0x00);
                    recording.blocks = vec![data];
                });
                noticed(&recording, "a row's last byte", |recording| {
                    let mut data = recording.blocks.concat();
                    data.remove(end - 1);
                    recording.blocks = vec![data];
                });
            }
        }
    }

    #[test]
    fn a_wrong_end_is_noticed() {
        for recording in stored() {
            let length = recording.blocks.concat().len();
            let change = |what: &str, change: &dyn Fn(&mut Vec<u8>)| {
                noticed(&recording, what, |recording| {
                    let mut data = recording.blocks.concat();
                    change(&mut data);
                    recording.blocks = vec![data];
                });
            };
            change("no query end", &|data| data.truncate(length - 62));
            change("a cut query end", &|data| data.truncate(length - 1));
            change("a byte behind the query end", &|data| data.push(0x00));
            change("another status at the end", &|data| data[length - 58] ^= 1);
            change("another count of rows", &|data| data[length - 36] ^= 1);
        }
    }

    #[test]
    fn a_wrong_description_is_noticed() {
        let with_rows = |recording: &Recording| !recording.rows.is_empty();
        for recording in stored().into_iter().filter(with_rows) {
            noticed(&recording, "a column less", |recording| {
                recording.description[0] -= 3;
                recording.description.drain(3..6);
            });
            noticed(&recording, "a description cut short", |recording| {
                recording.description.pop();
            });
        }
    }

    #[test]
    fn wrong_extdta_are_noticed() {
        let with = |recording: &Recording| !recording.extdta.is_empty();
        let mut recordings = stored();
        recordings.retain(with);
        assert_eq!(recordings.len(), 2);
        for recording in recordings {
            noticed(&recording, "a missing EXTDTA", |recording| {
                recording.extdta.pop();
            });
            noticed(&recording, "an EXTDTA more", |recording| {
                recording.extdta.push(vec![0x00]);
            });
            noticed(&recording, "EXTDTAs in another order", |recording| {
                recording.extdta.reverse();
            });
            noticed(&recording, "an EXTDTA without its indicator", |recording| {
                recording.extdta[0].remove(0);
            });
        }
    }

    /// A row of a block that stands alone is noticed where it is cut, so that what says so is no empty test.
    #[test]
    fn rows_are_split_in_some_recording() {
        let split = |recording: &Recording| found(recording).unwrap().split;
        let split: usize = stored().iter().map(split).sum();
        assert!(split > 0);
    }
}
