//! Libraries with a fault, to see that the differential run notices each. A fault shows only on some inputs, as a real one would.
use super::inputs::triplets;
use super::port_side::{Archive, Library, AMPLE};
use super::{wrong_origins, wrong_wholeness, Parser, BREAKS_OFF, COLUMN_LIMIT, DESCRIPTION_LIMIT};
use port::column::{Column, Name, Order, Origin};
use port::{Described, FixedLength, TOO_FEW_WORDS};

#[derive(Debug, Clone, Copy, PartialEq, Eq)]
pub enum Fault {
    /// A later environment entry replaces an earlier one.
    LaterEntry,
    /// 0A in a group is Real.
    GroupReal,
    /// CE in a group is VarChar, as in an SDA.
    GroupVarChar,
    /// An unknown triplet lets pending stand.
    PendingKept,
    /// An MDD without data lets an older pending stand.
    EmptyMddIgnored,
    /// An SDA without data does not use pending up.
    EmptySdaIgnored,
    /// 51 is nullable when declared.
    DeclaredNullable,
    /// CCSID 0 turns 30 and 32 into binary when declared, too.
    DeclaredBinary,
    /// Column numbers begin with 1.
    IndexFromOne,
    /// The reference length is lost.
    ReferenceLost,
    /// The reference length keeps the bit that says that it is there.
    ReferenceBit,
    /// A reference length of 0 counts as none.
    ReferenceZero,
    /// A spare bit is set.
    SpareBit,
    /// A word past the columns changes.
    AfterColumns,
    /// A word changes although the words are too few.
    ChangedOn101,
    /// One word too few is enough.
    TooFewTaken,
    /// 101 with one column more than there are.
    CountOn101,
    /// 101 comes before refusal 2.
    TooFewFirst,
    /// Refusal 1 at the limit.
    BytesEarly,
    /// No refusal 1 one above the limit.
    BytesLate,
    /// Refusal 2 at the limit.
    ColumnsEarly,
    /// Refusal 2 comes before refusal 1.
    ColumnsFirst,
    /// The fixed length of a Graphic in characters.
    GraphicCharacters,
    /// The fixed length of LobBytes with the bit 8000.
    LobBit,
    /// A word with a bit above a type's is taken.
    HighBitTaken,
    // Origins.
    /// Every LID is undeclared,
    AllUndeclared,
    /// or declared,
    AllDeclared,
    /// or the one where it is the other.
    OriginsSwapped,
    /// A declared LID is number 3.
    OriginThree,
    /// An entry behind a group declares,
    LaterEntryDeclares,
    /// or one within a group of inner triplets,
    InnerEntryDeclares,
    /// or an SDA behind an MDD without data, which is a column,
    EmptyMddDeclares,
    /// or one without data, LID 00.
    EmptySdaDeclares,
    /// An entry of type 00 does not declare,
    TypeZeroUndeclared,
    /// or one of CCSID 0,
    CcsidZeroUndeclared,
    /// or one of LID 00,
    LidZeroUndeclared,
    /// or one whose type is its LID.
    SameTypeUndeclared,
    /// A second entry for a LID takes the first one back.
    SecondEntryUndeclares,
    /// An entry declares for the next group alone.
    EntriesForOneGroup,
    /// The columns of a group all have the first one's origin.
    FirstOfGroup,
    /// A LID keeps the origin that it had in the first group.
    FirstUse,
    /// A column has the origin of the one before it.
    PreviousOrigin,
    /// An SDA is an undeclared LID,
    SdaIsLid,
    /// or an inner one is,
    InnerSdaIsLid,
    /// or one whose code is a declared LID is that.
    SdaOfDeclaredCode,
    // What breaks off and counts as whole, by both calls.
    /// One byte that is left,
    OneByteIsWhole,
    /// or one that is 0,
    OneZeroIsWhole,
    /// or two bytes,
    TwoBytesAreWhole,
    /// or zeros, two or more,
    ZerosAreWhole,
    /// or a length of 0 with other bytes behind it,
    LengthZeroIsWhole,
    /// or a length of 1 with bytes behind it,
    LengthOneIsWhole,
    /// or a length past the end, with bytes behind it,
    PastEndIsWhole,
    /// or one past it by one byte,
    OnePastIsWhole,
    /// or by 128 and more.
    ManyPastIsWhole,
    /// What is left behind 128 columns is not looked at,
    FullIsWhole,
    /// or where no column is read.
    NoColumnIsWhole,
    /// Nothing breaks off.
    AllWhole,
    // What is whole and counts as broken off, by both calls.
    /// A description without a byte,
    EmptyIsBroken,
    /// or with a type pending at its end,
    PendingIsBroken,
    /// or with a length in a group that breaks off there,
    InnerBreakIsBroken,
    /// or with a byte or two left over in a group,
    InnerRestIsBroken,
    /// or in a group of LIDs,
    GroupRestIsBroken,
    /// or with an SDA that has no length,
    NoFieldsIsBroken,
    /// or whose last triplet has no data,
    NoDataIsBroken,
    /// or is of an unknown type,
    UnknownIsBroken,
    /// or without a column,
    NoColumnIsBroken,
    /// or any.
    AllBroken,
    /// One where it is the other.
    BrokenSwapped,
    // The flag.
    /// It is 2 where it must be 1.
    FlagIsTwo,
    /// It is set beside refusal 1,
    FlagBesideOne,
    /// or 2,
    FlagBesideTwo,
    /// or 101.
    FlagBeside101,
    /// Refusal 2 leaves it as it was.
    FlagUnwritten,
    /// It is not set where the words are exactly as many as needed.
    FlagLostInExact,
    // Refusal 15.
    /// It comes after 2,
    TwoFirst,
    /// or before 1,
    FifteenFirst,
    /// or after 101.
    TooFewBeforeFifteen,
    /// It is another number,
    FifteenIsTwo,
    /// or comes in place of that.
    TwoIsFifteen,
    /// It comes with the number of columns,
    FifteenWithCount,
    /// or with a word changed.
    ChangedOnFifteen,
    /// Where it does not come, a column is missing.
    OneColumnFewer,
    // By value.
    /// The flag is never set,
    ByValueAllWhole,
    /// or is beside refusal 2.
    ByValueFlagBesideTwo,
    /// Refusal 15 never comes,
    ByValueNoFifteen,
    /// or comes after 2,
    ByValueTwoFirst,
    /// or with the columns.
    ByValueColumnsOnFifteen,
    /// Where it does not come, the last column is missing,
    ByValueOneColumnFewer,
    /// or the place behind it is not blank.
    ByValueNotBlank,
}

pub const FAULTS: [Fault; 89] = [
    Fault::LaterEntry,
    Fault::GroupReal,
    Fault::GroupVarChar,
    Fault::PendingKept,
    Fault::EmptyMddIgnored,
    Fault::EmptySdaIgnored,
    Fault::DeclaredNullable,
    Fault::DeclaredBinary,
    Fault::IndexFromOne,
    Fault::ReferenceLost,
    Fault::ReferenceBit,
    Fault::ReferenceZero,
    Fault::SpareBit,
    Fault::AfterColumns,
    Fault::ChangedOn101,
    Fault::TooFewTaken,
    Fault::CountOn101,
    Fault::TooFewFirst,
    Fault::BytesEarly,
    Fault::BytesLate,
    Fault::ColumnsEarly,
    Fault::ColumnsFirst,
    Fault::GraphicCharacters,
    Fault::LobBit,
    Fault::HighBitTaken,
    Fault::AllUndeclared,
    Fault::AllDeclared,
    Fault::OriginsSwapped,
    Fault::OriginThree,
    Fault::LaterEntryDeclares,
    Fault::InnerEntryDeclares,
    Fault::EmptyMddDeclares,
    Fault::EmptySdaDeclares,
    Fault::TypeZeroUndeclared,
    Fault::CcsidZeroUndeclared,
    Fault::LidZeroUndeclared,
    Fault::SameTypeUndeclared,
    Fault::SecondEntryUndeclares,
    Fault::EntriesForOneGroup,
    Fault::FirstOfGroup,
    Fault::FirstUse,
    Fault::PreviousOrigin,
    Fault::SdaIsLid,
    Fault::InnerSdaIsLid,
    Fault::SdaOfDeclaredCode,
    Fault::OneByteIsWhole,
    Fault::OneZeroIsWhole,
    Fault::TwoBytesAreWhole,
    Fault::ZerosAreWhole,
    Fault::LengthZeroIsWhole,
    Fault::LengthOneIsWhole,
    Fault::PastEndIsWhole,
    Fault::OnePastIsWhole,
    Fault::ManyPastIsWhole,
    Fault::FullIsWhole,
    Fault::NoColumnIsWhole,
    Fault::AllWhole,
    Fault::EmptyIsBroken,
    Fault::PendingIsBroken,
    Fault::InnerBreakIsBroken,
    Fault::InnerRestIsBroken,
    Fault::GroupRestIsBroken,
    Fault::NoFieldsIsBroken,
    Fault::NoDataIsBroken,
    Fault::UnknownIsBroken,
    Fault::NoColumnIsBroken,
    Fault::AllBroken,
    Fault::BrokenSwapped,
    Fault::FlagIsTwo,
    Fault::FlagBesideOne,
    Fault::FlagBesideTwo,
    Fault::FlagBeside101,
    Fault::FlagUnwritten,
    Fault::FlagLostInExact,
    Fault::TwoFirst,
    Fault::FifteenFirst,
    Fault::TooFewBeforeFifteen,
    Fault::FifteenIsTwo,
    Fault::TwoIsFifteen,
    Fault::FifteenWithCount,
    Fault::ChangedOnFifteen,
    Fault::OneColumnFewer,
    Fault::ByValueAllWhole,
    Fault::ByValueFlagBesideTwo,
    Fault::ByValueNoFifteen,
    Fault::ByValueTwoFirst,
    Fault::ByValueColumnsOnFifteen,
    Fault::ByValueOneColumnFewer,
    Fault::ByValueNotBlank,
];

/// The archive with a fault.
pub struct Faulty {
    fault: Fault,
    /// `Parser::Ported` is the archive's.
    in_whole_alone: bool,
}

/// The description without the triplets that `drop` names.
fn without(data: &[u8], drop: impl Fn(&[u8]) -> bool) -> Vec<u8> {
    let all = triplets(data);
    let end = all.last().map_or(0, |last| last.end);
    let kept = all.into_iter().map(|place| &data[place]);
    let mut rest: Vec<&[u8]> = kept.filter(|triplet| !drop(triplet)).collect();
    rest.push(&data[end..]);
    rest.concat()
}

/// The description in which an entry that is declared again has another LID from there on, and so have the references to it:
/// a right library then answers what one would with which later entries count. A column does not show its LID.
fn renamed(data: &[u8]) -> Vec<u8> {
    let mut renamed = data.to_vec();
    let mut free = (0..=0xFF).rev().filter(|lid| !data.contains(lid));
    let mut names: [Option<u8>; 256] = [None; 256];
    let mut pending = false;
    for place in triplets(data) {
        let body = &mut renamed[place][1..];
        match body {
            [0x78, rest @ ..] => pending = !rest.is_empty(),
            [0x70, lid, ..] if pending => {
                let name = &mut names[usize::from(*lid)];
                // Where no LID is free the first entry goes on to count.
                *name = name.map_or(Some(*lid), |old| free.next().or(Some(old)));
                *lid = name.unwrap_or(*lid);
                pending = false;
            }
            [0x76, 0xD0, columns @ ..] => {
                for column in columns.as_chunks_mut::<3>().0 {
                    column[0] = names[usize::from(column[0])].unwrap_or(column[0]);
                }
                pending = false;
            }
            _ => pending = false,
        }
    }
    renamed
}

impl Faulty {
    /// With the fault in both calls, where it can be.
    pub fn new(fault: Fault) -> Faulty {
        Faulty {
            fault,
            in_whole_alone: false,
        }
    }

    /// With the fault in `Parser::Whole` alone.
    pub fn in_whole_alone(fault: Fault) -> Faulty {
        Faulty {
            fault,
            in_whole_alone: true,
        }
    }

    /// The description that a right library answers as this one answers the given.
    fn other_input(&self, data: &[u8]) -> Option<Vec<u8>> {
        match self.fault {
            Fault::LaterEntry => Some(renamed(data)),
            Fault::PendingKept => Some(without(data, |triplet| {
                !matches!(triplet[1], 0x70 | 0x71 | 0x76 | 0x78)
            })),
            Fault::EmptyMddIgnored => Some(without(data, |triplet| triplet == [2, 0x78])),
            Fault::EmptySdaIgnored => Some(without(data, |triplet| triplet == [2, 0x70])),
            Fault::BytesLate if data.len() == DESCRIPTION_LIMIT + 1 => {
                Some(data[..DESCRIPTION_LIMIT].to_vec())
            }
            _ => None,
        }
    }

    /// The wrong answer, where the fault is one of the numbers.
    fn wrong_number(&self, data: &[u8], answer: Described, lent: usize) -> Option<Described> {
        let refuse = |number| {
            Some(Described {
                number,
                count: 0,
                broken_off: 0,
            })
        };
        let count = answer.count;
        match (self.fault, answer.number) {
            (Fault::BytesEarly, 0) if data.len() == DESCRIPTION_LIMIT => refuse(1),
            (Fault::ColumnsEarly, 0 | TOO_FEW_WORDS) if count == COLUMN_LIMIT => refuse(2),
            (Fault::ColumnsFirst, 1) => {
                let cut = Archive.parse(Parser::Ported, &data[..DESCRIPTION_LIMIT], &mut []);
                (cut.number == 2).then_some(cut)
            }
            (Fault::TooFewFirst, 2) if lent == 0 => Some(Described {
                number: TOO_FEW_WORDS,
                count: COLUMN_LIMIT + 1,
                broken_off: 0,
            }),
            (Fault::CountOn101, TOO_FEW_WORDS) => Some(Described {
                count: answer.count + 1,
                ..answer
            }),
            (Fault::TooFewTaken, TOO_FEW_WORDS) if lent + 1 == 2 * count => Some(Described {
                number: 0,
                ..answer
            }),
            _ => None,
        }
    }

    fn wrong_column(&self, column: &mut Column) {
        let in_group = column.order == Order::Big;
        let plain = column.code & 0xFE;
        match self.fault {
            Fault::GroupReal if in_group && plain == 0x0A => {
                column.db2_type = Name::Real.plain();
            }
            Fault::GroupVarChar if in_group && plain == 0xCE => {
                column.db2_type = Name::VarChar.with(column.length);
            }
            Fault::DeclaredNullable if in_group && column.code == 0x51 => column.nullable = true,
            Fault::DeclaredBinary if in_group && column.ccsid == 0 && plain == 0x30 => {
                column.db2_type = Name::Binary.with(column.length);
            }
            Fault::IndexFromOne => column.index += 1,
            Fault::ReferenceLost => column.reference = None,
            Fault::ReferenceBit => column.reference = column.reference.map(|n| n | 0x8000),
            Fault::ReferenceZero => column.reference = column.reference.filter(|n| *n != 0),
            _ => {}
        }
    }

    /// Puts the fault into the words, where it is one of them.
    fn wrong_words(&self, data: &[u8], answer: Described, words: &mut [u64]) {
        let used = match answer.number {
            0 => 2 * answer.count,
            _ => 0,
        };
        let pairs = words[..used].as_chunks_mut::<2>().0;
        let read = |pair: &[u64; 2]| Column::from_words(*pair).expect("the archive's columns");
        let mut columns: Vec<Column> = pairs.iter().map(read).collect();
        for column in &mut columns {
            self.wrong_column(column);
        }
        if !columns.is_empty() {
            wrong_origins::put(self.fault, data, &mut columns);
        }
        for (pair, column) in pairs.iter_mut().zip(columns) {
            *pair = column.words();
            if self.fault == Fault::OriginThree && column.origin == Origin::DeclaredLid {
                pair[0] |= 3 << 51;
            }
        }
        match (self.fault, answer.number) {
            (Fault::SpareBit, 0) if used > 0 => words[0] |= 1 << 63,
            (Fault::AfterColumns, 0) if used > 0 && words.len() > used => words[used] = 0,
            (Fault::ChangedOn101, TOO_FEW_WORDS) if !words.is_empty() => words[0] = 0,
            (Fault::ChangedOnFifteen, BREAKS_OFF) if !words.is_empty() => words[0] = 0,
            _ => {}
        }
    }
}

impl Library for Faulty {
    fn parse(&self, parser: Parser, data: &[u8], words: &mut [u64]) -> Described {
        if self.in_whole_alone && parser == Parser::Ported {
            return Archive.parse(parser, data, words);
        }
        if let Some(other) = self.other_input(data) {
            return Archive.parse(parser, &other, words);
        }
        // The archive writes into words of its own: a wrong refusal leaves the lent ones alone.
        let mut own = [0; AMPLE + 8];
        own[..words.len()].copy_from_slice(words);
        let own = &mut own[..words.len()];
        let answer = wrong_wholeness::parse(self.fault, parser, data, own);
        if let Some(wrong) = self.wrong_number(data, answer, words.len()) {
            return wrong;
        }
        self.wrong_words(data, answer, own);
        words.copy_from_slice(own);
        answer
    }

    fn broken_off_by_value(&self, data: &[u8]) -> u64 {
        wrong_wholeness::broken_off_by_value(self.fault, data)
    }

    fn whole_number_by_value(&self, data: &[u8]) -> u64 {
        wrong_wholeness::number_by_value(self.fault, data)
    }

    fn whole_length_by_value(&self, data: &[u8], place: usize) -> u64 {
        wrong_wholeness::length_by_value(self.fault, data, place)
    }

    fn fixed_length(&self, type_word: u64) -> FixedLength {
        let mut answer = Archive.fixed_length(type_word);
        let is = |name: Name| type_word & 0xFF == name as u64;
        match self.fault {
            Fault::GraphicCharacters if is(Name::Graphic) => answer.length /= 2,
            Fault::LobBit if is(Name::LobBytes) && answer.number == 0 => {
                answer.length = (type_word >> 8) as usize;
            }
            Fault::HighBitTaken => return Archive.fixed_length(type_word & !(1 << 40)),
            _ => {}
        }
        answer
    }
}

#[cfg(test)]
mod tests {
    use super::*;
    use crate::descriptions::compare::{Run, Stage};
    use crate::run::{Difference, Until};

    /// The first stage that can notice a fault: those before it would cost time.
    fn stage(fault: Fault) -> Stage {
        match fault {
            Fault::GraphicCharacters | Fault::LobBit | Fault::HighBitTaken => Stage::Types,
            Fault::TooFewFirst
            | Fault::BytesEarly
            | Fault::BytesLate
            | Fault::ColumnsEarly
            | Fault::ColumnsFirst
            | Fault::FullIsWhole
            | Fault::FlagBesideOne
            | Fault::FlagBesideTwo
            | Fault::FlagUnwritten
            | Fault::TwoFirst
            | Fault::FifteenFirst
            | Fault::TwoIsFifteen => Stage::Limits,
            Fault::LaterEntry
            | Fault::GroupVarChar
            | Fault::EmptyMddIgnored
            | Fault::EmptySdaIgnored
            | Fault::ReferenceLost
            | Fault::ReferenceBit => Stage::Sequences,
            _ if is_of_wholeness(fault) => Stage::Endings,
            _ => Stage::Codes,
        }
    }

    /// Those from the first of them on.
    fn is_of_wholeness(fault: Fault) -> bool {
        let first = FAULTS.iter().position(|f| *f == Fault::OneByteIsWhole);
        FAULTS[first.unwrap()..].contains(&fault)
    }

    fn found(library: Faulty) -> Difference {
        let fault = library.fault;
        let mut run = Run::new(library, 1, Until::Cases(10_000_000));
        let difference = run.from(stage(fault)).difference();
        difference.unwrap_or_else(|| panic!("{fault:?} was not noticed"))
    }

    /// The port's line for the smallest description, or type, that shows a fault.
    fn smallest(fault: Fault) -> String {
        let line = match fault {
            Fault::LaterEntry => {
                "Q 0378000370440378010370440676D0440000 R - C 1 VarChar.0:01:0:0:0:1:0:-:B"
            }
            Fault::GroupReal => "Q 0676D00A0000 R - C 1 Real:0A:0:0:0:0:0:-:B",
            Fault::GroupVarChar => "Q 0676D0CE0000 R - C 1 VarChar.0:CE:0:0:0:0:1208:-:B",
            Fault::PendingKept => "Q 0378000200037000 R - C 0",
            Fault::EmptyMddIgnored => "Q 0378000278037000 R - C 0",
            Fault::EmptySdaIgnored => "Q 0378000270037000 R - C 0",
            Fault::DeclaredNullable => {
                "Q 0378510370510676D0510000 R - C 1 LobChar.0:51:0:0:0:1:0:-:B"
            }
            Fault::DeclaredBinary => "Q 0378300370000676D0000000 R - C 1 Binary.0:30:0:0:0:0:0:-:B",
            Fault::IndexFromOne => "Q 037000 R - C - A BADINDEX",
            Fault::ReferenceLost | Fault::ReferenceZero => {
                "Q 0570C88000 R - C 1 Blob:C8:32768:0:0:0:0:-:L"
            }
            Fault::ReferenceBit => "Q 0570C88000 R - C 1 Blob:C8:32768:0:0:0:0:32768:L",
            Fault::SpareBit => "Q 037000 R - C - A BADWORD",
            Fault::AfterColumns => "Q 037000 R - C - A BADREST",
            Fault::ChangedOn101 | Fault::TooFewTaken | Fault::CountOn101 => {
                "Q 037000 R - C - A BAD101"
            }
            Fault::TooFewFirst => &repeated("037000", 129, "C - A BAD101"),
            Fault::BytesEarly => &repeated("00", 65_536, "C - A REFUSE1"),
            Fault::BytesLate => &repeated("00", 65_537, "C 0"),
            Fault::ColumnsEarly => &repeated("037000", 128, "C - A REFUSE2"),
            // So many bytes with columns in them take longer to make small than a test may.
            Fault::ColumnsFirst => "",
            Fault::GraphicCharacters => "F Graphic.1 A 1",
            Fault::LobBit => "F LobBytes.32768 A 32768",
            Fault::HighBitTaken => "vejupa_raw_fixed_length(0x10000000000) A 2",
            _ if is_of_wholeness(fault) => &of_wholeness(fault),
            _ => &of_origin(fault),
        };
        line.to_string()
    }

    /// The same for the faults of origins.
    fn of_origin(fault: Fault) -> String {
        // What is declared, an SDA's column and an undeclared LID's, each without its origin.
        const DECLARED: &str = "VarChar.0:00:0:0:0:0:0:-:B";
        const SDA: &str = "VarChar.0:00:0:0:0:0:0:-:L";
        const UNDECLARED: &str = "VarChar.0:00:0:0:0:0:1208:-:B";
        let (asked, columns) = match fault {
            Fault::OriginThree => {
                return "Q 0378000370000676D0000000 R - C - A BADWORD".to_string();
            }
            Fault::AllUndeclared
            | Fault::TypeZeroUndeclared
            | Fault::CcsidZeroUndeclared
            | Fault::LidZeroUndeclared
            | Fault::SameTypeUndeclared => ("0378000370000676D0000000", format!("1 {DECLARED}:U")),
            Fault::AllDeclared | Fault::OriginsSwapped => {
                ("0676D0000000", format!("1 {UNDECLARED}:D"))
            }
            Fault::LaterEntryDeclares => ("0676D0000000037800037000", format!("1 {UNDECLARED}:D")),
            Fault::InnerEntryDeclares => (
                "08760378000370000676D0000000",
                format!("2 {SDA}:S {UNDECLARED}:D"),
            ),
            Fault::EmptyMddDeclares => (
                "02780370000676D0000000",
                format!("2 {SDA}:S {UNDECLARED}:D"),
            ),
            Fault::EmptySdaDeclares => ("03780002700676D0000000", format!("1 {UNDECLARED}:D")),
            Fault::SecondEntryUndeclares => (
                "0378000370000378000370000676D0000000",
                format!("1 {DECLARED}:U"),
            ),
            // The first group has no column.
            Fault::EntriesForOneGroup => {
                ("0378000370000376D00676D0000000", format!("1 {DECLARED}:U"))
            }
            Fault::FirstOfGroup => (
                "0378000370000976D0010000000000",
                format!("2 VarChar.0:01:0:0:0:1:1208:-:B:U {DECLARED}:U"),
            ),
            Fault::FirstUse => (
                "0676D00000000378000370000676D0000000",
                format!("2 {UNDECLARED}:U {DECLARED}:U"),
            ),
            Fault::PreviousOrigin => ("0370000676D0000000", format!("2 {SDA}:S {UNDECLARED}:S")),
            Fault::SdaIsLid => ("037000", format!("1 {SDA}:U")),
            Fault::InnerSdaIsLid => ("0576037000", format!("1 {SDA}:U")),
            Fault::SdaOfDeclaredCode => (
                "037800037031037031",
                "1 Binary.0:31:0:0:0:1:0:-:L:D".to_string(),
            ),
            _ => panic!("{fault:?} is none of origins"),
        };
        format!("q 2 {asked} R - C {columns} whole")
    }

    /// The same for the faults of what is whole.
    fn of_wholeness(fault: Fault) -> String {
        // 129 columns, which are whole, and with a byte behind them.
        let columns = "037000".repeat(COLUMN_LIMIT + 1);
        let and_a_byte = columns.clone() + "00";
        match fault {
            Fault::FullIsWhole => {
                let asked = "037000".repeat(COLUMN_LIMIT) + "00";
                let columns = " VarChar.0:00:0:0:0:0:0:-:L:S".repeat(COLUMN_LIMIT);
                format!("q 2 {asked} R - C {COLUMN_LIMIT}{columns} whole")
            }
            Fault::FlagIsTwo | Fault::FlagLostInExact => "Q 00 R - C - A BADFLAG".to_string(),
            Fault::FlagBesideOne => repeated("00", 65_537, "C - A BADFLAG"),
            Fault::FlagBesideTwo => format!("Q {and_a_byte} R - C - A BADFLAG"),
            Fault::FlagBeside101 => "Q 03700000 R - C - A BADFLAG".to_string(),
            Fault::FlagUnwritten => format!("Q {columns} R - C - A BADFLAG"),
            Fault::TwoFirst => format!("n {and_a_byte} A REFUSE2"),
            Fault::FifteenFirst => format!("n {} A REFUSE15", "00".repeat(65_537)),
            Fault::TooFewBeforeFifteen | Fault::FifteenWithCount => {
                "n 03700000 A BAD101".to_string()
            }
            Fault::FifteenIsTwo => "n 00 A REFUSE2".to_string(),
            Fault::TwoIsFifteen => format!("n {columns} A REFUSE15"),
            Fault::ChangedOnFifteen => "n 00 A BADREST".to_string(),
            Fault::OneColumnFewer => "n 037000 A 0".to_string(),
            Fault::ByValueAllWhole => by_value("00", 0, 15, 0),
            Fault::ByValueFlagBesideTwo => by_value(&and_a_byte, 1, 15, 0),
            Fault::ByValueNoFifteen => by_value("00", 1, 0, 0),
            Fault::ByValueTwoFirst => by_value(&and_a_byte, 0, 2, 0),
            Fault::ByValueColumnsOnFifteen => by_value("057000000100", 1, 15, 1),
            Fault::ByValueOneColumnFewer => by_value("0676D0000001", 0, 0, 0),
            Fault::ByValueNotBlank => by_value("-", 0, 0, 4),
            _ => {
                let (asked, ending) = notion(fault);
                format!("q 2 {asked} R - C 0 {ending}")
            }
        }
    }

    fn by_value(asked: &str, broken_off: u32, number: u32, length: u32) -> String {
        format!("n {asked} by value: broken off {broken_off}, number {number}, length {length} at place 0")
    }

    /// The smallest description of which a wrong notion says that it is whole, or that it is broken off.
    fn notion(fault: Fault) -> (&'static str, &'static str) {
        match fault {
            Fault::OneByteIsWhole
            | Fault::OneZeroIsWhole
            | Fault::NoColumnIsWhole
            | Fault::AllWhole => ("00", "whole"),
            Fault::TwoBytesAreWhole | Fault::ZerosAreWhole => ("0000", "whole"),
            Fault::LengthZeroIsWhole => ("0001", "whole"),
            Fault::LengthOneIsWhole => ("0100", "whole"),
            Fault::PastEndIsWhole => ("0300", "whole"),
            Fault::OnePastIsWhole => ("02", "whole"),
            Fault::ManyPastIsWhole => ("81", "whole"),
            Fault::EmptyIsBroken
            | Fault::NoColumnIsBroken
            | Fault::AllBroken
            | Fault::BrokenSwapped => ("-", "broken"),
            Fault::PendingIsBroken => ("037800", "broken"),
            Fault::InnerBreakIsBroken => ("0576000000", "broken"),
            Fault::InnerRestIsBroken => ("037600", "broken"),
            Fault::GroupRestIsBroken => ("0476D000", "broken"),
            Fault::NoFieldsIsBroken => ("0270", "broken"),
            Fault::NoDataIsBroken | Fault::UnknownIsBroken => ("0200", "broken"),
            _ => panic!("{fault:?} is no notion of what is whole"),
        }
    }

    fn repeated(part: &str, times: usize, answer: &str) -> String {
        format!("Q {} R - {answer}", part.repeat(times))
    }

    #[test]
    fn every_fault_is_noticed_and_its_description_made_small() {
        for fault in FAULTS {
            let Difference { port, .. } = found(Faulty::new(fault));
            match fault {
                Fault::ColumnsFirst => assert!(port.ends_with("C - A REFUSE2")),
                _ => assert!(port == smallest(fault), "{fault:?}: {:.200}", port),
            }
        }
    }

    /// Those that both calls can have, in the one of descriptions that are to be whole.
    #[test]
    fn every_fault_of_both_calls_is_noticed_in_one() {
        let both = FAULTS.into_iter().filter(|fault| is_of_both(*fault));
        for fault in both {
            let Difference { port, .. } = found(Faulty::in_whole_alone(fault));
            let is_notion = is_of_wholeness(fault) && fault != Fault::FullIsWhole;
            let answered = match is_notion.then(|| notion(fault)) {
                Some((asked, "whole")) => port == format!("n {asked} A 0"),
                Some((asked, _)) => port == format!("n {asked} A REFUSE15"),
                None => port.starts_with("n "),
            };
            assert!(answered, "{fault:?}: {:.200}", port);
        }
    }

    fn is_of_both(fault: Fault) -> bool {
        let of_types = [Fault::GraphicCharacters, Fault::LobBit, Fault::HighBitTaken];
        let last = FAULTS.iter().position(|f| *f == Fault::BrokenSwapped);
        FAULTS[..=last.unwrap()].contains(&fault) && !of_types.contains(&fault)
    }
}
