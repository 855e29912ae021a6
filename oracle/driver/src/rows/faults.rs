//! The faults that `model` can have, to see that the differential run notices each.

/// Names the faults once, for the enum and for the list of all.
macro_rules! faults {
    ($($(#[doc = $said:literal])* $name:ident,)*) => {
        #[derive(Debug, Clone, Copy, PartialEq, Eq)]
        pub enum Fault {
            $($(#[doc = $said])* $name,)*
        }

        pub const FAULTS: &[Fault] = &[$(Fault::$name,)*];
    };
}

faults! {
    // Words and limits.
    /// A word left over is not seen.
    OddWordTaken,
    /// The first spare bit of a column's words is not looked at.
    SpareBitTaken,
    /// The number 3 is an origin.
    OriginThreeTaken,
    /// Only 0 is an origin.
    OriginRefused,
    /// An origin that contradicts the byte order is none.
    ContradictionRefused,
    /// A width without the bit that says that it is there is not seen.
    WidthWithoutBitTaken,
    /// A column's number above 255 is taken.
    LargeNumberTaken,
    /// Refusal 3 at the limit.
    ColumnsEarly,
    /// One word too few is enough.
    TooFewTaken,
    /// 101 where the words are just enough.
    TooFewEarly,
    /// 101 comes before refusal 3.
    TooFewFirst,
    /// 102 comes before 101.
    NoColumnFirst,
    /// Refusal 4 comes before 102.
    LongFirst,
    /// Refusal 5 comes before 4.
    DecFloatFirst,
    /// 101 with the number of words needed.
    TooFewWithNeeded,
    /// 101 with the number of words lent.
    TooFewWithLent,
    /// Refusal 4 at the limit.
    RowEarly,
    /// No refusal 4 one above the limit.
    RowLate,
    /// A DecFloat is seen in the last place only.
    DecFloatLast,
    /// A DecFloat is no cause for a refusal.
    DecFloatDecoded,
    // The row.
    /// The second skipped byte must be 00.
    SkipLooked,
    /// One byte is skipped.
    SkipOfOne,
    /// An FF alone is skipped.
    SkipAlone,
    /// Nothing is skipped.
    NoSkip,
    /// FE is skipped too.
    SkipOfFE,
    /// Indicators 80 to FE are Null.
    HighIndicators,
    /// Every indicator but 00 is Null.
    AnyIndicator,
    /// An indicator that is not there is counted from the rest.
    IndicatorFromRest,
    /// An indicator that is not there is counted from the row's first byte.
    IndicatorFromRow,
    /// A SmallInt that is Null takes its bytes.
    NullTakesValue,
    /// All columns but the first are Null.
    OnlyFirst,
    /// A value that is not there is counted from the body's start.
    ValueFromBody,
    /// The bytes used are counted from the body's start.
    UsedWithoutSkip,
    // The origin, which has no part in a row.
    /// A declared LID's column is nullable.
    DeclaredNullable,
    /// An SDA's column is little-endian, whatever it says,
    SdaLittle,
    /// or a LID's big-endian.
    LidBig,
    /// A LID's graphic lengths count bytes.
    LidGraphicInBytes,
    /// An undeclared LID's CCSID is 1208.
    UndeclaredCcsid,
    // Numbers.
    SmallIntUnsigned,
    IntegerUnsigned,
    /// A Double is big-endian whatever the column says.
    DoubleBig,
    /// A BigInt is little-endian whatever the column says.
    BigIntLittle,
    /// A NaN of 32 bits loses its signal.
    NanMadeQuiet,
    /// A subnormal of 32 bits becomes 0.
    SubnormalLost,
    /// The sign of minus zero is lost.
    MinusZeroLost,
    /// A NaN of 64 bits is called Double.
    NanIsDouble,
    /// An infinity of 64 bits is called NaN.
    InfinityIsNan,
    /// A Boolean is decided by its first byte.
    BooleanFirst,
    /// A Boolean of length 0 takes no byte.
    BooleanOf0,
    // Texts of the type's length, or of one of their own.
    /// A Decimal's bytes by the column's length.
    DecimalByLength,
    /// A Decimal's scale by the column.
    ScaleOfColumn,
    /// A Char's length by the column.
    CharByColumn,
    /// A Char of CCSID 1200 is UTF-16.
    CharGraphic,
    /// A VarChar is cut to the type's length.
    VarCharCut,
    /// A LongVarChar is a Clob.
    LongIsClob,
    /// A VarBinary with bit 8000 has a header.
    VarBinaryHeader,
    /// Two-byte lengths in the column's order.
    LittleLength,
    /// Too short by the bytes without the length in front of them.
    CountedWithoutLength,
    /// A Date by the column's length.
    DateByColumn,
    /// A Time of 10 bytes.
    TimeOf10,
    /// A Timestamp of 26 bytes always.
    TimestampAlways26,
    /// A Timestamp of length 0 takes no byte.
    TimestampOf0,
    LowerRowId,
    /// A Graphic's length counts bytes always.
    GraphicInBytes,
    /// A VarGraphic's length counts bytes always.
    VarGraphicInBytes,
    /// Graphic lengths count characters in big-endian columns too.
    GraphicBigDoubled,
    /// Graphic lengths count characters for 13488 too.
    Graphic13488Doubled,
    /// Graphic characters in the column's order.
    GraphicLittle,
    /// A Graphic is a VarChar.
    GraphicIsVarChar,
    // LOBs.
    /// The length in front of a header is not read.
    HeaderLengthUnread,
    /// A header of zeros is empty.
    HeaderOfZeros,
    /// A header is empty only where all bytes behind the first are 0.
    HeaderEnd,
    /// A header is empty whatever its first byte.
    HeaderFirst,
    HeaderNotExternal,
    /// The text of a header shows its length too.
    HeaderWithLength,
    /// A Blob shows the whole reference.
    BlobShowsAll,
    /// A reference of zeros is not empty.
    ReferenceOfZeros,
    /// A reference is empty whatever follows its first nine bytes.
    ReferenceEnd,
    ReferenceNotExternal,
    /// A reference without a width needs ten bytes.
    ReferenceOf10,
    /// A reference without a width is seen at length 0 only.
    ReferenceOfLength0,
    /// An Xml is never a reference without a width.
    XmlAlwaysInline,
    /// An Xml of length 0 is a locator.
    XmlLocator,
    /// A LOB of length 0 is empty where its four bytes are 0.
    LocatorOfZeros,
    /// A locator of zeros is not external.
    EmptyLocator,
    /// Only the low 16 bits of an inline length count.
    InlineOf16,
    /// Inline texts by the CCSID.
    InlineByCcsid,
    /// LobBytes and LobChar with bit 8000 in their length.
    LobBitKept,
    /// LobBytes are text always.
    LobBytesAlwaysText,
    /// LobBytes of length 0 are a Blob.
    EmptyLobIsBlob,
    /// LobBytes that are text are UTF-8 whatever the CCSID.
    LikelyAsUtf8,
    Lob1025,
    Lob1023,
    /// A short reference has at least 17 bytes.
    Lob17,
    /// Lower-case digits are none.
    LobUpperOnly,
    /// G is a digit.
    LobLetterG,
    /// Digits are counted in the first 16 bytes.
    LobFirst16,
    /// 15 digits are enough.
    Lob15Digits,
    /// A short reference takes 16 bytes.
    LobTakes16,
    LobNotExternal,
    // Characters replaced.
    /// The host's own U+FFFD are counted.
    HostsOwnCounted,
    /// One for each malformed byte.
    BytesCounted,
    /// One for a whole text.
    OneForText,
    /// One for the whole row.
    OneForRow,
    /// Those of the last text alone.
    LastTextCounted,
    /// Unpaired surrogates are left out.
    UnpairedUncounted,
    /// LOBs within the row are left out.
    InlineUncounted,
    /// LobChar is left out.
    LobCharUncounted,
    /// Dates and times are left out.
    DatesUncounted,
    /// None in a buffer that holds any texts.
    UncountedInLarge,
    /// The number stays with refusal 9.
    NineWithCount,
    /// Those before it stay with refusal 8.
    ShortWithCount,
    /// The row call by value leaves the number out,
    ByValueUncounted,
    /// or does so in a buffer that holds any texts,
    ByValueUncountedInLarge,
    /// or has it with refusal 9,
    ByValueNineWithCount,
    /// or those before it with refusal 8.
    ByValueShortWithCount,
    // Places and buffers.
    /// An empty binary value names where it would lie.
    EmptyBinaryPlace,
    /// Places in the row are counted from the body's start.
    PlaceFromBody,
    /// An empty text names place 0.
    EmptyTextAt0,
    /// A number's third word is not 0.
    LengthOfNumber,
    /// From the ninth column on none is external.
    ExternalOfFirst8,
    /// A spare bit of an external value is set.
    SpareValueBit,
    /// Refusal 9 where the texts just fit.
    NineAtFit,
    /// Refusal 9 only where two bytes or more are lacking.
    NineLate,
    /// The text buffer changes with refusal 9.
    NineWritesText,
    /// The words change with refusal 9.
    NineWritesValues,
    /// Refusal 9 with one byte more than needed.
    NineLong,
    /// Refusal 9 with the bytes lent.
    NineWithLent,
    /// Refusal 9 with the bytes that the row would use.
    NineWithUsed,
    /// No text is written.
    NoText,
    /// A text is taken for well-formed where that of the column before it is,
    FoundOfLast,
    /// or that of the column 64 before it.
    FoundOf64Before,
    /// A word after the values changes.
    WordAfterChanged,
    /// A byte after the texts changes, in a large buffer only.
    ByteAfterChanged,
    /// The bytes used for the bytes of text.
    TextsCountedWrong,
    /// An accepted row with a number of refusal 8.
    ExpectedLeft,
    /// The words change with refusal 8.
    ShortWritesValues,
    /// Refusal 8 with the bytes used up to it.
    ShortWithUsed,
    /// Refusal 8 with its numbers in the other order.
    ShortSwapped,
    // Rows as they come when a caller waits for more.
    /// A row that ends in 3,000 zeros is too short.
    ZerosRefused,
    /// A value that two bytes count is too short above 32,767 bytes.
    LongCountRefused,
    /// A row of which no byte is used is too short from 30 bytes on.
    UnusedRefused,
    // The host's release.
    /// Release 3 is taken for release 2,
    ReleaseIgnored,
    /// or release 2 for release 3.
    ReleaseAlways3,
    // At release 3, where the CCSID is unnamed:
    /// UTF-16 of an odd count is left to the guess,
    OddUtf16Guessed,
    /// or of an even count by code page 037.
    EvenUtf16By037,
    /// LobChar is UTF-8,
    LobCharUtf8,
    /// or left to the guess.
    LobCharGuessed,
    /// LobBytes that are text are UTF-8,
    LobBytesUtf8,
    /// or left to the guess.
    LobBytesGuessed,
    /// Whether LobBytes are text is judged of what they are converted to.
    LikelyAfterConversion,
    /// LOBs within the row by code page 037.
    InlineBy037,
    /// Dates and times are left to the guess,
    DatesGuessed,
    /// or LongVarChar,
    LongGuessed,
    /// or Graphic,
    GraphicGuessed,
    /// or VarGraphic,
    VarGraphicGuessed,
    /// or characters of 1200 and 13488,
    CharactersGuessed,
    /// or all CCSIDs but 0,
    OnlyZeroBy037,
    /// or nullable columns.
    NullableGuessed,
    /// CCSID 819 is unnamed.
    Latin1By037,
    /// Lengths of little-endian UTF-16 count bytes.
    ReleaseInExtents,
    // A number that is no release:
    /// Refusal 22 comes after 3,
    ReleaseAfterCount,
    /// after 101,
    ReleaseAfterWords,
    /// after 102,
    ReleaseAfterColumns,
    /// after 4,
    ReleaseAfterLength,
    /// after 5,
    ReleaseAfterDecFloat,
    /// after 8,
    ReleaseAfterShort,
    /// after 9.
    ReleaseAfterNine,
    /// The low 8 bits are the release,
    ReleaseCutTo8,
    /// or the low 16,
    ReleaseCutTo16,
    /// or all but the highest.
    ReleaseCutTo31,
    /// Larger numbers are release 3,
    LargerReleases,
    /// smaller ones release 2.
    SmallerReleases,
    /// A row without a text column is not refused.
    UnknownWithoutTexts,
    /// Refusal 22 with bytes used,
    UnknownWithUsed,
    /// with a text's length,
    UnknownWithLength,
    /// with characters replaced.
    UnknownWithCount,
    /// The words change with refusal 22,
    UnknownWritesValues,
    /// or the text buffer does.
    UnknownWritesText,
    // The row call by value:
    /// Release 3 is taken for release 2,
    ByValueReleaseIgnored,
    /// the low 8 bits are the release,
    ByValueReleaseCut,
    /// or every other number is release 2.
    ByValueUnknownTaken,
}

#[cfg(test)]
mod tests {
    use super::*;
    use crate::releases::{BY_037, PORTED};
    use crate::rows::compare::{Run, Stage};
    use crate::rows::model::Model;
    use crate::run::{End, Until};
    use crate::shrink::{held_to, middle_left_out};
    use std::thread;

    /// The first stage that can notice a fault. Random rows show most of them soonest.
    fn stage(fault: Fault) -> Stage {
        match fault {
            _ if fault as usize >= Fault::ReleaseAfterCount as usize
                && fault != Fault::ByValueReleaseIgnored =>
            {
                Stage::Unknown
            }
            Fault::RowEarly | Fault::RowLate | Fault::LongFirst | Fault::DecFloatFirst => {
                Stage::Long
            }
            Fault::ColumnsEarly
            | Fault::OddWordTaken
            | Fault::SpareBitTaken
            | Fault::OriginThreeTaken
            | Fault::WidthWithoutBitTaken
            | Fault::LargeNumberTaken
            | Fault::NoColumnFirst
            | Fault::TooFewFirst => Stage::Words,
            // All columns of this stage are SDAs': only the rows that are asked about again show it.
            Fault::DeclaredNullable | Fault::LidBig => Stage::Shapes,
            Fault::FoundOfLast | Fault::FoundOf64Before => Stage::Texts,
            Fault::ZerosRefused | Fault::LongCountRefused | Fault::UnusedRefused => Stage::Waiting,
            _ => Stage::Any,
        }
    }

    /// The release of the run that can notice a fault.
    fn release(fault: Fault) -> u32 {
        match fault {
            Fault::ReleaseAlways3 => PORTED,
            _ if fault as usize >= Fault::ReleaseIgnored as usize => BY_037,
            _ => PORTED,
        }
    }

    #[test]
    fn without_a_fault_nothing_is_noticed() {
        for (stage, release) in [
            (Stage::Words, PORTED),
            (Stage::Waiting, PORTED),
            (Stage::Any, PORTED),
            (Stage::Unknown, BY_037),
            (Stage::Waiting, BY_037),
            (Stage::Any, BY_037),
        ] {
            let mut run = Run::new(Model(None), 3, Until::Cases(100_000), release);
            assert!(matches!(run.from(stage), End::Enough));
        }
    }

    /// A fault, after how many rows it was noticed, and the smallest row that shows it, as the wrong library answers it.
    fn noticed(fault: Fault) -> String {
        let until = Until::Cases(2_000_000);
        let mut run = Run::new(Model(Some(fault)), 1, until, release(fault));
        let difference = run.from(stage(fault)).difference();
        let difference = difference.unwrap_or_else(|| panic!("{fault:?} was not noticed"));
        let rows = run.counts.rows();
        format!("{fault:?} {rows} {}", middle_left_out(&difference.port))
    }

    /// faults.txt has what each fault is noticed by.
    #[test]
    fn every_fault_is_noticed_and_its_row_made_small() {
        let (first, second) = FAULTS.split_at(FAULTS.len() / 2);
        let all = |faults: &[Fault]| faults.iter().map(|fault| noticed(*fault) + "\n").collect();
        let noticed: String = thread::scope(|scope| {
            let first = scope.spawn(|| -> String { all(first) });
            let second: String = all(second);
            first.join().expect("each is noticed") + &second
        });
        held_to(include_str!("faults.txt"), &noticed, "faults.txt");
    }
}
