//! Request N14, tried on the compiled code. A row of at least two bytes that is too short is accepted, and every byte of it used, with as many zeros behind it
//! as `zeros` says; that holds of any columns. With fewer it stays too short, and a row of at least two bytes that is accepted stays so with any bytes behind
//! it: that holds where each column carries its own end, and `Ends` has where else.
//!
//! How many zeros it takes is a second opinion, by the published Rust.
use super::beginnings::carries_own_end;
use super::compare::Run;
use super::port_side::Library;
use super::smallest::smallest;
use super::walk::skip;
use super::{inputs, rust_side, List, Outcome, ROW_LIMIT};
use crate::random::Random;
use crate::run::{End, Flow};
use db2_proto::fdoca::{exposed, ColumnDescriptor};
use db2_proto::ProtoError;
use port::column::{Column, Name};
use std::ops::ControlFlow::{Break, Continue};

/// Of so many rows one is tried: it takes more time than the row itself.
const OF_ROWS: usize = 24;

/// A row that lacks more zeros is tried the less often the more it lacks, so that long ones take no more time than short ones;
const FEW: usize = 100;

/// the same of the rows by rule, which are all tried.
pub(super) const FEW_BY_RULE: usize = 2000;

/// What a column takes goes by no zeros behind these, but for a LobBytes or LobChar that may be a reference.
const SETTLED: usize = 9;

/// As many zeros as the longest LobBytes or LobChar declares.
static ZEROS: [u8; 0x7FFF] = [0; 0x7FFF];

/// How many zeros to put behind a row.
pub type Witness = fn(&List, &[u8]) -> usize;

/// What is tried with.
pub struct Waiting {
    /// Of its own: the rows that a seed makes are the same whatever is tried on them.
    pub(super) random: Random,
    pub(super) witness: Witness,
}

impl Waiting {
    pub fn new(seed: u64) -> Self {
        Waiting {
            random: Random::new(!seed),
            witness: zeros,
        }
    }
}

/// How many zeros a row lacks. Each column takes what it would if zeros without end followed, and what is not there of that is lacking.
pub fn zeros(list: &List, data: &[u8]) -> usize {
    lacking(list, data, |column, rest| taken(column, rest, value_taken))
}

/// A column in both forms.
pub(super) type Both<'a> = (&'a Column, &'a ColumnDescriptor);

/// How many bytes a row lacks, by what a column takes of a rest.
fn lacking(list: &List, data: &[u8], taken: impl Fn(Both, &[u8]) -> usize) -> usize {
    let mut rest = &data[skip(data)..];
    let mut lacking = 0;
    for column in list.columns.iter().zip(&list.published) {
        let taken = taken(column, rest);
        let there = taken.min(rest.len());
        lacking += taken - there;
        rest = &rest[there..];
    }
    lacking
}

/// The bytes that a column takes of a rest with zeros without end behind it, its indicator among them.
fn taken(column: Both, rest: &[u8], value_taken: impl Fn(Both, &[u8]) -> usize) -> usize {
    match (column.0.nullable, rest) {
        (false, _) => value_taken(column, rest),
        (true, [0xFF, ..]) => 1,
        (true, [_, rest @ ..]) => 1 + value_taken(column, rest),
        // The first zero is the indicator, and says that there is a value.
        (true, []) => 1 + value_taken(column, rest),
    }
}

/// The bytes that a value takes of a rest with zeros without end behind it.
pub(super) fn value_taken((column, published): Both, rest: &[u8]) -> usize {
    // A value that is there and carries its own end takes the same with zeros behind it.
    if carries_own_end(column) {
        if let Ok((_, used)) = exposed::decode_column_value(rest, published) {
            return used;
        }
    }
    let behind = match may_take_all(column) {
        true => usize::from(column.db2_type.numbers & 0x7FFF),
        false => SETTLED,
    };
    with_zeros(published, rest, &ZEROS[..behind])
}

/// What the Rust says that a value takes of a rest and the zeros behind it: so much was there, or so much it expects.
fn with_zeros(published: &ColumnDescriptor, rest: &[u8], zeros: &[u8]) -> usize {
    let joined;
    let data = match rest {
        [] => zeros,
        _ => {
            joined = [rest, zeros].concat();
            &joined
        }
    };
    match exposed::decode_column_value(data, published) {
        Ok((_, used)) => used,
        Err(ProtoError::BufferTooShort { expected, .. }) => expected,
        Err(other) => panic!("the Rust refuses a value otherwise: {other}"),
    }
}

/// A LobBytes or LobChar that takes all of the rest where that is a reference.
fn may_take_all(column: &Column) -> bool {
    let is_lob = matches!(column.db2_type.name, Name::LobBytes | Name::LobChar);
    is_lob && column.db2_type.numbers & 0x7FFF >= 1024
}

/// What bytes behind a row may do, by its columns.
#[derive(Debug, Clone, Copy, PartialEq, Eq)]
enum Ends {
    /// Each column carries its own end: a row that is accepted keeps its answer.
    Own,
    /// So does each, but for LobBytes and LobChar that may take all that follows: it stays accepted.
    OwnOrAll,
    Others,
}

impl Ends {
    fn of(list: &List) -> Ends {
        let all = |is: fn(&Column) -> bool| list.columns.iter().all(is);
        if all(carries_own_end) {
            Ends::Own
        } else if all(|column| carries_own_end(column) || may_take_all(column)) {
            Ends::OwnOrAll
        } else {
            Ends::Others
        }
    }
}

/// The most zeros of each class that is counted, and its name.
const SIZES: [(usize, &str); 6] = [
    (1, "1 zero"),
    (9, "2 to 9 zeros"),
    (256, "10 to 256 zeros"),
    (4_000, "257 to 4,000 zeros"),
    (65_000, "4,001 to 65,000 zeros"),
    (ROW_LIMIT, "more than 65,000 zeros"),
];

/// What it was tried on.
#[derive(Debug, Default)]
pub struct Tried {
    /// Rows that are accepted with zeros: of columns that carry their own end,
    pub filled: u64,
    /// and of others.
    pub filled_others: u64,
    /// All of them, by how many zeros it took.
    pub by_size: [u64; SIZES.len()],
    /// Rows with fewer zeros.
    pub fewer: u64,
    /// Rows that lack more zeros than the limit leaves.
    pub beyond: u64,
    /// Accepted rows with bytes behind them,
    pub longer: u64,
    /// and those of them of which no byte is used.
    pub unused: u64,
    /// Accepted rows with bytes behind them, of columns of which one may take these,
    pub longer_or_all: u64,
    /// and those of them whose answer has changed.
    pub changed: u64,
}

impl Tried {
    /// Each count, and what was counted.
    pub fn told(&self) -> Vec<(u64, String)> {
        let by_size = self.by_size.iter().zip(SIZES);
        let by_size = by_size.map(|(count, (_, size))| (*count, format!("of both by {size}")));
        let filled = [
            (self.filled, "too short, accepted with zeros"),
            (
                self.filled_others,
                "the same of columns without their own end",
            ),
        ];
        let others = [
            (self.fewer, "with fewer zeros too short"),
            (self.beyond, "too short, lacks more than the limit leaves"),
            (self.longer, "accepted, the same with bytes behind it"),
            (self.unused, "of them rows of which no byte is used"),
            (
                self.longer_or_all,
                "accepted, so with bytes behind it that a LobBytes or LobChar may take",
            ),
            (self.changed, "of them rows whose answer changes"),
        ];
        let words = |(count, words): (u64, &str)| (count, words.to_string());
        let all = filled.map(words).into_iter().chain(by_size);
        let all = all.chain(others.map(words));
        all.map(|(count, words)| (count, format!("N14: {words}")))
            .collect()
    }
}

impl<L: Library> Run<L> {
    /// Tries a row to which `self.rust` is the answer, where it is its turn.
    pub(super) fn awaited(&mut self, list: &List, data: &[u8]) -> Flow {
        match self.waiting.random.one_in(OF_ROWS) {
            true => self.awaited_now(list, data, FEW),
            false => Continue(()),
        }
    }

    /// The same, whether it is or not; always where the row lacks few zeros.
    pub(super) fn awaited_now(&mut self, list: &List, data: &[u8], few: usize) -> Flow {
        match self.rust.outcome {
            _ if data.len() < 2 => Continue(()),
            Outcome::TooShort { .. } => {
                self.filled(list, data, few)?;
                self.least_filled(list, data, few)
            }
            Outcome::Accepted { used, .. } => self.followed(list, data, used),
            _ => Continue(()),
        }
    }

    /// A row that is too short, with as many zeros as it lacks and with fewer.
    fn filled(&mut self, list: &List, data: &[u8], few: usize) -> Flow {
        let zeros = (self.waiting.witness)(list, data);
        let Some(length) = data
            .len()
            .checked_add(zeros)
            .filter(|all| *all <= ROW_LIMIT)
        else {
            self.counts.waiting.beyond += 1;
            return Continue(());
        };
        if zeros > few && self.waiting.random.below(zeros) >= few {
            return Continue(());
        }
        let mut filled = data.to_vec();
        filled.resize(length, 0);
        let rust = rust_side::answer(list, &filled, self.release);
        if !matches!(rust.outcome, Outcome::Accepted { used, .. } if used == length) {
            return self.broken("N14: filled with zeros", list, data, &filled);
        }
        let asked = list.asked(&filled, self.release);
        // Other buffers too, where they are not long.
        let same = match zeros <= FEW_BY_RULE {
            true => *self.port.answer(asked) == rust,
            false => self.port.gives(asked, &rust),
        };
        if !same {
            let found = smallest(&mut self.port, list, &filled, self.release);
            return Break(End::Different(Box::new(found)));
        }
        let ends = Ends::of(list);
        let tried = &mut self.counts.waiting;
        match ends {
            Ends::Own => tried.filled += 1,
            Ends::OwnOrAll | Ends::Others => tried.filled_others += 1,
        }
        let size = SIZES.iter().position(|(most, _)| zeros <= *most);
        tried.by_size[size.expect("within the limit")] += 1;
        if ends == Ends::Others {
            return Continue(());
        }
        for fewer in [zeros - 1, self.waiting.random.below(zeros)] {
            let less = &filled[..data.len() + fewer];
            self.counts.waiting.fewer += 1;
            if !self
                .port
                .is_too_short(list.asked(less, self.release), rust.text.len())
            {
                return self.broken("N14: fewer zeros", list, data, less);
            }
        }
        Continue(())
    }

    /// A row that is accepted, with bytes behind it.
    fn followed(&mut self, list: &List, data: &[u8], used: usize) -> Flow {
        let ends = Ends::of(list);
        if ends == Ends::Others {
            return Continue(());
        }
        let mut longer = data.to_vec();
        inputs::extend(&mut self.waiting.random, &mut longer);
        if longer.len() > ROW_LIMIT {
            return Continue(());
        }
        let asked = list.asked(&longer, self.release);
        if ends == Ends::Own {
            self.counts.waiting.longer += 1;
            self.counts.waiting.unused += u64::from(used == 0);
            return match self.port.gives(asked, &self.rust) {
                true => Continue(()),
                false => self.broken("N14: bytes behind it", list, data, &longer),
            };
        }
        let rust = rust_side::answer(list, &longer, self.release);
        if *self.port.answer(asked) != rust {
            let found = smallest(&mut self.port, list, &longer, self.release);
            return Break(End::Different(Box::new(found)));
        }
        self.counts.waiting.longer_or_all += 1;
        self.counts.waiting.changed += u64::from(rust != self.rust);
        match rust.is_accepted() {
            true => Continue(()),
            false => self.broken("N14: bytes behind it", list, data, &longer),
        }
    }
}

#[cfg(test)]
mod tests {
    use super::*;
    use crate::releases::{BY_037, PORTED};
    use crate::rows::columns::{self, plain};
    use crate::rows::compare::Stage;
    use crate::rows::inputs::Values;
    use crate::rows::port_side::Archive;
    use crate::run::Until;
    use port::column::{Order, Type, NAMES};
    use std::cell::{Cell, RefCell};
    use std::collections::BTreeSet;

    #[test]
    fn zeros_of_known_rows() {
        let of_length = |name: Name, length: u16| Column {
            length,
            ..plain(name.plain())
        };
        let nullable = |db2_type: Type| Column {
            nullable: true,
            ..plain(db2_type)
        };
        let doubled = Column {
            ccsid: 1200,
            order: Order::Little,
            ..plain(Name::VarGraphic.with(9))
        };
        let digits = |count: usize| vec![b'0'; count];
        let varchar = plain(Name::VarChar.with(9));
        let small = plain(Name::SmallInt.plain());
        let xml = plain(Name::Xml.plain());
        let lob = plain(Name::LobBytes.with(1024));
        for (columns, row, zeros) in [
            (vec![small], vec![0, 1], 0),
            (vec![small], vec![0xFF, 0], 2),
            // The zero is the length's low byte.
            (vec![varchar], vec![0xFF, 0, 1], 257),
            (vec![varchar], vec![0xFF, 0, 0xFF, 0xFF], 65_535),
            (vec![varchar], vec![0, 3, b'A'], 2),
            (vec![doubled], vec![0, 3, 0], 5),
            (
                vec![plain(Name::VarChar.with(0x8009))],
                vec![0xFF, 0, 0x81],
                257,
            ),
            (vec![plain(Name::VarChar.with(0x8009))], vec![0xFF, 0, 2], 8),
            // With nine bytes it is a reference.
            (vec![xml], vec![2, 0, 0, 0], 5),
            (vec![xml], vec![0xFF, 0, 2], 8),
            (vec![xml], vec![1, 0, 0, 0], 0x0100_0000),
            (vec![of_length(Name::Clob, 1)], vec![0xFF; 6], 0xFFFF_FFFF),
            (
                vec![of_length(Name::Blob, 0), small],
                vec![2, 0, 0, 0, 0, 1],
                5,
            ),
            (
                vec![of_length(Name::Blob, 0), small],
                vec![3, 0, 0, 0, 0],
                1,
            ),
            // The first zero is the indicator.
            (vec![nullable(Name::SmallInt.plain())], vec![0xFF, 0], 3),
            (
                vec![nullable(Name::SmallInt.plain()); 3],
                vec![0xFF, 0, 0xFF, 0, 1],
                4,
            ),
            (
                vec![small, varchar, nullable(Name::SmallInt.plain())],
                vec![0, 1],
                5,
            ),
            // All that is there is a reference, and not its end.
            (vec![lob, small], digits(16), 1010),
            (vec![lob], digits(15), 1009),
            (
                vec![plain(Name::VarChar.with(0x8000)), small],
                vec![0xFF, 0, 0xFF],
                32_515,
            ),
        ] {
            assert_eq!(
                super::zeros(&List::numbered(columns), &row),
                zeros,
                "{row:02X?}"
            );
        }
    }

    /// What a column takes of a rest with so many zeros behind it that more have no part.
    fn taken_plainly((column, published): Both, rest: &[u8]) -> usize {
        let all = [rest, &ZEROS, &ZEROS].concat();
        match (column.nullable, &all[..]) {
            (true, [0xFF, ..]) => 1,
            (true, all) => 1 + with_zeros(published, &all[1..], &[]),
            (false, all) => with_zeros(published, all, &[]),
        }
    }

    #[test]
    fn few_zeros_settle_what_a_column_takes() {
        let mut random = Random::new(5);
        let mut values = Values::new(PORTED);
        let mut row = Vec::new();
        let mut short = 0;
        for _ in 0..3000 {
            let list = columns::random_list(&mut random, PORTED);
            if list.refusal.is_some() || list.count() > 20 {
                continue;
            }
            for _ in 0..4 {
                values.row(&mut random, &list.columns, &mut row);
                inputs::damage(&mut random, &mut row);
                let zeros = zeros(&list, &row);
                short += usize::from(zeros > 0);
                assert_eq!(zeros, lacking(&list, &row, taken_plainly), "{row:02X?}");
            }
        }
        assert!(short > 2000);
    }

    thread_local! {
        /// The columns that were the first to lack bytes: the type, whether nullable, and how many bytes were there.
        static LACKED: RefCell<BTreeSet<(usize, bool, usize)>> = const { RefCell::new(BTreeSet::new()) };
    }

    fn zeros_noted(list: &List, data: &[u8]) -> usize {
        let found = Cell::new(false);
        lacking(list, data, |column, rest| {
            let taken = taken(column, rest, value_taken);
            if taken > rest.len() && !found.replace(true) {
                let name = column.0.db2_type.name as usize;
                let first = (name, column.0.nullable, rest.len());
                LACKED.with_borrow_mut(|all| all.insert(first));
            }
            taken
        })
    }

    #[test]
    fn the_rows_by_rule_have_all_that_is_counted_and_every_type() {
        for release in [PORTED, BY_037] {
            let mut run = Run::new(Archive, 1, Until::Cases(u64::MAX), release);
            run.waiting.witness = zeros_noted;
            assert!(run.awaited_rows().is_continue());
            for (count, counted) in run.counts.waiting.told() {
                assert!(count > 0, "{counted}");
            }
        }
        let lacked = LACKED.take();
        for name in NAMES {
            // One is refused, the other takes no byte.
            if matches!(name, Name::DecFloat | Name::Null) {
                continue;
            }
            for nullable in [false, true] {
                let has = |there: usize| lacked.contains(&(name as usize, nullable, there));
                assert!(has(0), "{name:?} {nullable}");
                // The indicator alone, or one byte of the value.
                let of_one = matches!(name, Name::Boolean);
                assert!(has(1) || of_one && !nullable, "{name:?} {nullable}");
            }
        }
    }

    /// A value's bytes where the right number is wanted of most, and another of some.
    fn zeros_but(list: &List, data: &[u8], wrong: impl Fn(Both, &[u8]) -> Option<usize>) -> usize {
        let value = |column: Both, rest: &[u8]| {
            wrong(column, rest).unwrap_or_else(|| value_taken(column, rest))
        };
        lacking(list, data, |column, rest| taken(column, rest, value))
    }

    /// The number for other columns.
    fn zeros_of(list: &List, data: &[u8], other: impl FnMut(&mut Column)) -> usize {
        let mut columns = list.columns.clone();
        columns.iter_mut().for_each(other);
        zeros(&List::of(&columns), data)
    }

    fn is_lob(column: &Column) -> bool {
        columns::is_lob(column.db2_type.name) && column.reference.is_none()
    }

    const WRONG: [(&str, Witness); 17] = [
        (
            "what refusal 8 says is not there",
            |list, data| match rust_side::answer(list, data, PORTED).outcome {
                Outcome::TooShort { expected, actual } => expected - actual,
                _ => 0,
            },
        ),
        ("one more", |list, data| zeros(list, data) + 1),
        ("one fewer", |list, data| zeros(list, data) - 1),
        ("twice as many", |list, data| 2 * zeros(list, data)),
        ("no indicator", |list, data| {
            lacking(list, data, |column, rest| match rest {
                [] => value_taken(column, rest),
                _ => taken(column, rest, value_taken),
            })
        }),
        ("Null where nothing is there", |list, data| {
            lacking(list, data, |column, rest| match rest {
                [] if column.0.nullable => 1,
                _ => taken(column, rest, value_taken),
            })
        }),
        ("an indicator alone is Null", |list, data| {
            lacking(list, data, |column, rest| match rest {
                [_] if column.0.nullable => 1,
                _ => taken(column, rest, value_taken),
            })
        }),
        ("no reference of nine bytes", |list, data| {
            zeros_but(list, data, |(column, published), rest| {
                let behind = 4_usize.saturating_sub(rest.len());
                is_lob(column).then(|| with_zeros(published, rest, &ZEROS[..behind]))
            })
        }),
        ("a reference wherever 02 begins a LOB", |list, data| {
            zeros_but(list, data, |(column, _), rest| {
                let of_a_lob = columns::is_lob(column.db2_type.name);
                (of_a_lob && rest.first() == Some(&0x02)).then_some(9)
            })
        }),
        ("half of a length is no length", |list, data| {
            zeros_but(list, data, |(_, published), rest| {
                (rest.len() == 1).then(|| with_zeros(published, rest, &[]))
            })
        }),
        ("half of a length is its low byte", |list, data| {
            zeros_but(list, data, |(_, published), rest| match rest {
                [low] => Some(with_zeros(published, &[0, *low], &ZEROS[..SETTLED])),
                _ => None,
            })
        }),
        ("later columns are not filled", |list, data| {
            let firsts = (1..=list.count()).map(|count| List::of(&list.columns[..count]));
            let mut all = firsts.map(|list| zeros(&list, data));
            all.find(|zeros| *zeros > 0).unwrap_or(0)
        }),
        ("the length that is declared", |list, data| {
            zeros_but(list, data, |(column, published), rest| {
                let own = column.db2_type.numbers;
                let is_counted = matches!(column.db2_type.name, Name::VarChar | Name::VarBinary);
                let there = exposed::decode_column_value(rest, published).is_ok();
                (is_counted && own < 0x8000 && !there).then_some(2 + usize::from(own))
            })
        }),
        ("a graphic length counts bytes", |list, data| {
            zeros_of(list, data, |column| column.order = Order::Big)
        }),
        ("a header's own length has no part", |list, data| {
            zeros_but(list, data, |(column, _), _| {
                let own = column.db2_type.numbers;
                let is_header = matches!(column.db2_type.name, Name::VarChar | Name::VarGraphic);
                (is_header && own & 0x8000 != 0).then_some(usize::from(own & 0x7FFF))
            })
        }),
        ("sixteen digits are the end", |list, data| {
            zeros_but(list, data, |(column, published), rest| {
                may_take_all(column).then(|| with_zeros(published, rest, &[]))
            })
        }),
        ("nothing is skipped", |list, data| {
            let mut data = data.to_vec();
            data[0] &= 0x7F;
            zeros(list, &data)
        }),
    ];

    #[test]
    fn wrong_numbers_of_zeros_are_noticed() {
        for stage in [Stage::Waiting, Stage::Any] {
            for (said, witness) in WRONG {
                let mut run = Run::new(Archive, 1, Until::Cases(1_000_000), PORTED);
                run.waiting.witness = witness;
                let difference = run.from(stage).difference();
                let difference = difference.unwrap_or_else(|| panic!("not noticed: {said}"));
                assert!(difference.port.contains("(N14: "), "{said}: {difference}");
            }
        }
    }
}
