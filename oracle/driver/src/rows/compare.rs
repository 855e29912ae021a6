//! The differential run: first rows by rule, then random ones, each asked of both sides. It ends at the first difference, with the
//! smallest row that it finds.
use super::columns::{self, plain};
use super::fewest::{self, Fewest};
use super::inputs::{self, Values};
use super::port_side::{Library, PortSide};
use super::smallest::smallest;
use super::waiting::{Tried, Waiting};
use super::{request, rust_side, Answer, List, Outcome, ROW_LIMIT};
use crate::descriptions::port_side::{Archive as Descriptions, PortSide as DescriptionSide};
use crate::descriptions::{self, Description, COLUMN_LIMIT};
use crate::inputs::{fill, Style};
use crate::random::Random;
use crate::releases::PORTED;
use crate::request::Form;
use crate::run::{self, Difference, End, Flow, Until};
use port::column::{Column, Name, Order, Origin, NAMES, ORIGINS};
use std::ops::ControlFlow::{self, Break, Continue};

/// The parts of a run. The last has no end of its own.
#[derive(Debug, Clone, Copy, PartialEq, Eq, PartialOrd, Ord)]
pub enum Stage {
    Unknown,
    Words,
    Shapes,
    Long,
    Texts,
    Short,
    Waiting,
    Any,
}

const STAGES: [Stage; 8] = [
    Stage::Unknown,
    Stage::Words,
    Stage::Shapes,
    Stage::Long,
    Stage::Texts,
    Stage::Short,
    Stage::Waiting,
    Stage::Any,
];

/// How many random rows a list of columns is asked about.
const ROWS_OF_A_LIST: usize = 24;

/// How many rows ran, by the Rust's answer; how many columns they had, by type; what demand 3 and request N14 were tried on.
#[derive(Default)]
pub struct Counts {
    pub accepted: u64,
    pub too_short: u64,
    pub refused_3: u64,
    pub refused_4: u64,
    pub refused_5: u64,
    pub refused_22: u64,
    pub refused_102: u64,
    /// Accepted rows with texts, each of which is refused with 9 in a shorter buffer.
    pub with_text: u64,
    /// Accepted rows with an external column.
    pub external: u64,
    /// Accepted rows with characters replaced.
    pub replaced: u64,
    /// Accepted rows with texts that are others than the Rust's own, by the release; and their columns, by type.
    pub otherwise: u64,
    pub otherwise_by_name: [u64; NAMES.len()],
    /// Accepted rows with a column whose origin no description would give one of its byte order.
    pub contradicted: u64,
    pub by_name: [u64; NAMES.len()],
    pub descriptions: u64,
    /// Rows of descriptions that the row call by value was asked about, and those of them with characters replaced.
    pub by_value: u64,
    pub replaced_by_value: u64,
    /// Rows that were also asked about with other origins.
    pub other_origins: u64,
    pub longer: u64,
    pub shorter: u64,
    pub alone: u64,
    pub waiting: Tried,
    pub fewest: fewest::Tried,
}

impl Counts {
    pub fn rows(&self) -> u64 {
        let refused = self.refused_3 + self.refused_4 + self.refused_5;
        let refused = refused + self.refused_22 + self.refused_102;
        self.accepted + self.too_short + refused
    }

    fn add(&mut self, list: &List, answer: &Answer) {
        match answer.outcome {
            Outcome::Accepted { replaced, .. } => {
                self.accepted += 1;
                self.replaced += u64::from(replaced > 0);
                self.with_text += u64::from(!answer.text.is_empty());
                let mut firsts = answer.values.iter().step_by(3);
                self.external += u64::from(firsts.any(|word| word & 1 << 8 != 0));
                self.contradicted += u64::from(list.columns.iter().any(is_contradicted));
            }
            Outcome::TooShort { .. } => self.too_short += 1,
            Outcome::Refusal(3) => self.refused_3 += 1,
            Outcome::Refusal(4) => self.refused_4 += 1,
            Outcome::Refusal(5) => self.refused_5 += 1,
            Outcome::Refusal(22) => self.refused_22 += 1,
            _ => self.refused_102 += 1,
        }
        for column in &list.columns {
            self.by_name[column.db2_type.name as usize] += 1;
        }
    }
}

/// In a description's list the columns of SDAs are little-endian, all others big-endian.
fn is_contradicted(column: &Column) -> bool {
    (column.origin == Origin::Sda) != (column.order == Order::Little)
}

pub struct Run<L> {
    pub(super) port: PortSide<L>,
    descriptions: DescriptionSide<Descriptions>,
    pub(super) random: Random,
    pub(super) waiting: Waiting,
    pub(super) fewest: Fewest,
    values: Values,
    until: Until,
    /// What rows are asked about with.
    pub(super) release: u32,
    /// The Rust's answer to the last row.
    pub(super) rust: Answer,
    pub counts: Counts,
}

impl<L: Library> Run<L> {
    pub fn new(library: L, seed: u64, until: Until, release: u32) -> Self {
        Run {
            port: PortSide::new(library),
            descriptions: DescriptionSide::new(Descriptions),
            random: Random::new(seed),
            waiting: Waiting::new(seed),
            fewest: Fewest::new(seed),
            values: Values::new(release),
            until,
            release,
            rust: Answer::new(),
            counts: Counts::default(),
        }
    }

    pub fn from(&mut self, first: Stage) -> End {
        run::from(&STAGES, first, |stage| match stage {
            Stage::Unknown if self.release == PORTED => Continue(()),
            Stage::Unknown => self.unknown(),
            Stage::Words => self.words(),
            Stage::Shapes => self.shapes(),
            Stage::Long => self.long(),
            Stage::Texts => self.texts(),
            Stage::Short => self.short(),
            Stage::Waiting => self.awaited_rows(),
            Stage::Any => self.any(),
        })
    }

    /// One row, and what is asked about one in some rows.
    pub(super) fn row(&mut self, list: &List, data: &[u8]) -> Flow {
        if self.until.reached(self.counts.rows(), data.len()) {
            return Break(End::Enough);
        }
        self.compared(list, data)?;
        self.other_origins(list, data)?;
        self.by_value(list, data)?;
        self.awaited(list, data)
    }

    /// One row: both sides are asked, and the port with every length of the buffers that port_side has.
    fn compared(&mut self, list: &List, data: &[u8]) -> Flow {
        let release = self.release;
        let otherwise = rust_side::answer_into(list, data, release, &mut self.rust);
        self.counts.add(list, &self.rust);
        self.counts.otherwise += u64::from(!otherwise.is_empty());
        for column in otherwise {
            let name = list.columns[column].db2_type.name;
            self.counts.otherwise_by_name[name as usize] += 1;
        }
        if *self.port.answer(list.asked(data, release)) == self.rust {
            return Continue(());
        }
        let found = smallest(&mut self.port, list, data, release);
        Break(End::Different(Box::new(found)))
    }

    /// A row, and another one made from it on which a rule fails: either the two sides differ there, or the Rust breaks the rule too.
    pub(super) fn broken(&mut self, rule: &str, list: &List, data: &[u8], other: &[u8]) -> Flow {
        self.compared(list, other)?;
        let release = self.release;
        let line = |data: &[u8]| {
            let answer = rust_side::answer(list, data, release).shown(Form::Whole, data);
            format!("{} A {answer}", request(Form::Whole, list, data, release))
        };
        Break(End::Different(Box::new(Difference {
            rust: line(data),
            port: format!("{} ({rule})", line(other)),
            lengths: None,
        })))
    }

    /// One row, and demand 3 on it.
    fn row_and_beginnings(&mut self, list: &List, data: &[u8]) -> Flow {
        self.row(list, data)?;
        self.beginnings(list, data)
    }

    /// A row, and the row cut at every byte.
    fn every_cut(&mut self, list: &List, data: &[u8]) -> Flow {
        self.row_and_beginnings(list, data)?;
        // Of a long row the beginnings and the ends: the Rust takes its time for long hex.
        let near = |place: &usize| *place < 40 || place + 3 > data.len();
        let places = (0..data.len()).filter(|place| data.len() < 300 || near(place));
        for place in places {
            self.row(list, &data[..place])?;
        }
        Continue(())
    }

    /// Lists of every count up to above the limit, words that are no columns', columns that are refused, and several of these.
    fn words(&mut self) -> Flow {
        let small = plain(Name::SmallInt.plain());
        let decfloat = plain(Name::DecFloat.with(16));
        for count in 0..=COLUMN_LIMIT + 3 {
            let list = List::numbered(vec![small; count]);
            let odd = List::of_words([&list.words[..], &[0]].concat());
            let mut damaged = list.clone();
            for place in [0, count / 2, count.saturating_sub(1)] {
                let mut columns = list.columns.clone();
                if let Some(column) = columns.get_mut(place) {
                    *column = decfloat;
                    self.row(&List::numbered(columns), &[])?;
                    damaged.words[2 * place] |= 1 << 63;
                }
            }
            let damaged = List::of_words(damaged.words);
            for length in [
                0,
                1,
                2,
                2 * count,
                2 * count + 1,
                (2 * count).saturating_sub(1),
            ] {
                let data = vec![0x12; length];
                self.row(&list, &data)?;
                self.row(&odd, &data)?;
                self.row(&damaged, &data)?;
            }
        }
        self.turned_bits()?;
        self.tags()
    }

    /// A column of each type and origin with each bit of its words turned, alone and behind another.
    fn turned_bits(&mut self) -> Flow {
        for column in columns::one_of_each() {
            let references = [None, Some(0x0102)].into_iter();
            let both = references.flat_map(|reference| ORIGINS.map(|origin| (reference, origin)));
            for (reference, origin) in both {
                let column = Column {
                    reference,
                    origin,
                    ..column
                };
                for bit in 0..128 {
                    let mut words = column.words();
                    words[bit / 64] ^= 1 << (bit % 64);
                    let before = plain(Name::SmallInt.plain()).words();
                    for list in [words.to_vec(), [before, words].concat()] {
                        self.row(&List::of_words(list), &[0; 4])?;
                    }
                }
            }
        }
        Continue(())
    }

    /// Every tag with numbers that a type may not hold, and numbers of columns.
    fn tags(&mut self) -> Flow {
        for tag in 0..=0xFF {
            for numbers in [0_u64, 1, 0xFF, 0x100, 0xFFFF] {
                self.row(&List::of_words(vec![tag | numbers << 8, 0]), &[0; 4])?;
            }
        }
        for index in [0, 1, 127, 128, 254, 255, 256, 257, 0x7FFF, 0x8000, 0xFFFF] {
            let column = Column {
                index,
                ..plain(Name::SmallInt.plain())
            };
            for count in [1, 2] {
                self.row(&List::of(&vec![column; count]), &[0; 4])?;
            }
        }
        Continue(())
    }

    /// Columns of every type and every class of what else they say: a few values of each, cut at every byte.
    fn shapes(&mut self) -> Flow {
        let mut row = Vec::new();
        for column in columns::shapes(self.release) {
            let list = List::of(&[column]);
            for _ in 0..4 {
                self.values.row(&mut self.random, &list.columns, &mut row);
                self.every_cut(&list, &row)?;
            }
        }
        Continue(())
    }

    /// Rows around the limit, with columns that take them whole and with lists that are refused.
    fn long(&mut self) -> Flow {
        let mut data = Vec::new();
        let clob = Column {
            length: 1,
            ..plain(Name::Clob.plain())
        };
        let blob = Column {
            length: 1,
            ..plain(Name::Blob.plain())
        };
        let small = plain(Name::SmallInt.plain());
        let lists = [
            List::default(),
            List::of(&[small]),
            List::of(&[clob]),
            List::of(&[blob]),
            List::numbered(vec![plain(Name::Char.with(0xFFFF)); 16]),
            List::numbered(vec![plain(Name::RowId.with(0xFFFF)); 2]),
            List::of(&[plain(Name::DecFloat.with(34))]),
            List::of_words(vec![1 << 63, 0]),
            List::of_words(vec![0; 3]),
            List::numbered(vec![small; COLUMN_LIMIT + 1]),
        ];
        for length in [ROW_LIMIT - 1, ROW_LIMIT, ROW_LIMIT + 1] {
            for style in [Style::DamagedUtf8, Style::Uniform, Style::Ascii] {
                fill(&mut self.random, style, length, &mut data);
                // As the length of a LOB: all that follows.
                data[..4].copy_from_slice(&u32::to_be_bytes(length as u32 - 4));
                for list in &lists {
                    self.row(list, &data)?;
                }
            }
        }
        Continue(())
    }

    /// Texts of which one is unlike the others, at every place: what is found out about a text must stay with its column.
    fn texts(&mut self) -> Flow {
        let mut row = Vec::new();
        for count in [1, 2, 63, 64, 65, 127, COLUMN_LIMIT] {
            let described = columns::described_texts(count, self.release);
            let described = self.described(&described)?;
            let lists = columns::texts(count, self.release);
            for list in lists.into_iter().chain(described) {
                for place in 0..count {
                    for [one, others] in inputs::unlike() {
                        inputs::texts(&list.columns, place, one, others, &mut row);
                        self.row(&list, &row)?;
                    }
                }
            }
        }
        Continue(())
    }

    /// No byte, every one byte and every two bytes, for every type and indicator.
    fn short(&mut self) -> Flow {
        let lists: Vec<List> = columns::one_of_each_at(self.release)
            .into_iter()
            .map(|column| List::of(&[column]))
            .collect();
        for list in &lists {
            self.row(list, &[])?;
            for byte in 0..=0xFF {
                self.row(list, &[byte])?;
            }
        }
        for list in &lists {
            for pair in 0..=0xFFFF_u16 {
                self.row(list, &pair.to_be_bytes())?;
            }
        }
        Continue(())
    }

    /// Random lists of columns, callers' own and of descriptions, each with random rows.
    fn any(&mut self) -> Flow {
        let mut row = Vec::new();
        let mut description = Vec::new();
        loop {
            let list = match self.random.below(8) {
                0..=1 => {
                    let random = &mut self.random;
                    match random.below(4) {
                        0 => descriptions::inputs::random_description(random, &mut description),
                        _ => columns::random_description(random, self.release, &mut description),
                    }
                    match self.described(&description)? {
                        Some(list) => list,
                        None => continue,
                    }
                }
                _ => columns::random_list(&mut self.random, self.release),
            };
            let rows = if list.count() > 20 { 2 } else { ROWS_OF_A_LIST };
            for _ in 0..rows {
                self.random_row(&list, &mut row)?;
            }
        }
    }

    /// The columns that the port reads out of a description, which must be those of the Rust, by both calls; None where it is refused.
    pub(super) fn described(&mut self, description: &[u8]) -> ControlFlow<End, Option<List>> {
        self.counts.descriptions += 1;
        let port = self.descriptions.answers(description);
        if port != descriptions::rust_side::answers(description) {
            let found = descriptions::compare::smallest(&mut self.descriptions, description);
            return Break(End::Different(Box::new(found)));
        }
        Continue(match port.ported {
            Description::Columns { columns, .. } => Some(List::described(&columns, description)),
            _ => None,
        })
    }

    fn random_row(&mut self, list: &List, row: &mut Vec<u8>) -> Flow {
        match self.random.below(64) {
            0..=3 => {
                row.clear();
                inputs::noise(&mut self.random, row);
            }
            _ => self.values.row(&mut self.random, &list.columns, row),
        }
        match self.random.below(64) {
            0 if row.len() < 200 => self.every_cut(list, row),
            0..=9 => {
                inputs::extend(&mut self.random, row);
                self.row(list, row)
            }
            10..=25 => {
                inputs::damage(&mut self.random, row);
                self.row(list, row)
            }
            26..=31 => self.row_and_beginnings(list, row),
            _ => self.row(list, row),
        }
    }
}
