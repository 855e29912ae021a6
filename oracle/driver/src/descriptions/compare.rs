//! The differential run: first types and descriptions by rule, then random descriptions, each asked of both sides. It ends at the
//! first difference, with the smallest description that it finds.
use super::endings::{self, Ending, Inside, ENDINGS, INSIDES};
use super::inputs::{self, KINDS};
use super::port_side::{Library, PortSide};
use super::wholeness::Zeros;
use super::{by_value, rust_side, Answers, Description, FixedLength, BREAKS_OFF};
use crate::random::Random;
use crate::releases::PORTED;
use crate::request::{Form, Request};
use crate::run::{self, Difference, End, Flow, Until};
use crate::shrink::Shrinking;
use port::column::{Name, Numbers, Type, NAMES, ORIGINS};
use port::NO_TYPE_WORD;
use std::ops::ControlFlow::{Break, Continue};

/// The parts of a run. The last has no end of its own.
#[derive(Debug, Clone, Copy, PartialEq, Eq, PartialOrd, Ord)]
pub enum Stage {
    Types,
    Codes,
    Limits,
    Endings,
    Sequences,
    Any,
}

const STAGES: [Stage; 6] = [
    Stage::Types,
    Stage::Codes,
    Stage::Limits,
    Stage::Endings,
    Stage::Sequences,
    Stage::Any,
];

/// The longest sequences of triplets that are all tried.
const LONGEST: usize = 4;

/// Of so many descriptions one is asked about with every number of zeros,
const OF_ZEROS: u64 = 256;

/// of so many long ones by rule,
const OF_LONG: usize = 7;

/// and of so many one is asked about by value.
const OF_BY_VALUE: u64 = 8;

/// How many cases ran, by the Rust's answer, how many descriptions end how, and how many columns there were by their type and by their origin.
#[derive(Default)]
pub struct Counts {
    pub no_column: u64,
    pub columns: u64,
    pub refused_1: u64,
    pub refused_2: u64,
    /// By `Parser::Whole`, and where the other refuses by 2.
    pub refused_15: u64,
    pub refused_15_for_2: u64,
    /// Those of at most as many bytes as are accepted, by how they end; and the whole ones by what lets none break off.
    pub by_ending: [u64; ENDINGS.len()],
    pub by_inside: [u64; INSIDES.len()],
    /// Descriptions that the second opinion was asked about with every number of zeros, and those that went to the calls by value.
    pub every_zeros: u64,
    pub by_value: u64,
    pub fixed: u64,
    pub varies: u64,
    pub no_type: u64,
    pub by_name: [u64; NAMES.len()],
    pub by_origin: [u64; ORIGINS.len()],
}

impl Counts {
    pub fn descriptions(&self) -> u64 {
        self.no_column + self.columns + self.refused_1 + self.refused_2
    }

    pub fn types(&self) -> u64 {
        self.fixed + self.varies + self.no_type
    }

    fn add_description(&mut self, data: &[u8], answers: &Answers) {
        match &answers.ported {
            Description::Columns { columns, .. } if columns.is_empty() => self.no_column += 1,
            Description::Columns { columns, .. } => {
                self.columns += 1;
                for column in columns {
                    self.by_name[column.db2_type.name as usize] += 1;
                    self.by_origin[column.origin as usize] += 1;
                }
            }
            Description::Refusal(1) => return self.refused_1 += 1,
            _ => self.refused_2 += 1,
        }
        if answers.whole == Description::Refusal(BREAKS_OFF) {
            self.refused_15 += 1;
            self.refused_15_for_2 += u64::from(answers.ported == Description::Refusal(2));
        }
        let ending = Ending::of(data);
        self.by_ending[ending as usize] += 1;
        if ending == Ending::Whole {
            for (count, is_in) in self.by_inside.iter_mut().zip(Inside::all(data)) {
                *count += u64::from(is_in);
            }
        }
    }

    fn add_type(&mut self, answer: &FixedLength) {
        match answer {
            FixedLength::Bytes(_) => self.fixed += 1,
            FixedLength::Varies => self.varies += 1,
            _ => self.no_type += 1,
        }
    }
}

/// How many bytes a pass may ask about that makes a description smaller.
const BUDGET: usize = 1_000_000;

pub struct Run<L> {
    port: PortSide<L>,
    random: Random,
    until: Until,
    pub counts: Counts,
}

impl<L: Library> Run<L> {
    pub fn new(library: L, seed: u64, until: Until) -> Self {
        Run {
            port: PortSide::new(library),
            random: Random::new(seed),
            until,
            counts: Counts::default(),
        }
    }

    pub fn cases(&self) -> u64 {
        self.counts.descriptions() + self.counts.types()
    }

    pub fn from(&mut self, first: Stage) -> End {
        run::from(&STAGES, first, |stage| match stage {
            Stage::Types => self.types(),
            Stage::Codes => self.codes(),
            Stage::Limits => self.limits(),
            Stage::Endings => self.endings(),
            Stage::Sequences => self.sequences(),
            Stage::Any => self.any(),
        })
    }

    /// One description: both sides are asked, and the port by both calls with every number of words that port_side has.
    fn description(&mut self, data: &[u8]) -> Flow {
        let every_zeros = self.cases().is_multiple_of(OF_ZEROS);
        let by_value = self.cases().is_multiple_of(OF_BY_VALUE);
        self.asked(data, every_zeros, by_value)
    }

    /// The same, the second opinion with every number of zeros or not, and by value or not.
    fn asked(&mut self, data: &[u8], every_zeros: bool, by_value: bool) -> Flow {
        if self.until.reached(self.cases(), data.len()) {
            return Break(End::Enough);
        }
        let zeros = match every_zeros {
            true => Zeros::Every,
            false => Zeros::IfCut,
        };
        let rust = rust_side::answers_by(data, zeros);
        self.counts.add_description(data, &rust);
        self.counts.every_zeros += u64::from(every_zeros);
        if rust != self.port.answers(data) {
            return Break(End::Different(Box::new(smallest(&mut self.port, data))));
        }
        if by_value {
            let place = by_value::place(&rust, self.counts.by_value);
            self.counts.by_value += 1;
            if !self.port.is_same_by_value(data, &rust, place) {
                let found = by_value::smallest(&self.port, data, place);
                return Break(End::Different(Box::new(found)));
            }
        }
        Continue(())
    }

    /// One word as a type word. The Rust has no answer for one that is none.
    fn type_word(&mut self, word: u64) -> Flow {
        if self.until.reached(self.cases(), 0) {
            return Break(End::Enough);
        }
        let asked = Type::from_word(word);
        let rust = match asked {
            Some(asked) => rust_side::fixed_length(asked),
            None => FixedLength::Refusal(NO_TYPE_WORD),
        };
        self.counts.add_type(&rust);
        let port = self.port.fixed_length(word);
        if rust == port {
            return Continue(());
        }
        // The format has no line for a word that is no type's: the call is named, so that no one takes it for a request.
        let request = match asked {
            Some(asked) => Request::FixedLength(asked).shown(Form::Shared),
            None => format!("vejupa_raw_fixed_length(0x{word:X})"),
        };
        Break(End::Different(Box::new(Difference {
            rust: format!("{request} {rust}"),
            port: format!("{request} {port}"),
            lengths: None,
        })))
    }

    /// Every type with every number that it can hold, and words that are no type's.
    fn types(&mut self) -> Flow {
        for name in NAMES {
            for numbers in 0..=largest(name) {
                self.type_word(name.with(numbers).word())?;
            }
            if largest(name) < u16::MAX {
                self.type_word(name.with(largest(name) + 1).word())?;
                self.type_word(name.with(u16::MAX).word())?;
            }
            for bit in 24..64 {
                self.type_word(name.plain().word() | 1 << bit)?;
            }
        }
        for tag in NAMES.len() as u64..=0xFF {
            for numbers in [0, 1, 0xFF, 0x100, 0xFFFF] {
                self.type_word(tag | numbers << 8)?;
            }
        }
        Continue(())
    }

    /// Every code at every place for one.
    fn codes(&mut self) -> Flow {
        for code in 0..=0xFF {
            for data in inputs::of_code(code) {
                self.description(&data)?;
            }
        }
        Continue(())
    }

    fn limits(&mut self) -> Flow {
        for data in inputs::at_limits() {
            self.description(&data)?;
        }
        Continue(())
    }

    /// Every way to end. Short ones with every number of zeros, all by value.
    fn endings(&mut self) -> Flow {
        for data in endings::short() {
            self.asked(&data, true, true)?;
        }
        let long = [endings::behind_columns(), endings::behind_bytes()].concat();
        for (place, data) in long.iter().enumerate() {
            self.asked(data, place.is_multiple_of(OF_LONG), true)?;
        }
        Continue(())
    }

    /// All sequences of triplets, the short ones first.
    fn sequences(&mut self) -> Flow {
        let mut data = Vec::new();
        for length in 0..=LONGEST {
            for number in 0..KINDS.len().pow(length as u32) {
                data.clear();
                let mut rest = number;
                for _ in 0..length {
                    data.extend_from_slice(KINDS[rest % KINDS.len()]);
                    rest /= KINDS.len();
                }
                self.description(&data)?;
            }
        }
        Continue(())
    }

    fn any(&mut self) -> Flow {
        let mut data = Vec::new();
        loop {
            inputs::random_description(&mut self.random, &mut data);
            self.description(&data)?;
        }
    }
}

/// The smallest description found that still differs.
pub fn smallest<L: Library>(port: &mut PortSide<L>, data: &[u8]) -> Difference {
    let differs = |data: &[u8]| rust_side::answers(data) != port.answers(data);
    let smallest = shrunk(data, differs);
    let rust = rust_side::answers(&smallest);
    let port = port.answers(&smallest);
    let lengths = Some((smallest.len(), data.len()));
    let [rust, port] = lines(smallest, &rust, &port);
    Difference {
        rust,
        port,
        lengths,
    }
}

/// Triplets and parts of them are cut out, then bytes lowered.
pub fn shrunk(data: &[u8], differs: impl FnMut(&[u8]) -> bool) -> Vec<u8> {
    let mut shrinking = Shrinking::new(data, BUDGET, differs);
    // A byte that was lowered may let others go.
    loop {
        let before = shrinking.data.clone();
        cut_triplets(&mut shrinking);
        cut_in_triplets(&mut shrinking);
        shrinking.cut();
        shrinking.lower();
        if shrinking.data == before {
            return before;
        }
    }
}

/// The lines of the call by which two answers differ, of the ported one where they do by both.
fn lines(data: Vec<u8>, rust: &Answers, port: &Answers) -> [String; 2] {
    if rust.ported == port.ported {
        let request = Request::WholeDescription(data).shown(Form::Whole);
        return [rust, port].map(|answers| format!("{request} {}", answers.whole.listed()));
    }
    let (rust, port) = (&rust.ported, &port.ported);
    let form = Form::telling(rust.shown(Form::Shared) != port.shown(Form::Shared));
    let row = Vec::new();
    let request = Request::Description {
        data,
        row,
        release: PORTED,
    };
    let request = request.shown(form);
    [rust, port].map(|answer| format!("{request} {}", answer.shown(form)))
}

/// The largest number that a type of this name can hold.
fn largest(name: Name) -> u16 {
    match name.numbers() {
        Numbers::None => 0,
        Numbers::Digits => 0xFF,
        Numbers::Length | Numbers::PrecisionAndScale => 0xFFFF,
    }
}

/// Cuts out whole triplets, many at once first.
fn cut_triplets<F: FnMut(&[u8]) -> bool>(shrinking: &mut Shrinking<F>) {
    shrinking.renew();
    let mut triplets = inputs::triplets(&shrinking.data);
    let mut size = triplets.len();
    while size > 0 && shrinking.goes_on() {
        let mut first = 0;
        while first < triplets.len() && shrinking.goes_on() {
            let start = triplets[first].start;
            let end = triplets[triplets.len().min(first + size) - 1].end;
            if shrinking.try_with(|data| [&data[..start], &data[end..]].concat()) {
                triplets = inputs::triplets(&shrinking.data);
            } else {
                first += size;
            }
        }
        size /= 2;
    }
}

/// Cuts bytes out of triplets, many at once first, and lowers the length byte with them.
fn cut_in_triplets<F: FnMut(&[u8]) -> bool>(shrinking: &mut Shrinking<F>) {
    shrinking.renew();
    for size in [128, 64, 32, 16, 8, 5, 4, 3, 2, 1] {
        // From the last on: what is cut out moves none of those still to come.
        for triplet in inputs::triplets(&shrinking.data).into_iter().rev() {
            let mut start = triplet.start + 2;
            let mut end = triplet.end;
            while start + size <= end && shrinking.goes_on() {
                let shorter = |data: &[u8]| {
                    let mut shorter = [&data[..start], &data[start + size..]].concat();
                    shorter[triplet.start] -= size as u8;
                    shorter
                };
                if shrinking.try_with(shorter) {
                    end -= size;
                } else {
                    start += 1;
                }
            }
        }
    }
}
