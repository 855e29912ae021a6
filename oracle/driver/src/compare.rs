//! The differential run: first inputs by rule, then random ones, each asked of both sides. It ends at the first difference,
//! with the smallest input that it finds.
use crate::blocks;
use crate::inputs::{self, Style, EDGE_BYTES, LIMIT_LENGTHS, LONG_LENGTHS, SEQUENCES};
use crate::leaf::{Answer, Leaf, KINDS};
use crate::packed_whole;
use crate::port_side::{Library, PortSide};
use crate::random::Random;
use crate::releases::{self, BY_037, PORTED};
use crate::request::{Call, Form};
use crate::run::{self, Difference, End, Flow, Until};
use crate::rust_side;
use crate::shrink::Shrinking;
use std::collections::BTreeMap;
use std::ops::ControlFlow::{Break, Continue};

/// The parts of a run, the cheap ones first. The last has no end of its own.
#[derive(Debug, Clone, Copy, PartialEq, Eq, PartialOrd, Ord)]
pub enum Stage {
    Unknown,
    Short,
    Edges,
    Places,
    PackedWholes,
    Utf8Blocks,
    Utf16Blocks,
    ByteBlocks,
    Lengths,
    Any,
}

const STAGES: [Stage; 9] = [
    Stage::Short,
    Stage::Edges,
    Stage::Places,
    Stage::PackedWholes,
    Stage::Utf8Blocks,
    Stage::Utf16Blocks,
    Stage::ByteBlocks,
    Stage::Lengths,
    Stage::Any,
];

/// Above release 2: numbers that are no release, and what unnamed CCSIDs have a part in.
const STAGES_BY_RELEASE: [Stage; 7] = [
    Stage::Unknown,
    Stage::Short,
    Stage::Edges,
    Stage::Places,
    Stage::ByteBlocks,
    Stage::Lengths,
    Stage::Any,
];

/// How many bytes a pass may ask about that makes an input smaller.
const BUDGET: usize = 20_000_000;

pub struct Run<L> {
    port: PortSide<L>,
    random: Random,
    until: Until,
    release: u32,
    /// How many cases ran, by kind of call.
    pub counts: [u64; KINDS.len()],
    /// How many of them were refused for their release,
    pub unknown: u64,
    /// and how many texts are others than the Rust's own, by the release.
    pub otherwise: u64,
    /// How many whole numbers got which answer: 0 where there is a number, else the refusal's.
    pub wholes: BTreeMap<u32, u64>,
}

impl<L: Library> Run<L> {
    pub fn new(library: L, seed: u64, until: Until, release: u32) -> Self {
        Run {
            port: PortSide::new(library),
            random: Random::new(seed),
            until,
            release,
            counts: [0; KINDS.len()],
            unknown: 0,
            otherwise: 0,
            wholes: BTreeMap::new(),
        }
    }

    pub fn cases(&self) -> u64 {
        self.counts.iter().sum()
    }

    pub fn from(&mut self, first: Stage) -> End {
        let stages: &[Stage] = match self.release {
            PORTED => &STAGES,
            _ => &STAGES_BY_RELEASE,
        };
        run::from(stages, first, |stage| match stage {
            Stage::Unknown => releases::unknown::texts(&mut |leaf, data| self.case(leaf, data)),
            Stage::Short => self.short(),
            Stage::Edges => self.edges(),
            Stage::Places => self.places(),
            Stage::PackedWholes => {
                packed_whole::inputs::by_rule(&mut |leaf, data| self.case(leaf, data))
            }
            Stage::Utf8Blocks => blocks::inputs::utf8(&mut |leaf, data| self.case(leaf, data)),
            Stage::Utf16Blocks => blocks::inputs::utf16(&mut |leaf, data| self.case(leaf, data)),
            Stage::ByteBlocks => {
                blocks::inputs::bytes(self.release, &mut |leaf, data| self.case(leaf, data))
            }
            Stage::Lengths => self.lengths(),
            Stage::Any => self.any(),
        })
    }

    /// One case: both sides are asked, and the port with every buffer that port_side has.
    fn case(&mut self, leaf: Leaf, data: &[u8]) -> Flow {
        if self.until.reached(self.cases(), data.len()) {
            return Break(End::Enough);
        }
        self.counts[leaf.kind()] += 1;
        let rust = rust_side::answer(leaf, data);
        if let Leaf::PackedWhole { .. } = leaf {
            *self.wholes.entry(rust.number()).or_default() += 1;
        }
        self.unknown += u64::from(rust.number() == 22);
        self.otherwise += u64::from(is_otherwise(leaf, data, &rust));
        if rust == self.port.answer(leaf, data) {
            return Continue(());
        }
        Break(End::Different(Box::new(self.smallest(leaf, data))))
    }

    fn differs(&mut self, leaf: Leaf, data: &[u8]) -> bool {
        rust_side::answer(leaf, data) != self.port.answer(leaf, data)
    }

    /// No byte, every one byte and every two bytes, for every call.
    fn short(&mut self) -> Flow {
        let leaves = inputs::leaves(self.release);
        for &leaf in &leaves {
            self.case(leaf, &[])?;
            for byte in 0..=0xFF {
                self.case(leaf, &[byte])?;
            }
        }
        for &leaf in &leaves {
            for pair in 0..=0xFFFF_u16 {
                self.case(leaf, &pair.to_be_bytes())?;
            }
        }
        Continue(())
    }

    /// Edge bytes: every three for every call; every four, and a letter behind them, where sequences of four have a meaning.
    fn edges(&mut self) -> Flow {
        let triples = tuples::<3>();
        for leaf in inputs::leaves(self.release) {
            for triple in &triples {
                self.case(leaf, triple)?;
            }
        }
        if self.release != PORTED {
            return Continue(());
        }
        let fours = tuples::<4>();
        for leaf in [Leaf::character(1208), Leaf::graphic(1200), Leaf::Likely] {
            for &[a, b, c, d] in &fours {
                self.case(leaf, &[a, b, c, d])?;
                if leaf == Leaf::character(1208) {
                    self.case(leaf, &[a, b, c, d, b'A'])?;
                }
            }
        }
        Continue(())
    }

    /// Each sequence at each place of a text of letters: code that goes by blocks meets it at every place of a block.
    fn places(&mut self) -> Flow {
        for leaf in inputs::leaves(self.release) {
            for sequence in SEQUENCES {
                for before in 0..=33 {
                    for after in [0, 1, 2, 15, 16, 17] {
                        let mut data = vec![b'a'; before];
                        data.extend_from_slice(sequence);
                        data.resize(data.len() + after, b'z');
                        self.case(leaf, &data)?;
                    }
                }
            }
        }
        Continue(())
    }

    /// Every call at the lengths of a page and at the limit, with bytes of several styles.
    fn lengths(&mut self) -> Flow {
        for leaf in inputs::leaves(self.release) {
            for style in inputs::STYLES {
                for length in LONG_LENGTHS {
                    self.styled(leaf, style, length)?;
                }
            }
            // They take their time: above release 2 only where it goes by the release.
            if !inputs::is_long(leaf) {
                continue;
            }
            for style in [Style::DamagedUtf8, Style::DamagedUtf16] {
                for length in LIMIT_LENGTHS {
                    self.styled(leaf, style, length)?;
                }
            }
        }
        Continue(())
    }

    /// Random calls with random bytes of random lengths.
    fn any(&mut self) -> Flow {
        loop {
            let leaf = inputs::random_leaf(&mut self.random, self.release);
            let style = inputs::random_style(&mut self.random, leaf);
            let length = inputs::random_length(&mut self.random);
            self.styled(leaf, style, length)?;
        }
    }

    fn styled(&mut self, leaf: Leaf, style: Style, length: usize) -> Flow {
        let mut data = Vec::new();
        inputs::fill(&mut self.random, style, length, &mut data);
        self.case(leaf, &data)
    }

    /// The smallest input found that still differs: bytes are cut out, then lowered.
    fn smallest(&mut self, leaf: Leaf, data: &[u8]) -> Difference {
        let leaf = self.plain(leaf, data);
        let mut shrinking = Shrinking::new(data, BUDGET, |data: &[u8]| self.differs(leaf, data));
        shrinking.cut();
        shrinking.lower();
        let smallest = shrinking.data;
        let rust = rust_side::answer(leaf, &smallest);
        let port = self.port.answer(leaf, &smallest);
        let lengths = Some((smallest.len(), data.len()));
        let request = Call {
            leaf,
            data: smallest.clone(),
        };
        let is_ported = leaf.release().is_none_or(|release| release == PORTED);
        let form = Form::telling(is_ported && rust.to_string() != port.to_string());
        let request = request.shown(form);
        Difference {
            rust: format!("{request} A {}", rust.shown(form)),
            port: format!("{request} A {}", port.shown(form)),
            lengths,
        }
    }

    /// The call with the precision that a line passes, where that differs too; that of a whole number with the smallest scale that does.
    fn plain(&mut self, leaf: Leaf, data: &[u8]) -> Leaf {
        match leaf {
            Leaf::Decimal { scale, .. } if self.differs(Leaf::decimal(scale), data) => {
                Leaf::decimal(scale)
            }
            Leaf::PackedWhole { scale } => {
                let mut smaller = (0..scale).map(|scale| Leaf::PackedWhole { scale });
                let found = smaller.find(|smaller| self.differs(*smaller, data));
                found.unwrap_or(leaf)
            }
            _ => leaf,
        }
    }
}

/// Whether an answer is another than the Rust's own, by the release: a text that the Rust takes for ASCII.
fn is_otherwise(leaf: Leaf, data: &[u8], answer: &Answer) -> bool {
    match answer {
        Answer::Text { text, .. } if leaf.release() == Some(BY_037) => {
            data.is_ascii() && rust_side::text(leaf.at(PORTED), data).as_bytes() != &text[..]
        }
        _ => false,
    }
}

/// All sequences of N edge bytes.
fn tuples<const N: usize>() -> Vec<[u8; N]> {
    let edges = EDGE_BYTES.len();
    (0..edges.pow(N as u32))
        .map(|number| {
            let mut rest = number;
            [(); N].map(|()| {
                let byte = EDGE_BYTES[rest % edges];
                rest /= edges;
                byte
            })
        })
        .collect()
}
