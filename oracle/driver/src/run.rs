//! When a differential run ends, and with what.
use crate::shrink::cut_line;
use std::fmt;
use std::ops::ControlFlow::{self, Break, Continue};
use std::time::Instant;

/// When a run without a difference ends.
#[derive(Clone, Copy)]
pub enum Until {
    Cases(u64),
    Time(Instant),
}

impl Until {
    /// Whether a run ends after so many cases, before one with so many bytes.
    pub fn reached(self, cases: u64, bytes: usize) -> bool {
        match self {
            Until::Cases(most) => cases >= most,
            // The clock is read seldom where cases are short.
            Until::Time(end) => {
                (bytes > 1000 || cases.is_multiple_of(1024)) && Instant::now() >= end
            }
        }
    }
}

/// Why a run ended.
pub enum End {
    /// All that was asked for ran, and nothing differed.
    Enough,
    Different(Box<Difference>),
}

impl End {
    pub fn difference(self) -> Option<Difference> {
        match self {
            End::Enough => None,
            End::Different(difference) => Some(*difference),
        }
    }
}

pub type Flow = ControlFlow<End>;

/// The stages of a run from `first` on, up to the one that ends it.
pub fn from<S: Copy + Ord>(stages: &[S], first: S, run: impl FnMut(S) -> Flow) -> End {
    let mut left = stages.iter().copied().filter(|stage| *stage >= first);
    match left.try_for_each(run) {
        Break(end) => end,
        Continue(()) => End::Enough,
    }
}

/// Two answers to one request, each a line.
#[derive(Debug)]
pub struct Difference {
    pub rust: String,
    pub port: String,
    /// The bytes of the input that is left, and of that with which the difference was first seen; None where it was not made
    /// smaller.
    pub lengths: Option<(usize, usize)>,
}

impl fmt::Display for Difference {
    fn fmt(&self, f: &mut fmt::Formatter<'_>) -> fmt::Result {
        if let Some((now, first)) = self.lengths {
            writeln!(f, "smallest input found has {now} bytes, of {first}:")?;
        }
        let Difference { rust, port, .. } = self;
        write!(f, "rust: {}\nport: {}", cut_line(rust), cut_line(port))
    }
}
