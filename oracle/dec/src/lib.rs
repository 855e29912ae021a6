//! Stand-in for the registry crate `dec`. It has the names and the signatures that the published types.rs uses, so that the
//! file compiles, and no decimal arithmetic. DECFLOAT texts are therefore unreal here: every one reads `DECFLOAT without oracle`,
//! and no text is accepted as one. Nothing may be concluded from a DECFLOAT value that passed through this crate.
use std::fmt;
use std::str::FromStr;

/// Why no text is read: there is nothing here to read it with.
#[derive(Debug, Clone, PartialEq)]
pub struct NoDecimals;

impl fmt::Display for NoDecimals {
    fn fmt(&self, f: &mut fmt::Formatter<'_>) -> fmt::Result {
        f.write_str("DECFLOAT without oracle")
    }
}

/// The interchange format of so many bytes, kept and not understood.
#[derive(Debug, Clone, Copy, PartialEq)]
pub struct Decimal<const N: usize>([u8; N]);

pub type Decimal64 = Decimal<8>;
pub type Decimal128 = Decimal<16>;

impl<const N: usize> Decimal<N> {
    pub fn from_be_bytes(bytes: [u8; N]) -> Self {
        Decimal(bytes)
    }

    pub fn to_be_bytes(self) -> [u8; N] {
        self.0
    }
}

impl<const N: usize> fmt::Display for Decimal<N> {
    fn fmt(&self, f: &mut fmt::Formatter<'_>) -> fmt::Result {
        NoDecimals.fmt(f)
    }
}

impl<const N: usize> FromStr for Decimal<N> {
    type Err = NoDecimals;

    fn from_str(_: &str) -> Result<Self, NoDecimals> {
        Err(NoDecimals)
    }
}
