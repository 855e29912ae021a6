//! Memory to lend to a call, and to look at afterwards: what it must keep, and what lies behind it.

/// Behind the lent ones so many are looked at too.
const GUARD: usize = 32;

/// Numbers that memory is filled with, each from its place.
pub trait Filling: Copy + PartialEq {
    /// Differs from place to place, so that numbers that are moved, or set to one value, show.
    fn at(place: u64) -> Self;
}

impl Filling for u64 {
    fn at(place: u64) -> u64 {
        (place + 1).wrapping_mul(0x9E37_79B9_7F4A_7C15)
    }
}

impl Filling for u8 {
    fn at(place: u64) -> u8 {
        (u64::at(place) >> 32) as u8
    }
}

/// Memory that is used again from call to call.
pub struct Lent<T> {
    before: Vec<T>,
    now: Vec<T>,
}

impl<T: Filling> Lent<T> {
    pub fn new() -> Self {
        Lent {
            before: Vec::new(),
            now: Vec::new(),
        }
    }

    /// So many, as they were at first, and behind them the guard.
    pub fn fresh(&mut self, size: usize) -> &mut [T] {
        let end = size + GUARD;
        if self.before.len() < end {
            self.before = (0..end as u64).map(T::at).collect();
            self.now = self.before.clone();
        }
        self.now[..end].copy_from_slice(&self.before[..end]);
        &mut self.now[..size]
    }

    /// Whether so many, and the guard, are as they were from `start` on.
    pub fn kept(&self, start: usize, size: usize) -> bool {
        let end = size + GUARD;
        self.now[start..end] == self.before[start..end]
    }

    /// The first of them, as they are now.
    pub fn first(&self, size: usize) -> &[T] {
        &self.now[..size]
    }
}

impl<T: Filling> Default for Lent<T> {
    fn default() -> Self {
        Lent::new()
    }
}
