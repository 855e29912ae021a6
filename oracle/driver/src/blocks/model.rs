//! What the port tests and counts in blocks, written a second time, plainly and with a switch for each condition. With all of them it gives the archive's
//! answers; without one it is a wrong library, whose fault shows only on some texts, as a real one would.

/// Texts up to this length do not go by blocks.
const SHORT: usize = 64;

/// A condition of the test for well-formed UTF-8, left out.
#[derive(Debug, Clone, Copy, PartialEq, Eq)]
pub enum Dropped {
    /// A trail byte stands where one is wanted, and nowhere else.
    Place,
    /// One is wanted after the first byte of a sequence,
    AfterFirst,
    /// after the second of three or four,
    AfterSecond,
    /// and after the third of four.
    AfterThird,
    /// C0 and C1 stand nowhere,
    From0xC0,
    /// and nor does F5 or a byte above it.
    From0xF5,
    /// After E0 comes no byte below A0,
    After0xE0,
    /// after ED none above 9F,
    After0xED,
    /// after F0 none below 90,
    After0xF0,
    /// after F4 none above 8F.
    After0xF4,
    /// The first byte of a text is tested,
    First,
    /// and its second,
    Second,
    /// and its third,
    Third,
    /// and the first three of a block, with those before them,
    Edge,
    /// and those behind a malformed part.
    Again,
    /// Where the blocks end inside a sequence, they end before it: after its first byte,
    EndAfterFirst,
    /// after the second of three or four,
    EndAfterSecond,
    /// after the third of four.
    EndAfterThird,
}

pub const DROPPED: [Dropped; 18] = [
    Dropped::Place,
    Dropped::AfterFirst,
    Dropped::AfterSecond,
    Dropped::AfterThird,
    Dropped::From0xC0,
    Dropped::From0xF5,
    Dropped::After0xE0,
    Dropped::After0xED,
    Dropped::After0xF0,
    Dropped::After0xF4,
    Dropped::First,
    Dropped::Second,
    Dropped::Third,
    Dropped::Edge,
    Dropped::Again,
    Dropped::EndAfterFirst,
    Dropped::EndAfterSecond,
    Dropped::EndAfterThird,
];

/// The text of UTF-8.
pub struct Utf8(pub Option<Dropped>);

impl Utf8 {
    /// What the blocks find to be well-formed is copied as it is. Pieces go one by one from there to a malformed one, and behind that the blocks begin again.
    pub fn text(&self, data: &[u8]) -> Vec<u8> {
        let mut text = Vec::new();
        let mut rest = data;
        loop {
            let (good, left) = rest.split_at(self.good(rest, rest.len() < data.len()));
            text.extend(good);
            let Some(chunk) = left.utf8_chunks().next() else {
                return text;
            };
            text.extend(chunk.valid().as_bytes());
            if !chunk.invalid().is_empty() {
                text.extend("\u{FFFD}".as_bytes());
            }
            rest = &left[chunk.valid().len() + chunk.invalid().len()..];
        }
    }

    fn has(&self, condition: Dropped) -> bool {
        self.0 != Some(condition)
    }

    /// After a, b and c the sequence goes on.
    fn wants(&self, a: u8, b: u8, c: u8) -> bool {
        self.has(Dropped::AfterFirst) && c >= 0xC0
            || self.has(Dropped::AfterSecond) && b >= 0xE0
            || self.has(Dropped::AfterThird) && a >= 0xF0
    }

    /// d does not follow a, b and c.
    fn breaks(&self, a: u8, b: u8, c: u8, d: u8) -> bool {
        let trail = (0x80..=0xBF).contains(&d);
        let low = (0x80..=0x9F).contains(&d);
        let lower = (0x80..=0x8F).contains(&d);
        self.has(Dropped::Place) && trail != self.wants(a, b, c)
            || self.has(Dropped::From0xC0) && (0xC0..=0xC1).contains(&d)
            || self.has(Dropped::From0xF5) && d >= 0xF5
            || self.has(Dropped::After0xE0) && c == 0xE0 && low
            || self.has(Dropped::After0xED) && c == 0xED && !low
            || self.has(Dropped::After0xF0) && c == 0xF0 && lower
            || self.has(Dropped::After0xF4) && c == 0xF4 && !lower
    }

    fn any_breaks(&self, data: &[u8]) -> bool {
        let mut fours = data.windows(4);
        fours.any(|four| self.breaks(four[0], four[1], four[2], four[3]))
    }

    /// Where the last whole sequence among the first `end` bytes ends.
    fn last_end(&self, data: &[u8], end: usize) -> usize {
        if self.has(Dropped::EndAfterFirst) && data[end - 1] >= 0xC0 {
            return end - 1;
        }
        if self.has(Dropped::EndAfterSecond) && data[end - 2] >= 0xE0 {
            return end - 2;
        }
        if self.has(Dropped::EndAfterThird) && data[end - 3] >= 0xF0 {
            return end - 3;
        }
        end
    }

    /// A byte among the first three is not what may stand there.
    fn begins_badly(&self, data: &[u8], again: bool) -> bool {
        let begun = !again || self.has(Dropped::Again);
        let tested = |condition| begun && self.has(condition);
        tested(Dropped::First) && self.breaks(0, 0, 0, data[0])
            || tested(Dropped::Second) && self.breaks(0, 0, data[0], data[1])
            || tested(Dropped::Third) && self.breaks(0, data[0], data[1], data[2])
    }

    /// The length of a well-formed part at the beginning. The blocks grow, and all but whole thirty-twos at the end are left out.
    fn good_blocks(&self, data: &[u8], again: bool) -> usize {
        if data.len() < SHORT || self.begins_badly(data, again) {
            return 0;
        }
        let before = if self.has(Dropped::Edge) { 3 } else { 0 };
        let mut start = 3;
        let mut most = 128;
        loop {
            let left = data.len() - start;
            let end = start + left.min(most) / 32 * 32;
            if left < 32 || self.any_breaks(&data[start - before..end]) {
                return self.last_end(data, start);
            }
            start = end;
            most = (2 * most).min(1024);
        }
    }

    /// The same; the blocks begin behind leading ASCII.
    fn good(&self, data: &[u8], again: bool) -> usize {
        if data.len() <= SHORT {
            return 0;
        }
        let leading = data.iter().take_while(|byte| byte.is_ascii()).count();
        leading + self.good_blocks(&data[leading..], again)
    }
}

/// A fault in counting the text of UTF-16.
#[derive(Debug, Clone, Copy, PartialEq, Eq)]
pub enum Miscount {
    /// A pair has six bytes,
    PairOfSix,
    /// where it lies across an edge of blocks.
    PairAcross,
    /// The first unit of a block is counted in the block before it too.
    FirstTwice,
    /// The last unit of a block is left out.
    LastLeftOut,
    /// A unit from 0080 on has one byte,
    From0x80,
    /// or from 0800 on two.
    From0x800,
    /// A high surrogate from DB00 on is none.
    From0xDB00,
    /// A low surrogate from DF00 on is none.
    From0xDF00,
    /// Odd places count too.
    OddPlaces,
}

pub const MISCOUNTS: [Miscount; 9] = [
    Miscount::PairOfSix,
    Miscount::PairAcross,
    Miscount::FirstTwice,
    Miscount::LastLeftOut,
    Miscount::From0x80,
    Miscount::From0x800,
    Miscount::From0xDB00,
    Miscount::From0xDF00,
    Miscount::OddPlaces,
];

/// The length of the text of UTF-16, big-endian.
pub struct Utf16(pub Option<Miscount>);

/// The bytes of a block.
const UNITS_BLOCK: usize = 128;

impl Utf16 {
    fn has(&self, fault: Miscount) -> bool {
        self.0 == Some(fault)
    }

    /// In blocks where the text is long and a unit follows; the rest as the Rust counts it.
    pub fn length(&self, data: &[u8]) -> usize {
        let mut length = 0;
        let mut start = 0;
        while data.len() >= 2 * UNITS_BLOCK && data.len() - start >= UNITS_BLOCK + 2 {
            length += self.block_length(&data[start..]);
            start += UNITS_BLOCK;
        }
        let rest = data[start..].chunks_exact(2);
        let units = rest.map(|unit| u16::from_be_bytes([unit[0], unit[1]]));
        let scalars = char::decode_utf16(units).map(|scalar| scalar.unwrap_or('\u{FFFD}'));
        length + scalars.map(char::len_utf8).sum::<usize>()
    }

    /// Of the units of a block, each by its bytes and the first byte after it.
    fn block_length(&self, data: &[u8]) -> usize {
        let step = if self.has(Miscount::OddPlaces) { 1 } else { 2 };
        let end = match self.0 {
            Some(Miscount::FirstTwice) => UNITS_BLOCK + 2,
            Some(Miscount::LastLeftOut) => UNITS_BLOCK - 2,
            _ => UNITS_BLOCK,
        };
        let follows = |place: usize| {
            let across = self.has(Miscount::PairAcross) && place + 2 == UNITS_BLOCK;
            data.get(place + 2).copied().filter(|_| !across)
        };
        (0..end)
            .step_by(step)
            .map(|place| self.unit_length(data[place], data[place + 1], follows(place)))
            .sum()
    }

    /// A pair has four bytes: one for the high surrogate, and three for the low one, as if it were alone.
    fn unit_length(&self, a: u8, b: u8, next: Option<u8>) -> usize {
        let last_high = if self.has(Miscount::From0xDB00) {
            0xDA
        } else {
            0xDB
        };
        let last_low = if self.has(Miscount::From0xDF00) {
            0xDE
        } else {
            0xDF
        };
        let low_follows = next.is_some_and(|next| (0xDC..=last_low).contains(&next));
        if !self.has(Miscount::PairOfSix) && (0xD8..=last_high).contains(&a) && low_follows {
            return 1;
        }
        let two = a != 0 || b >= 0x80 && !self.has(Miscount::From0x80);
        let three = a >= 8 && !self.has(Miscount::From0x800);
        1 + usize::from(two) + usize::from(three)
    }
}

/// A fault in the test for likely text.
#[derive(Debug, Clone, Copy, PartialEq, Eq)]
pub enum Unseen {
    /// Malformed parts are not seen.
    Malformed,
    /// A character below 20 is not seen,
    Below0x20,
    /// or 7F,
    Delete,
    /// or U+0080 to U+009F,
    From0x80,
    /// where they lie across an edge of blocks.
    Across,
    /// A tab is taken for one that a likely text may not hold,
    Tab,
    /// or a line feed,
    LineFeed,
    /// or a carriage return.
    Return,
}

pub const UNSEEN: [Unseen; 8] = [
    Unseen::Malformed,
    Unseen::Below0x20,
    Unseen::Delete,
    Unseen::From0x80,
    Unseen::Across,
    Unseen::Tab,
    Unseen::LineFeed,
    Unseen::Return,
];

/// The test for likely text.
pub struct Likely(pub Option<Unseen>);

/// The bytes of a block.
const LIKELY_BLOCK: usize = 128;

impl Likely {
    /// Well-formed, and no byte of it is or ends a control character.
    pub fn is(&self, data: &[u8]) -> bool {
        let fault = self.0.filter(|_| data.len() > SHORT);
        let well_formed = fault == Some(Unseen::Malformed) || std::str::from_utf8(data).is_ok();
        let before = |place: usize| match place {
            0 => 0,
            _ if fault == Some(Unseen::Across) && place.is_multiple_of(LIKELY_BLOCK) => 0,
            _ => data[place - 1],
        };
        let mut places = 0..data.len();
        well_formed && places.all(|place| !is_control(fault, before(place), data[place]))
    }
}

/// The byte b, behind a, is or ends a control character.
fn is_control(fault: Option<Unseen>, a: u8, b: u8) -> bool {
    let unless = |unseen: Unseen| fault != Some(unseen);
    match b {
        b'\t' => !unless(Unseen::Tab),
        b'\n' => !unless(Unseen::LineFeed),
        b'\r' => !unless(Unseen::Return),
        0x00..=0x1F => unless(Unseen::Below0x20),
        0x7F => unless(Unseen::Delete),
        0x80..=0x9F => a == 0xC2 && unless(Unseen::From0x80),
        _ => false,
    }
}
