//! Makes an input that differs smaller, and a long line short.

/// An input that differs, while it is made smaller.
pub struct Shrinking<F> {
    differs: F,
    pub data: Vec<u8>,
    /// How many bytes a pass may ask about, and how many this one still may: it bounds the time that a long input takes.
    whole_budget: usize,
    budget: usize,
}

impl<F: FnMut(&[u8]) -> bool> Shrinking<F> {
    pub fn new(data: &[u8], budget: usize, differs: F) -> Self {
        Shrinking {
            differs,
            data: data.to_vec(),
            whole_budget: budget,
            budget,
        }
    }

    /// Another pass may ask as much as the first.
    pub fn renew(&mut self) {
        self.budget = self.whole_budget;
    }

    /// Whether this pass may ask once more.
    pub fn goes_on(&self) -> bool {
        self.budget >= self.cost()
    }

    fn cost(&self) -> usize {
        self.data.len() + 100
    }

    /// Takes the input that `smaller` makes, if it differs too.
    pub fn try_with(&mut self, smaller: impl FnOnce(&[u8]) -> Vec<u8>) -> bool {
        if !self.goes_on() {
            return false;
        }
        self.budget -= self.cost();
        let smaller = smaller(&self.data);
        let taken = (self.differs)(&smaller);
        if taken {
            self.data = smaller;
        }
        taken
    }

    /// Cuts out parts, large ones first, until no part of any size can go.
    pub fn cut(&mut self) {
        self.renew();
        let mut size = self.data.len();
        while size > 0 {
            let mut start = 0;
            let mut went = false;
            while start < self.data.len() {
                let end = self.data.len().min(start + size);
                if self.try_with(|data| [&data[..start], &data[end..]].concat()) {
                    went = true;
                } else {
                    start = end;
                }
            }
            // A part that stayed may go now that others went.
            size = if went && size < 8 { 2 * size } else { size / 2 };
            size = size.min(self.data.len());
        }
    }

    /// Sets parts to 0, large ones first; then lowers each byte as far as it goes.
    pub fn lower(&mut self) {
        self.renew();
        let mut size = self.data.len();
        while size > 0 {
            for start in (0..self.data.len()).step_by(size) {
                let end = self.data.len().min(start + size);
                if self.data[start..end].iter().any(|byte| *byte != 0) {
                    self.try_with(|data| {
                        let mut smaller = data.to_vec();
                        smaller[start..end].fill(0);
                        smaller
                    });
                }
            }
            size /= 2;
        }
        for place in 0..self.data.len() {
            let lower = 1..self.data[place];
            lower.into_iter().any(|byte| {
                self.try_with(|data| {
                    let mut smaller = data.to_vec();
                    smaller[place] = byte;
                    smaller
                })
            });
        }
    }
}

/// The beginning of a line that no one could read whole.
pub fn cut_line(line: &str) -> String {
    const MOST: usize = 4000;
    match line.get(..MOST) {
        Some(beginning) => format!("{beginning}.. ({} characters)", line.len()),
        None => line.to_string(),
    }
}

/// A line, of which the middle is left out where no one could read it.
#[cfg(test)]
pub fn middle_left_out(line: &str) -> String {
    match line.len() {
        0..=300 => line.to_string(),
        length => format!("{}..{}", &line[..80], &line[length - 20..]),
    }
}

/// Holds the stored list of what each fault is noticed by to what it is now. Where it is out of date the message says where the new one lies.
#[cfg(test)]
pub fn held_to(stored: &str, noticed: &str, name: &str) {
    if noticed != stored {
        let file = std::env::temp_dir().join(name);
        std::fs::write(&file, noticed).expect("a file for what was noticed");
        panic!(
            "the list of faults is out of date; a new one is {}",
            file.display()
        );
    }
}
