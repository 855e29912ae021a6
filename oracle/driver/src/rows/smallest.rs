//! The smallest row that still differs, and the plainest columns for it.
use super::columns::plain;
use super::port_side::{Asked, Library, PortSide};
use super::{request, rust_side, Answer, List};
use crate::releases::PORTED;
use crate::request::Form;
use crate::run::Difference;
use crate::shrink::Shrinking;
use port::column::{Column, Numbers, Order, Origin, Type};

/// How many bytes a pass may ask about that makes a row smaller.
const BUDGET: usize = 8_000_000;

pub fn smallest<L: Library>(
    port: &mut PortSide<L>,
    list: &List,
    data: &[u8],
    release: u32,
) -> Difference {
    let mut found = Smallest {
        port,
        list: list.clone(),
        data: data.to_vec(),
        release,
        asked: 0,
    };
    found.shrink();
    let Smallest {
        port,
        list,
        data: left,
        ..
    } = found;
    let rust = rust_side::answer(&list, &left, release);
    let port = differing(port, list.asked(&left, release), &rust).unwrap_or(rust.clone());
    let shared = |answer: &Answer| answer.shown(Form::Shared, &left);
    let shows = list.of_sdas() && release == PORTED;
    let form = Form::telling(shows && shared(&rust) != shared(&port));
    let asked = request(form, &list, &left, release);
    Difference {
        rust: format!("{asked} A {}", rust.shown(form, &left)),
        port: format!("{asked} A {}", port.shown(form, &left)),
        lengths: Some((left.len(), data.len())),
    }
}

struct Smallest<'a, L> {
    port: &'a mut PortSide<L>,
    list: List,
    data: Vec<u8>,
    release: u32,
    /// Bytes asked about: it bounds the time that long rows take.
    asked: usize,
}

/// The port's answer, where it is not the Rust's. Which lengths of buffers the port's side tries goes by turns: it is asked more than
/// once.
fn differing<L: Library>(port: &mut PortSide<L>, asked: Asked, rust: &Answer) -> Option<Answer> {
    let turns = if asked.data.len() < 10_000 { 24 } else { 1 };
    (0..turns).find_map(|_| {
        let answer = port.answer(asked);
        (answer != rust).then(|| answer.clone())
    })
}

fn differs<L: Library>(port: &mut PortSide<L>, list: &List, data: &[u8], release: u32) -> bool {
    let rust = rust_side::answer(list, data, release);
    differing(port, list.asked(data, release), &rust).is_some()
}

impl<L: Library> Smallest<'_, L> {
    /// Columns and bytes are taken out, then made plain, until nothing more goes.
    fn shrink(&mut self) {
        loop {
            let before = (self.list.words.clone(), self.data.clone());
            self.cut_columns();
            self.cut_bytes();
            self.plain_columns();
            if before == (self.list.words.clone(), self.data.clone()) {
                return;
            }
        }
    }

    /// Takes another list and row, if they differ too.
    fn take(&mut self, list: List, data: Vec<u8>) -> bool {
        if self.asked > BUDGET {
            return false;
        }
        self.asked += data.len() + 50 * list.count() + 100;
        let taken = differs(self.port, &list, &data, self.release);
        if taken {
            self.list = list;
            self.data = data;
        }
        taken
    }

    /// Takes out words two by two, many at once first; each column with its bytes or without.
    fn cut_columns(&mut self) {
        let mut size = self.list.count();
        while size > 0 {
            let mut place = 0;
            while place < self.list.count() {
                let end = self.list.count().min(place + size);
                let words = &self.list.words;
                let rest = [&words[..2 * place], &words[2 * end..]].concat();
                let cut = self.without_bytes(place, end);
                let list = numbered(&self.list, rest);
                let went = cut.is_some_and(|data| self.take(list.clone(), data))
                    || self.take(list, self.data.clone());
                if !went {
                    place = end;
                }
            }
            size /= 2;
        }
        // A word left over.
        if self.list.words.len() % 2 == 1 {
            let words = self.list.words[..self.list.words.len() - 1].to_vec();
            self.take(List::of_words(words), self.data.clone());
        }
    }

    /// The row without the bytes of some columns, where the Rust reads so far.
    fn without_bytes(&self, from: usize, to: usize) -> Option<Vec<u8>> {
        let used = |columns: &[Column]| {
            let list = List::of(columns);
            // How many bytes a column takes does not go by the release.
            match rust_side::answer(&list, &self.data, PORTED).outcome {
                super::Outcome::Accepted { used, .. } => Some(used),
                _ => None,
            }
        };
        let columns = &self.list.columns;
        let start = used(columns.get(..from)?)?;
        let end = used(columns.get(..to)?)?;
        Some([&self.data[..start], &self.data[end..]].concat())
    }

    fn cut_bytes(&mut self) {
        self.cut_counted();
        let (port, list, release) = (&mut *self.port, &self.list, self.release);
        let differs = |data: &[u8]| differs(port, list, data, release);
        let mut shrinking = Shrinking::new(&self.data, BUDGET, differs);
        shrinking.cut();
        shrinking.lower();
        self.data = shrinking.data;
    }

    /// Takes out bytes that a byte before them may count, and counts fewer.
    fn cut_counted(&mut self) {
        for place in 0..self.data.len().min(200) {
            let counted = self.data.get(place).copied().unwrap_or(0);
            for fewer in [counted, counted / 2, 1] {
                let end = place + 1 + usize::from(fewer);
                if fewer == 0 || end > self.data.len() || fewer > self.data[place] {
                    continue;
                }
                let mut data = [&self.data[..=place], &self.data[end..]].concat();
                data[place] -= fewer;
                self.take(self.list.clone(), data);
            }
        }
    }

    /// Makes each column plain, field by field, and its numbers small.
    fn plain_columns(&mut self) {
        for place in 0..self.list.columns.len() {
            let own = self.list.columns[place].db2_type;
            let fields: [fn(&mut Column); 9] = [
                |column| column.origin = Origin::Sda,
                |column| column.nullable = false,
                |column| column.reference = None,
                |column| column.ccsid = 0,
                |column| column.order = Order::Big,
                |column| column.length = 0,
                |column| column.code = 0,
                |column| column.precision = 0,
                |column| column.scale = 0,
            ];
            self.change(place, 0, &|column| *column = plain(own));
            for field in fields {
                self.change(place, 0, &field);
            }
            self.lower_numbers(place);
        }
    }

    /// Takes the list with a column changed, and with it the row as it is or so many bytes shorter.
    fn change(&mut self, place: usize, shorter: usize, field: &dyn Fn(&mut Column)) -> bool {
        let mut columns = self.list.columns.clone();
        let before = columns[place];
        field(&mut columns[place]);
        columns[place].index = before.index;
        if columns[place] == before {
            return false;
        }
        let list = List::of(&columns);
        // Fewer bytes at the end, or behind the first, which may say what the bytes are.
        let end = self.data.len().saturating_sub(shorter);
        if shorter > 0 && end > 0 {
            let cut = self.data[..end].to_vec();
            let behind = [&self.data[..1], &self.data[1 + shorter..]].concat();
            if self.take(list.clone(), cut) || self.take(list.clone(), behind) {
                return true;
            }
        }
        self.take(list, self.data.clone())
    }

    /// Tries smaller numbers for one that stands in a column, the smallest first.
    fn lower_number(&mut self, place: usize, number: u16, put: fn(&mut Column, u16)) {
        for lower in lower(number) {
            let shorter = usize::from(number & 0x7FFF).saturating_sub(usize::from(lower & 0x7FFF));
            if self.change(place, shorter, &|column| put(column, lower)) {
                return;
            }
        }
    }

    fn lower_numbers(&mut self, place: usize) {
        let column = self.list.columns[place];
        let own = column.db2_type;
        let [precision, scale] = own.precision_and_scale();
        match own.name.numbers() {
            Numbers::None => {}
            Numbers::PrecisionAndScale => {
                self.lower_number(place, precision.into(), |column, lower| {
                    let [_, scale] = column.db2_type.precision_and_scale();
                    column.db2_type = Type::decimal(lower as u8, scale);
                });
                self.lower_number(place, scale.into(), |column, lower| {
                    let [precision, _] = column.db2_type.precision_and_scale();
                    column.db2_type = Type::decimal(precision, lower as u8);
                });
            }
            _ => self.lower_number(place, own.numbers, |column, lower| {
                column.db2_type.numbers = lower;
            }),
        }
        self.lower_number(place, column.length, |column, lower| column.length = lower);
        self.lower_number(place, column.reference.unwrap_or(0), |column, lower| {
            column.reference = column.reference.map(|_| lower);
        });
        for ccsid in [0, 37, 500, 819, 1200, 1208, 13488] {
            let now = self.list.columns[place].ccsid;
            if ccsid >= now || self.change(place, 0, &|column| column.ccsid = ccsid) {
                return;
            }
        }
    }
}

/// Words as a list; numbered by their places where they are columns' and so were the ones that they come from.
fn numbered(from: &List, words: Vec<u64>) -> List {
    let list = List::of_words(words);
    if from.has_line() {
        List::numbered(list.columns)
    } else {
        list
    }
}

/// Smaller numbers to try, the smallest first: a few, and those just below; with the highest bit and without.
fn lower(number: u16) -> impl Iterator<Item = u16> {
    let high = number & 0x8000;
    let low = number & 0x7FFF;
    let few = (0..20).chain(1020..1030).chain(low.saturating_sub(3)..low);
    let small = few.clone().filter(move |lower| *lower < number);
    let flagged = few.filter(move |lower| high != 0 && *lower < low);
    small.chain(flagged.map(move |lower| high | lower))
}
