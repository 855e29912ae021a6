//! Release 3: an unnamed CCSID beside CCSID 37, with the same bytes, which give the same text. The port alone, by turns.
use crate::rows::{self, Form, Table};
use crate::{inputs, port_texts, same, shown, Call, Lent, Line};
use differential::leaf::{Leaf, TEXT_LIMIT};
use differential::port_side;
use differential::random::Random;
use differential::releases::BY_037;
use differential::rust_side;
use differential::samples::{ascii, ebcdic, Maker};
use differential::timing::each_round;
use std::rc::Rc;

const UNNAMED: u16 = 273;

/// What a text holds, and what makes it.
const TEXTS: [(&str, Maker); 2] = [("EBCDIC", ebcdic), ("ASCII", ascii)];

/// Two lines of the same name and texts, the first with CCSID 37.
type Pair = [Line; 2];

/// Nanoseconds a call, of CCSID 37 and of the unnamed one: the least each; and the ratio in the middle of all rounds', since what slows the machine down for a
/// while then slows both.
struct Times {
    least: [f64; 2],
    ratio: f64,
}

impl Times {
    /// Of rounds in which so many texts are converted.
    fn of(rounds: &[[f64; 2]], texts: usize) -> Times {
        let least = |place: usize| {
            let times = rounds.iter().map(|round| round[place]);
            times.fold(f64::INFINITY, f64::min) / texts as f64
        };
        let ratios = rounds.iter().map(|[named, unnamed]| unnamed / named);
        let mut ratios: Vec<f64> = ratios.collect();
        ratios.sort_by(f64::total_cmp);
        Times {
            least: [least(0), least(1)],
            ratio: ratios[ratios.len() / 2],
        }
    }
}

/// Prints the table. The error is a text whose answers differ, with its line's name.
pub fn table(word: &str, lent: &mut Lent) -> Result<(), (String, Vec<u8>)> {
    println!("\n{}\n", heading());
    println!("| Call | Bytes | CCSID 37 ns, any text fits | Unnamed ns | Ratio | CCSID 37 ns, buffer exact | Unnamed ns | Ratio |");
    println!("|---|---:|---:|---:|---:|---:|---:|---:|");
    let mut slowest: Option<(f64, String)> = None;
    for pair in pairs() {
        let [named, unnamed] = &pair;
        if !named.name.contains(word) {
            continue;
        }
        for line in [named, unnamed] {
            same(line, lent).map_err(|text| (line.name.clone(), text.to_vec()))?;
        }
        let [ample, exact] = measure(&pair, lent);
        println!("{}", row(named, &ample, &exact));
        let ratio = ample.ratio.max(exact.ratio);
        if slowest.as_ref().is_none_or(|(most, _)| ratio > *most) {
            slowest = Some((ratio, format!("{}, {} bytes", named.name, named.length())));
        }
    }
    if let Some((ratio, name)) = slowest {
        println!("\nLargest ratio to CCSID 37: {ratio:.2} ({name}).");
    }
    Ok(())
}

fn heading() -> String {
    format!(
        "Release 3: CCSID {UNNAMED}, which is unnamed and so code page 037, beside CCSID 37. The port alone, by turns, with the same bytes and the same text; buffers and \
         times as above. Ratio: unnamed / CCSID 37, the one in the middle of all rounds', in each of which the two come one after the other."
    )
}

fn row(line: &Line, ample: &Times, exact: &Times) -> String {
    let column = |times: &Times| {
        let [named, unnamed] = times.least.map(shown);
        format!("{named} | {unnamed} | {:.2}", times.ratio)
    };
    format!(
        "| {} | {} | {} | {} |",
        line.name,
        line.length(),
        column(ample),
        column(exact)
    )
}

fn pairs() -> Vec<Pair> {
    let mut random = Random::new(1);
    let mut pairs = Vec::new();
    for (held, maker) in TEXTS {
        for length in inputs::text_lengths().chain([TEXT_LIMIT]) {
            let name = format!("Release 3, {held}");
            let named = Leaf::character(37).at(BY_037);
            let named = inputs::line(&mut random, &name, Call::Leaf(named), maker, length);
            pairs.push(paired(
                named,
                Call::Leaf(Leaf::character(UNNAMED).at(BY_037)),
            ));
        }
    }
    for (call, form) in [
        ("decode_row", Form::Boundary),
        ("decode_row by value", Form::ByValue),
    ] {
        for (held, maker) in TEXTS {
            let [named, unnamed] = [37, UNNAMED].map(|ccsid| {
                let kinds = rows::sixteen_texts(0x32, ccsid, maker);
                (Rc::new(Table::at(&kinds, BY_037)), kinds)
            });
            let named = Line {
                name: format!("{call} at release 3, 16 texts, {held}"),
                call: Call::Row(form, named.0),
                texts: Rc::new(vec![rows::row(&mut random, &unnamed.1)]),
            };
            pairs.push(paired(named, Call::Row(form, unnamed.0)));
        }
    }
    pairs
}

/// A line, and the same by another call.
fn paired(named: Line, call: Call) -> Pair {
    let unnamed = Line {
        name: named.name.clone(),
        call,
        texts: Rc::clone(&named.texts),
    };
    [named, unnamed]
}

/// Where any text fits, and with exact buffers.
fn measure([named, unnamed]: &Pair, lent: &mut Lent) -> [Times; 2] {
    let (ample, exact) = sizes(unnamed);
    let mut rounds = [Vec::new(), Vec::new()];
    each_round(
        lent,
        [
            &|lent| calls(named, &ample, lent),
            &|lent| calls(unnamed, &ample, lent),
            &|lent| calls(named, &exact, lent),
            &|lent| calls(unnamed, &exact, lent),
        ],
        |times| {
            let [a, b, c, d] = times.map(|time| time.as_secs_f64() * 1e9);
            rounds[0].push([a, b]);
            rounds[1].push([c, d]);
        },
    );
    rounds.map(|rounds| Times::of(&rounds, named.texts.len()))
}

/// The lengths of the buffers for each text: where any fits, and exact ones.
fn sizes(line: &Line) -> (Vec<usize>, Vec<usize>) {
    let size = |text: &Vec<u8>| match &line.call {
        Call::Leaf(leaf) => (
            port_side::ample(text.len()),
            rust_side::text(*leaf, text).len(),
        ),
        Call::Row(_, table) => (rows::any(table, text), table.answer(text).text.len()),
        _ => panic!("no such line"),
    };
    line.texts.iter().map(size).unzip()
}

fn calls(line: &Line, sizes: &[usize], lent: &mut Lent) -> u64 {
    match &line.call {
        Call::Leaf(leaf) => port_texts(*leaf, &line.texts, sizes, &mut lent.text),
        Call::Row(Form::Boundary, table) => rows::port_rows(table, &line.texts, sizes, lent),
        Call::Row(Form::ByValue, table) => rows::rows_by_value(table, &line.texts, 1, sizes, lent),
        _ => panic!("no such line"),
    }
}
