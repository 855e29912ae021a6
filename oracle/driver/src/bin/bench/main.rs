//! `bench [WORD]`: the time of each call by the Rust and by the port, from one run, as a Markdown table, and another of the port's release 3. With a word only
//! the lines that have it in their name.
mod by_value;
mod inputs;
mod packed_whole;
mod releases;
mod rows;

use differential::descriptions;
use differential::descriptions::port_side::AMPLE;
use differential::descriptions::{Parser, COLUMN_LIMIT};
use differential::leaf::{Leaf, TEXT_LIMIT};
use differential::port_side::{ample, Archive, Library};
use differential::rust_side;
use differential::timing::{by_turns, copied, processor, read, ROUNDS};
use std::hint::black_box;
use std::process::ExitCode;
use std::rc::Rc;

/// Short texts are timed in a batch of so many input bytes, so that they stay in the nearest cache.
const BATCH: usize = 1 << 14;

/// A line of the table: a call, and inputs of one length, each timed as one call.
struct Line {
    name: String,
    call: Call,
    /// Shared where two lines have the same: a copy that is freed again leaves holes among the Rust's allocations, and slows them.
    texts: Rc<Vec<Vec<u8>>>,
}

#[derive(Clone)]
enum Call {
    Leaf(Leaf),
    /// No call: the text is copied as it is.
    Copy,
    /// Through the boundary: words in a lent buffer.
    Description(Parser),
    /// By value: a list of 128 places.
    DescriptionByValue(Parser),
    /// Rows of one column list.
    Row(rows::Form, Rc<rows::Table>),
}

/// What is lent to the port.
struct Lent {
    text: Vec<u8>,
    words: [u64; AMPLE],
    values: [u64; rows::VALUES],
}

impl Line {
    fn length(&self) -> usize {
        self.texts[0].len()
    }
}

/// Nanoseconds a call. A copy is none of the Rust's; a call that writes no text has no exact buffer.
struct Times {
    rust: Option<f64>,
    ample: f64,
    exact: Option<f64>,
}

impl Times {
    /// The larger of the two ratios.
    fn ratio(&self) -> Option<f64> {
        let most = self.ample.max(self.exact.unwrap_or(0.0));
        self.rust.map(|rust| most / rust)
    }
}

fn main() -> ExitCode {
    let word = std::env::args().nth(1).unwrap_or_default();
    let mut lent = Lent {
        text: vec![0; differential::rows::port_side::ample(COLUMN_LIMIT, TEXT_LIMIT)],
        words: [0; AMPLE],
        values: [0; rows::VALUES],
    };
    println!("{}\n", heading());
    println!("| Call | Bytes | Rust ns | Port ns, any text fits | Ratio | Port ns, buffer exact | Ratio |");
    println!("|---|---:|---:|---:|---:|---:|---:|");
    let mut slowest: Option<(f64, String)> = None;
    for line in inputs::lines()
        .iter()
        .filter(|line| line.name.contains(&word))
    {
        if let Err(text) = same(line, &mut lent) {
            eprintln!("bench: {}: the answers differ for {text:02X?}", line.name);
            return ExitCode::FAILURE;
        }
        let times = measure(line, &mut lent);
        println!("{}", row(line, &times));
        let Some(ratio) = times.ratio() else {
            continue;
        };
        if slowest.as_ref().is_none_or(|(most, _)| ratio > *most) {
            slowest = Some((ratio, format!("{}, {} bytes", line.name, line.length())));
        }
    }
    if let Some((ratio, name)) = slowest {
        println!("\nLargest ratio: {ratio:.2} ({name}).");
    }
    match releases::table(&word, &mut lent) {
        Ok(()) => ExitCode::SUCCESS,
        Err((name, text)) => {
            eprintln!("bench: {name}: the answers differ for {text:02X?}");
            ExitCode::FAILURE
        }
    }
}

fn heading() -> String {
    use rows::AGAIN;
    let processor = processor();
    format!(
        "Processor: {processor}. Release builds, processor time of one thread, both from one run: the least of at least {ROUNDS} \
         rounds, the two by turns in each, with {BATCH} bytes of short texts, or one long text, a reading of the clock. The port's buffer is lent \
         by the caller and warm: it is used again for each call, once with 3 n + 14 bytes for n bytes of input (any text fits), \
         once exactly as long as the text; for a description with {AMPLE} words (any list fits), and with two a column; by value it has none, and one \
         column of the list is looked at, at a place that the compiler does not know. For a row of c columns the text buffer has 3 n + 258 c bytes (any \
         texts fit), or is exactly as long as the texts together; the columns are described before. By value a short row is decoded {AGAIN} times \
         over by both, since the port's column list does not outlive a call. The floor of a row is no call: the columns' words and the row are \
         read, and the values' words and the texts, which are ready, are copied; that of a long text is its copy, `memcpy`. The Rust's time \
         includes the allocation of its text, list or values, and its freeing. A packed decimal as a number is the Rust's text, whose digits are then \
         summed up in one pass that leaves out the point. Ratio: port / Rust."
    )
}

fn row(line: &Line, times: &Times) -> String {
    let none = || "–".to_string();
    let ratio = |time: f64, rust: f64| format!("{:.2}", time / rust);
    let column = |time: f64| {
        let ratio = times.rust.map(|rust| ratio(time, rust));
        format!("{} | {}", shown(time), ratio.unwrap_or_else(none))
    };
    format!(
        "| {} | {} | {} | {} | {} |",
        line.name,
        line.length(),
        times.rust.map_or_else(none, shown),
        column(times.ample),
        times.exact.map_or("– | –".to_string(), column)
    )
}

/// Nanoseconds: tenths where they count.
fn shown(time: f64) -> String {
    if time < 1000.0 {
        format!("{time:.1}")
    } else {
        format!("{time:.0}")
    }
}

/// Whether the two agree on every input of a line, with a buffer where any text fits.
fn same<'a>(line: &'a Line, lent: &mut Lent) -> Result<(), &'a [u8]> {
    for text in line.texts.iter() {
        let agree = match &line.call {
            Call::Leaf(Leaf::Likely) => rust_side::likely(text) == (Archive.likely(text) == 1),
            &Call::Leaf(Leaf::PackedWhole { scale }) => {
                let rust = packed_whole::rust(text, scale);
                rust.is_some() && rust == packed_whole::port(text, scale)
            }
            &Call::Leaf(leaf) => {
                let rust = rust_side::text(leaf, text);
                let outcome = Archive.write(leaf, text, &mut lent.text[..ample(text.len())]);
                let written = &lent.text[..outcome.text_length];
                outcome.number == 0 && rust.as_bytes() == written
            }
            Call::Copy => true,
            Call::Description(_) => {
                let archive = descriptions::port_side::Archive;
                let port = descriptions::port_side::PortSide::new(archive).answers(text);
                descriptions::rust_side::answers(text) == port
            }
            Call::DescriptionByValue(parser) => by_value::same(*parser, text),
            Call::Row(form, table) => rows::same(*form, table, text, lent),
        };
        if !agree {
            return Err(text);
        }
    }
    Ok(())
}

fn measure(line: &Line, lent: &mut Lent) -> Times {
    let texts = &line.texts;
    let times = match &line.call {
        Call::Leaf(Leaf::Likely) => {
            let [rust, port] = by_turns(
                lent,
                [
                    &|_| batch(texts, |text| u64::from(rust_side::likely(text))),
                    &|_| batch(texts, |text| u64::from(Archive.likely(text))),
                ],
            );
            [rust, port, f64::NAN]
        }
        &Call::Leaf(Leaf::PackedWhole { scale }) => measure_packed_whole(scale, texts, lent),
        &Call::Leaf(leaf) => measure_leaf(leaf, texts, lent),
        Call::Copy => measure_copy(texts, lent),
        Call::Description(parser) => measure_description(*parser, texts, lent),
        Call::DescriptionByValue(parser) => measure_by_value(*parser, texts, lent),
        Call::Row(form, table) => rows::measure(*form, table, texts, lent),
    };
    let [rust, ample, exact] = times.map(|time| time / texts.len() as f64);
    let measured = |time: f64| Some(time).filter(|time| !time.is_nan());
    Times {
        rust: measured(rust),
        ample,
        exact: measured(exact),
    }
}

fn measure_packed_whole(scale: u8, texts: &[Vec<u8>], lent: &mut Lent) -> [f64; 3] {
    use packed_whole::{port, read, rust};
    let [rust, port] = by_turns(
        lent,
        [&|_| batch(texts, |text| read(rust(text, scale))), &|_| {
            batch(texts, |text| read(port(text, scale)))
        }],
    );
    [rust, port, f64::NAN]
}

fn measure_leaf(leaf: Leaf, texts: &[Vec<u8>], lent: &mut Lent) -> [f64; 3] {
    let exact: Vec<usize> = texts
        .iter()
        .map(|text| rust_side::text(leaf, text).len())
        .collect();
    let any: Vec<usize> = texts.iter().map(|text| ample(text.len())).collect();
    by_turns(
        lent,
        [
            &|_| batch(texts, |text| read(rust_side::text(leaf, text).as_bytes())),
            &|lent| port_texts(leaf, texts, &any, &mut lent.text),
            &|lent| port_texts(leaf, texts, &exact, &mut lent.text),
        ],
    )
}

/// The port's calls for a line, each with the buffer's first bytes, so many of them as `sizes` says.
fn port_texts(leaf: Leaf, texts: &[Vec<u8>], sizes: &[usize], buffer: &mut [u8]) -> u64 {
    let mut sizes = sizes.iter();
    batch(texts, |text| {
        let size = *sizes.next().expect("a size for each text");
        let outcome = Archive.write(leaf, text, &mut buffer[..size]);
        read(&buffer[..outcome.text_length])
    })
}

fn measure_copy(texts: &[Vec<u8>], lent: &mut Lent) -> [f64; 3] {
    let [copy] = by_turns(
        lent,
        [&|lent| batch(texts, |text| copied(text, &mut lent.text))],
    );
    [f64::NAN, copy, f64::NAN]
}

/// All descriptions of a line have the same number of columns.
fn measure_description(parser: Parser, texts: &[Vec<u8>], lent: &mut Lent) -> [f64; 3] {
    let exact = 2 * descriptions::rust_side::parsed(&texts[0]).len();
    let port = match parser {
        Parser::Ported => port_descriptions,
        Parser::Whole => port_whole_descriptions,
    };
    by_turns(
        lent,
        [
            &|_| rust_descriptions(texts),
            &|lent| port(texts, &mut lent.words),
            &|lent| port(texts, &mut lent.words[..exact]),
        ],
    )
}

/// The same; the place of the last column is asked for.
fn measure_by_value(parser: Parser, texts: &[Vec<u8>], lent: &mut Lent) -> [f64; 3] {
    let columns = descriptions::rust_side::parsed(&texts[0]).len();
    let last = black_box(columns.saturating_sub(1));
    let [rust, port] = by_turns(
        lent,
        [&|_| rust_descriptions(texts), &|_| {
            batch(texts, |text| by_value::length(parser, text, last))
        }],
    );
    [rust, port, f64::NAN]
}

fn rust_descriptions(texts: &[Vec<u8>]) -> u64 {
    batch(texts, |text| {
        let columns = black_box(descriptions::rust_side::parsed(text));
        columns.last().map_or(0, |last| u64::from(last.length))
    })
}

fn port_descriptions(texts: &[Vec<u8>], words: &mut [u64]) -> u64 {
    batch(texts, |text| {
        let count = port::parse_qrydsc(text, words).count;
        last_length(&words[..2 * count])
    })
}

fn port_whole_descriptions(texts: &[Vec<u8>], words: &mut [u64]) -> u64 {
    batch(texts, |text| {
        let count = port::parse_whole_qrydsc(text, words).count;
        last_length(&words[..2 * count])
    })
}

fn last_length(words: &[u64]) -> u64 {
    let words = black_box(words);
    words.last().map_or(0, |last| last & 0xFFFF)
}

/// Calls once for each text; the sum is looked at, the texts are not known to the compiler.
fn batch(texts: &[Vec<u8>], mut call: impl FnMut(&[u8]) -> u64) -> u64 {
    texts
        .iter()
        .map(|text| call(black_box(text)))
        .fold(0, u64::wrapping_add)
}
