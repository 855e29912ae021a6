//! `others [WORD]`: what other converters take for the benchmark's texts of 1 MB, beside the port and the Rust, as a Markdown table. With a word
//! only the lines that have it in their name.
mod iconv;
mod icu;

use differential::leaf::{Leaf, TEXT_LIMIT};
use differential::port_side::{ample, Archive, Library};
use differential::random::Random;
use differential::rust_side;
use differential::samples::{Maker, CLASSES};
use differential::timing::{by_turns, copied, processor, read, ROUNDS};
use iconv::Iconv;
use icu::Icu;

fn main() {
    let word = std::env::args().nth(1).unwrap_or_default();
    let icu = Icu::loaded();
    println!("{}\n", heading(&icu));
    println!("| Text | memcpy µs | Port µs | Rust µs | iconv µs | ICU µs |");
    println!("|---|---:|---:|---:|---:|---:|");
    let mut random = Random::new(1);
    for (name, leaf, maker) in CLASSES {
        let Some(code) = code(leaf).filter(|_| name.contains(&word)) else {
            continue;
        };
        let cells = line(&mut random, leaf, maker, code, icu.as_ref());
        println!("| {name} | {} |", cells.join(" | "));
    }
}

fn heading(icu: &Option<Icu>) -> String {
    let processor = processor();
    let icu = match icu {
        Some(icu) => format!(
            "ICU is version {} of `libicuuc`, by `ucnv_convertEx`",
            icu.version
        ),
        None => "ICU is not installed".to_string(),
    };
    format!(
        "Processor: {processor}. Processor time of one thread, the least of at least {ROUNDS} rounds, all by turns in each, for texts of {TEXT_LIMIT} bytes, to \
         UTF-8, into a buffer where any text fits, lent and warm; the Rust's includes the allocation of its text. `memcpy` copies the text's bytes as they \
         are. iconv is the C library's, which stops at each malformed part: U+FFFD is then written for it, and it is called again. {icu}. Their converters are \
         opened before, and begin anew for each text. Where a time says \"other\", the text is not the Rust's."
    )
}

/// A coding by the name that both know it by, and the bytes of a unit.
#[derive(Clone, Copy)]
struct Code {
    name: &'static str,
    unit: usize,
}

/// The coding of a call's texts, where others have it too.
fn code(leaf: Leaf) -> Option<Code> {
    let (name, unit) = match leaf {
        Leaf::Character { ccsid: 1208, .. } => ("UTF-8", 1),
        Leaf::Character { ccsid: 819, .. } => ("ISO-8859-1", 1),
        Leaf::Character { ccsid: 37, .. } => ("IBM037", 1),
        Leaf::Graphic { ccsid: 1200, .. } => ("UTF-16BE", 2),
        _ => return None,
    };
    Some(Code { name, unit })
}

/// The cells of a line, in the order of the table.
fn line(
    random: &mut Random,
    leaf: Leaf,
    maker: Maker,
    code: Code,
    icu: Option<&Icu>,
) -> Vec<String> {
    let text = maker(random, TEXT_LIMIT);
    let iconv = Iconv::open(code);
    let icu = icu.map(|icu| icu.open(code));
    let mut buffer = vec![0; ample(text.len())];
    let right = rust_side::text(leaf, &text).into_bytes();
    let same = |length: usize, buffer: &[u8]| buffer[..length] == right;
    let iconv_same = same(iconv.convert(&text, &mut buffer), &buffer);
    let icu_same = icu
        .as_ref()
        .map(|icu| same(icu.convert(&text, &mut buffer), &buffer));
    let [copy, port, rust, by_iconv, by_icu] = by_turns(
        &mut buffer,
        [
            &|buffer| copied(&text, buffer),
            &|buffer| {
                let length = Archive.write(leaf, &text, buffer).text_length;
                read(&buffer[..length as usize])
            },
            &|_| read(rust_side::text(leaf, &text).as_bytes()),
            &|buffer| {
                let length = iconv.convert(&text, buffer);
                read(&buffer[..length])
            },
            &|buffer| {
                let length = icu.as_ref().map_or(1, |icu| icu.convert(&text, buffer));
                read(&buffer[..length])
            },
        ],
    );
    vec![
        microseconds(copy),
        microseconds(port),
        microseconds(rust),
        of_other(by_iconv, iconv_same),
        icu_same.map_or("not installed".to_string(), |same| of_other(by_icu, same)),
    ]
}

fn microseconds(time: f64) -> String {
    format!("{:.0}", time / 1000.0)
}

/// The same, and whether the text is the Rust's.
fn of_other(time: f64, same: bool) -> String {
    microseconds(time) + if same { "" } else { ", other" }
}
