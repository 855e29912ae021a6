//! Requests and answers, line by line. A line is a request, or a request with an answer behind ` A `, which is dropped, and with
//! it the columns of a `Q` or `q` line and whether it is whole. A request may write one byte many times, as `00*1048577`, also among other bytes, as `41+00*300+42`. A request in lower
//! case asks for all that the port answers, also what the Rust lacks, and its columns have their origins; where it writes a byte so, the answer does too. Other
//! answers never do.
use crate::leaf::{Answer, Leaf, PRECISION};
use crate::releases::PORTED;
use port::column::{Column, Name, Numbers, Order, Origin, Type, NAMES};
use std::fmt;

/// How much of an answer a line shows.
#[derive(Debug, Clone, Copy, PartialEq, Eq)]
pub enum Form {
    /// What the Rust answers too: lines in upper case.
    Shared,
    /// All: lines in lower case.
    Whole,
}

impl Form {
    /// The form in which two answers that are not the same look different.
    pub fn telling(shared_differ: bool) -> Form {
        match shared_differ {
            true => Form::Shared,
            false => Form::Whole,
        }
    }

    /// How the line of a request begins that states a release; one in upper case asks at release 2.
    fn kind(self, letter: char, release: u32) -> String {
        match self {
            Form::Shared => letter.to_string(),
            Form::Whole => format!("{} {release}", letter.to_ascii_lowercase()),
        }
    }

    /// A column in this form.
    pub fn column(self, column: &Column) -> String {
        match self {
            Form::Shared => column.to_string(),
            Form::Whole => column.with_origin(),
        }
    }
}

/// What a line asks.
#[derive(Debug, Clone, PartialEq, Eq)]
pub enum Request {
    Leaf(Call),
    Description {
        data: Vec<u8>,
        row: Vec<u8>,
        release: u32,
    },
    /// A description that is to be whole. There is no such line in upper case.
    WholeDescription(Vec<u8>),
    /// A row with a caller's own columns.
    Row {
        columns: Vec<Column>,
        data: Vec<u8>,
        release: u32,
    },
    FixedLength(Type),
}

/// The conversion of a single text or number, with its bytes.
#[derive(Debug, Clone, PartialEq, Eq)]
pub struct Call {
    pub leaf: Leaf,
    pub data: Vec<u8>,
}

/// Reads a line. The error says why the line is no request.
pub fn parse(line: &str) -> Result<(Form, Request), String> {
    let asked = asked(line);
    let fields: Vec<&str> = asked.split(' ').collect();
    // Any number of 32 bits may be stated: those that are no release are refused by an answer.
    let of_kind = |kind, release: &str, rest: &[&str]| {
        let fields = [&[kind], rest].concat();
        let request = request(Form::Whole, number(release)?, asked, &fields)?;
        Ok((Form::Whole, request))
    };
    match fields[..] {
        ["t", release, ref rest @ ..] => of_kind("T", release, rest),
        ["g", release, ref rest @ ..] => of_kind("G", release, rest),
        ["q", release, ref rest @ ..] => of_kind("Q", release, rest),
        ["h", release, ref rest @ ..] => of_kind("H", release, rest),
        // A description has no release, and a packed decimal has none.
        ["n", data] => {
            let data = bytes_or_repeated(data)?;
            Ok((Form::Whole, Request::WholeDescription(data)))
        }
        ["w", scale, data] => {
            let scale = number(scale)?;
            Ok((Form::Whole, call(Leaf::PackedWhole { scale }, data)?))
        }
        ["t" | "g" | "q" | "h" | "n" | "w", ..] => Err(wrong_fields(asked)),
        _ => {
            let request = request(Form::Shared, PORTED, asked, &fields)?;
            Ok((Form::Shared, request))
        }
    }
}

/// What fields ask at a release, those of a line in lower case with its kind in upper case and without the release; `asked` is their line.
fn request(form: Form, release: u32, asked: &str, fields: &[&str]) -> Result<Request, String> {
    match *fields {
        ["T", ccsid, data] => {
            let ccsid = number(ccsid)?;
            call(Leaf::Character { ccsid, release }, data)
        }
        ["G", ccsid, data] => {
            let ccsid = number(ccsid)?;
            call(Leaf::Graphic { ccsid, release }, data)
        }
        ["L", data] => call(Leaf::Likely, data),
        ["P", scale, data] => call(Leaf::decimal(number(scale)?), data),
        ["Q", data, "R", row] => Ok(Request::Description {
            data: bytes_or_repeated(data)?,
            row: bytes_or_repeated(row)?,
            release,
        }),
        ["H", count, ref columns @ .., "R", data] if number::<usize>(count)? == columns.len() => {
            let columns: Result<Vec<Column>, String> = columns
                .iter()
                .enumerate()
                .map(|(place, field)| column(form, place, field))
                .collect();
            Ok(Request::Row {
                columns: columns?,
                data: bytes_or_repeated(data)?,
                release,
            })
        }
        ["F", asked] => Ok(Request::FixedLength(type_of(asked)?)),
        ["T" | "G" | "L" | "P" | "Q" | "H" | "F", ..] => Err(wrong_fields(asked)),
        _ => Err(format!("no kind of request: {}", cut(asked))),
    }
}

fn wrong_fields(asked: &str) -> String {
    format!("wrong fields: {}", cut(asked))
}

/// The part of a line that is the request.
pub fn asked(line: &str) -> &str {
    let before = |text: &'static str, line| str::split(line, text).next().unwrap_or(line);
    let asked = before(" A ", line);
    if asked.starts_with("Q ") || asked.starts_with("q ") {
        before(" C ", asked)
    } else {
        asked
    }
}

fn call(leaf: Leaf, data: &str) -> Result<Request, String> {
    let data = bytes_or_repeated(data)?;
    Ok(Request::Leaf(Call { leaf, data }))
}

/// A column by its fields; its number is its place. One without an origin behind its other fields is an SDA's.
fn column(form: Form, place: usize, field: &str) -> Result<Column, String> {
    let none = || format!("no column: {}", cut(field));
    let (field, origin) = match form {
        Form::Shared => (field, Origin::Sda),
        Form::Whole => {
            let (field, letter) = field.rsplit_once(':').ok_or_else(none)?;
            (field, origin(letter).ok_or_else(none)?)
        }
    };
    let fields: Vec<&str> = field.split(':').collect();
    let [db2_type, code, length, precision, scale, nullable, ccsid, reference, order] = fields[..]
    else {
        return Err(none());
    };
    let &[code] = &bytes(code)?[..] else {
        return Err(none());
    };
    Ok(Column {
        index: u16::try_from(place).map_err(|_| "too many columns".to_string())?,
        db2_type: type_of(db2_type)?,
        code,
        length: number(length)?,
        precision: number(precision)?,
        scale: number(scale)?,
        nullable: match nullable {
            "0" => false,
            "1" => true,
            _ => return Err(none()),
        },
        ccsid: number(ccsid)?,
        reference: match reference {
            "-" => None,
            _ => Some(number(reference)?),
        },
        order: match order {
            "B" => Order::Big,
            "L" => Order::Little,
            _ => return Err(none()),
        },
        origin,
    })
}

fn origin(letter: &str) -> Option<Origin> {
    match letter {
        "S" => Some(Origin::Sda),
        "U" => Some(Origin::UndeclaredLid),
        "D" => Some(Origin::DeclaredLid),
        _ => None,
    }
}

/// A type by its name and, behind points, its numbers.
fn type_of(field: &str) -> Result<Type, String> {
    let parts: Vec<&str> = field.split('.').collect();
    let name = NAMES.iter().find(|name| format!("{name:?}") == parts[0]);
    let numbers = name.map(|name| name.numbers());
    match (name, numbers, &parts[1..]) {
        (Some(name), Some(Numbers::None), []) => Ok(name.plain()),
        (Some(name), Some(Numbers::Digits), [digits]) => {
            Ok(name.with(number::<u8>(digits)?.into()))
        }
        (Some(name), Some(Numbers::Length), [length]) => Ok(name.with(number(length)?)),
        (Some(Name::Decimal), _, [precision, scale]) => {
            Ok(Type::decimal(number(precision)?, number(scale)?))
        }
        _ => Err(format!("no type: {}", cut(field))),
    }
}

/// A decimal number as the format writes it: digits only, no leading zero.
fn number<N: std::str::FromStr + fmt::Display>(field: &str) -> Result<N, String> {
    match field.parse::<N>() {
        Ok(value) if value.to_string() == field => Ok(value),
        _ => Err(format!("no number, or too large: {}", cut(field))),
    }
}

/// The most bytes that a field writes as one byte many times.
const MOST_TIMES: usize = 2 << 20;

/// The bytes of a field: parts joined by `+`, each written out, or one byte and how often it stands there.
fn bytes_or_repeated(field: &str) -> Result<Vec<u8>, String> {
    let parts: Vec<&str> = field.split('+').collect();
    if parts.len() > 1 && parts.contains(&"-") {
        return Err(format!("no bytes among others: {}", cut(field)));
    }
    let parts: Result<Vec<Vec<u8>>, String> = parts.into_iter().map(part).collect();
    Ok(parts?.concat())
}

fn part(field: &str) -> Result<Vec<u8>, String> {
    let Some((byte, times)) = field.split_once('*') else {
        return bytes(field);
    };
    match (&bytes(byte)?[..], number(times)?) {
        (&[byte], times @ 0..=MOST_TIMES) => Ok(vec![byte; times]),
        _ => Err(format!("no byte many times: {}", cut(field))),
    }
}

/// Upper-case hex, two digits a byte; `-` stands for no bytes.
pub fn bytes(field: &str) -> Result<Vec<u8>, String> {
    if field == "-" {
        return Ok(Vec::new());
    }
    let (pairs, rest) = field.as_bytes().as_chunks::<2>();
    if pairs.is_empty() || !rest.is_empty() {
        return Err(format!("not two hex digits a byte: {}", cut(field)));
    }
    pairs
        .iter()
        .map(|&[high, low]| Some(hex_value(high)? << 4 | hex_value(low)?))
        .collect::<Option<Vec<u8>>>()
        .ok_or_else(|| format!("no upper-case hex: {}", cut(field)))
}

fn hex_value(digit: u8) -> Option<u8> {
    match digit {
        b'0'..=b'9' => Some(digit - b'0'),
        b'A'..=b'F' => Some(digit - b'A' + 10),
        _ => None,
    }
}

/// So many equal bytes or more are written as one byte many times.
const RUN: usize = 64;

/// An answer with each run of equal bytes in its fields written so.
pub fn shortened(answer: &str) -> String {
    let between = |c: char| c == ' ' || c == ':';
    let fields = answer.split_inclusive(between).map(|field| {
        let digits = field.trim_end_matches(between);
        let runs = (digits.len() >= 2 * RUN)
            .then(|| bytes(digits).ok())
            .flatten();
        match runs {
            Some(data) => in_runs(&data) + &field[digits.len()..],
            None => field.to_string(),
        }
    });
    fields.collect()
}

fn in_runs(data: &[u8]) -> String {
    let mut parts: Vec<String> = Vec::new();
    let mut plain: Vec<u8> = Vec::new();
    for run in data.chunk_by(|a, b| a == b) {
        if run.len() < RUN {
            plain.extend_from_slice(run);
            continue;
        }
        if !plain.is_empty() {
            parts.push(Hex(&plain).to_string());
            plain.clear();
        }
        parts.push(format!("{}*{}", Hex(&run[..1]), run.len()));
    }
    if !plain.is_empty() {
        parts.push(Hex(&plain).to_string());
    }
    parts.join("+")
}

/// The beginning of a text, for a message.
fn cut(text: &str) -> String {
    let mut shown: String = text.chars().take(60).collect();
    if shown.len() < text.len() {
        shown.push_str("..");
    }
    shown
}

/// Bytes as the format writes them.
pub struct Hex<'a>(pub &'a [u8]);

impl fmt::Display for Hex<'_> {
    fn fmt(&self, f: &mut fmt::Formatter<'_>) -> fmt::Result {
        if self.0.is_empty() {
            return f.write_str("-");
        }
        const DIGITS: &[u8; 16] = b"0123456789ABCDEF";
        let digit = |value: u8| DIGITS[usize::from(value)] as char;
        let mut text = String::with_capacity(2 * self.0.len());
        for byte in self.0 {
            text.push(digit(byte >> 4));
            text.push(digit(byte & 0x0F));
        }
        f.write_str(&text)
    }
}

impl Request {
    /// The request's line in a form.
    pub fn shown(&self, form: Form) -> String {
        match self {
            Request::Leaf(call) => call.shown(form),
            Request::Description { data, row, release } => {
                format!("{} {} R {}", form.kind('Q', *release), Hex(data), Hex(row))
            }
            Request::WholeDescription(data) => format!("n {}", Hex(data)),
            Request::Row {
                columns,
                data,
                release,
            } => {
                let kind = form.kind('H', *release);
                let count = columns.len();
                let columns = columns_shown(form, columns);
                format!("{kind} {count}{columns} R {}", Hex(data))
            }
            Request::FixedLength(asked) => format!("F {asked}"),
        }
    }
}

/// Columns, each behind a space.
pub fn columns_shown(form: Form, columns: &[Column]) -> String {
    let columns = columns.iter().map(|column| form.column(column));
    columns.map(|column| " ".to_string() + &column).collect()
}

impl Call {
    /// The call's line in a form.
    pub fn shown(&self, form: Form) -> String {
        let data = Hex(&self.data);
        match self.leaf {
            Leaf::Character { ccsid, release } => {
                format!("{} {ccsid} {data}", form.kind('T', release))
            }
            Leaf::Graphic { ccsid, release } => {
                format!("{} {ccsid} {data}", form.kind('G', release))
            }
            Leaf::Likely => format!("L {data}"),
            Leaf::Decimal {
                precision: PRECISION,
                scale,
            } => format!("P {scale} {data}"),
            // The format has no line for these: the call is named, so that no one takes it for a request.
            Leaf::Decimal { precision, scale } => {
                format!("decode_packed_decimal({data}, {precision}, {scale})")
            }
            Leaf::PackedWhole { scale } => format!("w {scale} {data}"),
            Leaf::Locator => format!("format_lob_locator({data})"),
            Leaf::RowId => format!("format_rowid({data})"),
        }
    }
}

impl fmt::Display for Answer<'_> {
    fn fmt(&self, f: &mut fmt::Formatter<'_>) -> fmt::Result {
        match self {
            Answer::Text { text, .. } => Hex(text).fmt(f),
            Answer::Truth(likely) => write!(f, "{}", u8::from(*likely)),
            Answer::Whole { number, scale } => write!(f, "{number} {scale}"),
            Answer::Refusal(number) => write!(f, "REFUSE{number}"),
            Answer::Bad9 => f.write_str("BAD9"),
            Answer::BadRest => f.write_str("BADREST"),
            Answer::BadBlank => f.write_str("BADBLANK"),
        }
    }
}

impl Answer<'_> {
    pub fn shown(&self, form: Form) -> String {
        match (form, self) {
            (Form::Whole, Answer::Text { replaced, .. }) => format!("{self} {replaced}"),
            _ => self.to_string(),
        }
    }
}

#[cfg(test)]
mod tests {
    use super::*;

    /// The request of a line, written again.
    fn again(line: &str) -> String {
        let (form, request) = parse(line).unwrap();
        request.shown(form)
    }

    #[test]
    fn requests_come_back_as_they_were() {
        for line in [
            "t 2 1208 C141",
            "t 3 1208 C141",
            "t 0 1208 C141",
            "t 258 1208 C141",
            "t 4294967295 1208 C141",
            "g 2 13488 -",
            "g 3 13488 -",
            "q 2 0576D00500 R -",
            "q 65538 0576D00500 R -",
            "n 0676D00502",
            "n -",
            "w 2 12345D",
            "w 255 -",
            "h 2 0 R -",
            "h 3 0 R -",
            "h 1 0 R -",
            "h 2 1 Blob:C8:32768:0:0:0:0:0:L:S R -",
            "h 2 1 Integer:02:4:0:0:0:0:-:B:U R 0000002A",
            "h 2 3 Char.3:31:3:0:0:1:37:65535:L:D Xml:DC:0:0:0:0:0:-:B:S Xml:DC:0:0:0:0:0:-:L:U R -",
            "T 1208 C141",
            "G 13488 0041D800",
            "G 0 -",
            "L -",
            "P 255 1D",
            "Q 0576D00500 R -",
            "Q - R 00",
            "H 0 R -",
            "H 1 Blob:C8:32768:0:0:0:0:0:L R -",
            "H 2 Decimal.5.2:0F:3:5:2:1:0:-:B Char.3:31:3:0:0:1:37:65535:L R 0012345C00C1C2C3",
            "F Xml",
            "F Char.65535",
            "F DecFloat.255",
            "F Decimal.5.2",
        ] {
            assert_eq!(again(line), line);
        }
    }

    #[test]
    fn an_answer_behind_the_request_is_dropped() {
        assert_eq!(again("T 37 C1 A 41"), "T 37 C1");
        assert_eq!(again("P 0 - A REFUSE6"), "P 0 -");
        assert_eq!(again("F Time A 8"), "F Time");
        assert_eq!(again("H 0 R 00 A OK 0 - 0"), "H 0 R 00");
        assert_eq!(again("t 2 1208 C1 A EFBFBD 1"), "t 2 1208 C1");
        assert_eq!(again("t 3 1047 40 A 20 0"), "t 3 1047 40");
        assert_eq!(again("g 4 1047 40 A REFUSE22"), "g 4 1047 40");
        assert_eq!(again("q 4 - R 00 C 0 whole A REFUSE22"), "q 4 - R 00");
        assert_eq!(again("q 2 - R 00 C 0 whole A OK 0 - 0 0"), "q 2 - R 00");
        assert_eq!(again("q 2 00 R 00 C 0 broken A OK 0 - 0 0"), "q 2 00 R 00");
        assert_eq!(again("n 0676D00502 A REFUSE15"), "n 0676D00502");
        assert_eq!(again("w 2 12345D A -12345 2"), "w 2 12345D");
        assert_eq!(again("w 0 A0 A REFUSE12"), "w 0 A0");
        assert_eq!(
            again("n 0676D0020004 A 1 Integer:02:4:0:0:0:0:-:B:U"),
            "n 0676D0020004"
        );
        let described = "q 2 0676D0020004 R 0000002A";
        assert_eq!(
            again(&format!(
                "{described} C 1 Integer:02:4:0:0:0:0:-:B:U whole A OK 4 - 0 0 I:42"
            )),
            described
        );
        for answer in [
            "C 0 A OK 0 - 0",
            "C - A REFUSE2",
            "C 1 Xml:DC:0:0:0:0:0:-:L A SHORT 4 0",
        ] {
            let line = format!("Q 0570DC0000 R 00 {answer}");
            assert_eq!(again(&line), "Q 0570DC0000 R 00");
        }
    }

    /// The release of a request: of a line in upper case it is the Rust's.
    #[test]
    fn lines_state_the_release() {
        let release = |line: &str| match parse(line).unwrap() {
            (_, Request::Leaf(call)) => call.leaf.release(),
            (_, Request::Description { release, .. } | Request::Row { release, .. }) => {
                Some(release)
            }
            _ => None,
        };
        assert_eq!(release("T 1208 -"), Some(2));
        assert_eq!(release("G 1200 -"), Some(2));
        assert_eq!(release("Q - R -"), Some(2));
        assert_eq!(release("H 0 R -"), Some(2));
        assert_eq!(release("t 3 1208 -"), Some(3));
        assert_eq!(release("g 258 1200 -"), Some(258));
        assert_eq!(release("q 4294967295 - R -"), Some(u32::MAX));
        assert_eq!(release("h 0 0 R -"), Some(0));
        assert_eq!(release("w 3 1C"), None);
    }

    /// The origins of a request's columns: those of a line in upper case are SDAs'.
    #[test]
    fn columns_have_the_origin_behind_them() {
        let origins = |line: &str| match parse(line).unwrap() {
            (_, Request::Row { columns, .. }) => columns.iter().map(|c| c.origin).collect(),
            _ => Vec::new(),
        };
        let column = "Integer:02:4:0:0:0:0:-:B";
        assert_eq!(
            origins(&format!("h 2 3 {column}:U {column}:S {column}:D R -")),
            [Origin::UndeclaredLid, Origin::Sda, Origin::DeclaredLid]
        );
        assert_eq!(origins(&format!("H 1 {column} R -")), [Origin::Sda]);
    }

    #[test]
    fn one_byte_many_times_is_written_short() {
        for (short, long) in [
            ("T 37 C1*3 A 414141", "T 37 C1C1C1"),
            ("t 2 37 C1*3 A 414141 0", "t 2 37 C1C1C1"),
            ("L 0A*0", "L -"),
            ("P 2 00*1", "P 2 00"),
            ("Q FF*2 R 00*4", "Q FFFF R 00000000"),
            ("n 0299+00*2 A REFUSE15", "n 02990000"),
            ("w 2 00*3+1C A 1 2", "w 2 0000001C"),
            ("H 0 R 1C*2", "H 0 R 1C1C"),
            ("t 2 37 40+C1*3+4042 A 20414141 0", "t 2 37 40C1C1C14042"),
        ] {
            assert_eq!(again(short), long);
        }
    }

    #[test]
    fn runs_of_an_answer_are_written_short() {
        let (short, long) = ("41".repeat(63), "41".repeat(64));
        for (answer, shown) in [
            ("A - 0".to_string(), "A - 0".to_string()),
            (format!("A {short} 0"), format!("A {short} 0")),
            (format!("A {long} 0"), "A 41*64 0".to_string()),
            (
                format!("A 4242{long}{short}00 7"),
                "A 4242+41*127+00 7".to_string(),
            ),
            (
                format!("A OK 64 - 64 0 N V:{long} B:0:{short}"),
                format!("A OK 64 - 64 0 N V:41*64 B:0:{short}"),
            ),
        ] {
            assert_eq!(shortened(&answer), shown);
        }
    }

    #[test]
    fn other_lines_are_no_requests() {
        for line in [
            "",
            "T",
            "T 1208",
            "T 1208 C1 41",
            "T 1208  C1",
            "T 1208 c1",
            "T 1208 C",
            "T 1208 C14",
            "T 1208 C1*",
            "T 1208 *3",
            "T 1208 -*3",
            "T 1208 C1C1*3",
            "T 1208 C1*03",
            "T 1208 C1*3*3",
            "T 1208 C1*2097153",
            "T 1208 C1+",
            "T 1208 +C1",
            "T 1208 C1+-",
            "T 1208*2 C1",
            "H 1 Xml:DC*1:0:0:0:0:0:-:L R -",
            "T 65536 C1",
            "T -1 C1",
            "T +37 C1",
            "T 037 C1",
            "P 256 1C",
            "L 1 00",
            "L ",
            "X 00",
            "# comment",
            "Q -",
            "Q - R",
            "Q - -",
            "Q - R - R -",
            "H 0 -",
            "H R -",
            "H 1 R -",
            "H 0 Xml:DC:0:0:0:0:0:-:L R -",
            "H 1 Xml:DC:0:0:0:0:0:-:X R -",
            "H 1 Xml:DC:0:0:0:2:0:-:L R -",
            "H 1 Xml:DC:0:0:0:0:0:L R -",
            "H 1 Xml:DCDC:0:0:0:0:0:-:L R -",
            "H 1 Xml:-:0:0:0:0:0:-:L R -",
            "H 1 Xml:DC:65536:0:0:0:0:-:L R -",
            "F",
            "F xml",
            "F Xml.0",
            "F Char",
            "F Char.65536",
            "F Char.1.2",
            "F DecFloat.256",
            "F Decimal.5",
            "F Decimal.256.0",
            "t",
            "t 1208 C1",
            "t 02 1208 C1",
            "t 03 1208 C1",
            "t +3 1208 C1",
            "t -1 1208 C1",
            "t 3.0 1208 C1",
            "t 0x3 1208 C1",
            "t - 1208 C1",
            "t  1208 C1",
            "t 4294967296 1208 C1",
            "t 4294967298 1208 C1",
            "T 3 1208 C1",
            "t 2 1208",
            "t 2 1208 C1 1",
            "g 2 C1",
            "q 2 -",
            "q - R -",
            "n",
            "n 2 -",
            "n 00 R -",
            "n - C 0",
            "n 0",
            "N 00",
            "w",
            "w 1C",
            "w 2 2 1C",
            "w 256 1C",
            "w -1 1C",
            "w 02 1C",
            "w 2 1c",
            "w 2 1C R -",
            "W 2 1C",
            "H 1 Xml:DC:0:0:0:0:0:-:L:S R -",
            "H 1 Xml:DC:0:0:0:0:0:-:L:U R -",
            "h 2 1 Xml:DC:0:0:0:0:0:-:L R -",
            "h 2 2 Xml:DC:0:0:0:0:0:-:L:S Xml:DC:0:0:0:0:0:-:L R -",
            "h 2 1 Xml:DC:0:0:0:0:0:-:L: R -",
            "h 2 1 Xml:DC:0:0:0:0:0:-:L:B R -",
            "h 2 1 Xml:DC:0:0:0:0:0:-:L:s R -",
            "h 2 1 Xml:DC:0:0:0:0:0:-:L:SU R -",
            "h 2 1 Xml:DC:0:0:0:0:0:-:L:S:S R -",
            "h 2 1 Xml:DC:0:0:0:0:0:-:S:L R -",
            "h 2 1 Xml:DC:0:0:0:0:0:-:S R -",
            "h 2 1 R -",
            "h 2 R -",
            "h 0 R -",
            "h 4294967296 0 R -",
            "q 4294967296 - R -",
            "l 2 00",
            "l 00",
            "p 2 0 1C",
        ] {
            assert!(parse(line).is_err(), "{line}");
        }
    }

    #[test]
    fn answers_are_written_in_the_format() {
        let written = |answer: Answer| answer.to_string();
        let text = |bytes: &'static [u8], replaced| Answer::Text {
            text: bytes.into(),
            replaced,
        };
        assert_eq!(written(text(&[0xEF, 0xBF, 0xBD], 1)), "EFBFBD");
        assert_eq!(written(text(&[], 0)), "-");
        let whole = |answer: Answer| answer.shown(Form::Whole);
        assert_eq!(whole(text(&[0xEF, 0xBF, 0xBD], 1)), "EFBFBD 1");
        assert_eq!(whole(text(&[], 0)), "- 0");
        assert_eq!(whole(Answer::Refusal(4)), "REFUSE4");
        assert_eq!(written(Answer::Truth(true)), "1");
        assert_eq!(written(Answer::Refusal(4)), "REFUSE4");
        assert_eq!(written(Answer::Bad9), "BAD9");
        assert_eq!(written(Answer::BadRest), "BADREST");
        assert_eq!(written(Answer::BadBlank), "BADBLANK");
        let number = i64::MIN;
        let minimum = whole(Answer::Whole { number, scale: 2 });
        assert_eq!(minimum, "-9223372036854775808 2");
    }
}
