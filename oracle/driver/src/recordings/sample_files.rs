//! The files that hold parts of a recording, so that the tool can be tried on them: they must hold what was sent.
use super::walk::Walk;
use super::Recording;
use crate::request::Hex;

/// The recording whose parts they are.
pub const RECORDING: &str = "weave_order";

/// The files, with what each must hold.
pub fn files(recording: &Recording, walk: &Walk) -> Vec<(String, Vec<u8>)> {
    let data = recording.blocks.concat();
    let mut files = vec![
        (
            "derby-weave-order.description.hex".to_string(),
            recording.description.clone(),
        ),
        ("derby-weave-order.block.hex".to_string(), data.clone()),
    ];
    for (place, (start, end)) in walk.rows.iter().enumerate() {
        let name = format!("derby-weave-order-{}.row.hex", place + 1);
        files.push((name, data[*start..*end].to_vec()));
    }
    files
}

/// Compares what a file says with what was sent.
pub fn compare(file: &str, sent: &[u8]) -> Result<(), String> {
    let held = hexadecimal(file).ok_or("no hexadecimal text")?;
    match held == sent {
        true => Ok(()),
        false => Err(format!(
            "{} is not what was sent: {}",
            Hex(&held),
            Hex(sent)
        )),
    }
}

/// The bytes of hexadecimal text, in which `#` begins a comment up to its line's end.
fn hexadecimal(file: &str) -> Option<Vec<u8>> {
    let lines = file
        .lines()
        .map(|line| line.split('#').next().unwrap_or(line));
    let pairs = lines.flat_map(str::split_ascii_whitespace);
    let byte = |pair: &str| match crate::request::bytes(pair).ok()?[..] {
        [byte] => Some(byte),
        _ => None,
    };
    pairs.map(byte).collect()
}

#[cfg(test)]
mod tests {
    use super::*;

    #[test]
    fn a_file_is_compared() {
        let file = "# two\n01 FF # and more 02\n\n   03\n";
        assert_eq!(compare(file, &[1, 0xFF, 3]), Ok(()));
        assert!(compare(file, &[1, 0xFF]).is_err());
        assert!(compare(file, &[1, 0xFF, 2]).is_err());
        assert!(compare("0", &[]).is_err());
        assert!(compare("0102", &[1, 2]).is_err());
    }
}
