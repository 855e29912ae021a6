//! What is printed of the walks: a line a result set, and the totals.
use super::cases::{Case, CASES};
use super::walk::Walk;
use crate::command::grouped;

/// A recording's name, and the walks through it: by its description as sent, and by the same changed.
pub struct Walked {
    pub name: String,
    pub sent: Walk,
    pub mended: Walk,
}

/// A line a result set, and the totals; before them the same by the descriptions changed.
pub fn lines(walked: &[Walked]) -> Vec<String> {
    let sets = walked.iter();
    let mut lines: Vec<String> = sets
        .map(|set| format!("{}: {}", set.name, one(&set.sent)))
        .collect();
    let mended: Vec<&Walk> = walked.iter().map(|set| &set.mended).collect();
    let sent: Vec<&Walk> = walked.iter().map(|set| &set.sent).collect();
    lines.push(format!("by descriptions changed: {}", totals(&mended)));
    lines.push(totals(&sent));
    lines
}

fn one(walk: &Walk) -> String {
    let rows = rows(walk.rows.len(), walk.client_rows);
    let mut parts = vec![format!("{rows}, {}", by_case(&walk.values))];
    for (count, said) in [
        (walk.behind_status, "behind a status"),
        (walk.statuses, "status without a row"),
        (walk.split, "split over blocks"),
        (walk.rows_of_end, "read out of the query end"),
    ] {
        if count > 0 {
            parts.push(format!("{count} {said}"));
        }
    }
    parts.join("; ")
}

fn counted(count: usize, what: &str) -> String {
    match count {
        1 => format!("1 {what}"),
        _ => format!("{} {what}s", grouped(count as u64)),
    }
}

/// Values by their cases, those that there are.
fn by_case(values: &[usize; CASES.len()]) -> String {
    let all = counted(values.iter().sum(), "value");
    let cases = CASES.iter().zip(values).filter(|(_, count)| **count > 0);
    let cases: Vec<String> = cases
        .map(|(case, count)| format!("{} {}", grouped(*count as u64), case.name()))
        .collect();
    match cases.is_empty() {
        true => all,
        false => format!("{all}: {}", cases.join(", ")),
    }
}

/// Rows read, and how many the client has where that is another number.
fn rows(read: usize, of_client: usize) -> String {
    match read == of_client {
        true => counted(read, "row"),
        false => format!("{} of {}", grouped(read as u64), counted(of_client, "row")),
    }
}

fn totals(walks: &[&Walk]) -> String {
    let mut values = [0; CASES.len()];
    for walk in walks {
        let both = values.iter_mut().zip(walk.values);
        both.for_each(|(sum, count)| *sum += count);
    }
    let read = walks.iter().map(|walk| walk.rows.len()).sum();
    let of_client = walks.iter().map(|walk| walk.client_rows).sum();
    let of = |wanted: fn(Case) -> bool| -> usize {
        let counts = CASES.iter().zip(values);
        let counts = counts.filter(|(case, _)| wanted(**case));
        counts.map(|(_, count)| count).sum()
    };
    format!(
        "{}, {}, {}; {} as the client shows them, {} not",
        counted(walks.len(), "result set"),
        rows(read, of_client),
        by_case(&values),
        grouped(of(Case::is_clients) as u64),
        grouped(of(|case| !case.is_clients()) as u64),
    )
}
