//! What the program `card` shows: moments as lines, the list of blocks, and refusals.

use super::{Line, Reason, Record, Stretch};

/// A line for a moment: `5: 1 258, 2 7 8`.
pub fn moment(records: &[Record]) -> String {
    let facts: Vec<String> = records
        .iter()
        .map(|record| {
            let numbers = std::iter::once(&record.predicate).chain(&record.values);
            numbers.map(u32::to_string).collect::<Vec<_>>().join(" ")
        })
        .collect();
    format!("{}: {}\n", records[0].stamp, facts.join(", "))
}

/// The moments, with `anew` where the monitor starts anew.
pub fn moments(stretches: &[Stretch]) -> String {
    let lines = stretches.iter().map(|stretch| {
        stretch
            .iter()
            .map(|records| moment(records))
            .collect::<String>()
    });
    lines.collect::<Vec<_>>().join("anew\n")
}

pub fn reason(reason: Reason) -> &'static str {
    match reason {
        Reason::Check => "check",
        Reason::Shape => "shape",
        Reason::Number => "number",
    }
}

pub fn refusal(file: &str, place: usize, why: Reason) -> String {
    format!("card: {file}: block {place} is bad: {}\n", reason(why))
}

pub fn list(lines: &[Line]) -> String {
    let lines = lines.iter().enumerate();
    lines
        .map(|(place, (why, dropped))| {
            let word = why.map_or("kept", reason);
            format!("{place} {word} {dropped}\n")
        })
        .collect()
}
