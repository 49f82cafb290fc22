//! The lines of the program's input.

/// A line that reads, or the case that ends the run.
#[derive(Clone, Debug, PartialEq, Eq)]
pub enum Line {
    First { k: u32, nodes: u32 },
    Row([u32; 9]),
    Event { predicate: u32, values: Vec<u32> },
    Bad,
}

/// The most nodes that a first line can ask for.
const MOST_NODES: u32 = 512;

/// Reads the bytes of one line, without its line end.
pub fn read(line: &[u8]) -> Line {
    let mut words = line.split(|&byte| byte == b' ').peekable();
    let letter = match words.peek() {
        Some(&b"r") => Some(b'r'),
        Some(&b"e") => Some(b'e'),
        _ => None,
    };
    if letter.is_some() {
        words.next();
    }
    let Some(numbers) = words.map(number).collect::<Option<Vec<u32>>>() else {
        return Line::Bad;
    };
    match (letter, &numbers[..]) {
        (None, &[k, nodes]) if nodes <= MOST_NODES => Line::First { k, nodes },
        (Some(b'r'), fields) => fields.try_into().map_or(Line::Bad, Line::Row),
        (Some(b'e'), [predicate, values @ ..]) if values.len() <= 4 => Line::Event {
            predicate: *predicate,
            values: values.to_vec(),
        },
        _ => Line::Bad,
    }
}

/// A decimal number from 0 to 2^32 - 1 without leading zeros.
fn number(word: &[u8]) -> Option<u32> {
    let leading_zero = word.len() > 1 && word[0] == b'0';
    if word.is_empty() || leading_zero || !word.iter().all(u8::is_ascii_digit) {
        return None;
    }
    std::str::from_utf8(word).ok()?.parse().ok()
}
