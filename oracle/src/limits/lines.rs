//! Lines of the program's input that are written with what each reads as. Each is put in every place of an input: one that reads as something
//! that can stand there is no bad line, and any other is.

use crate::enumerating::Oracle;
use crate::lines::{read, Line};
use crate::runs::{printed, Program};

/// Runs a file of lines on the oracle's reader and on a program, and gives how many there are. An error begins with the number of its line.
pub fn run_lines(text: &str, program: &mut Program) -> Result<usize, String> {
    let mut count = 0;
    for (index, line) in text.lines().enumerate() {
        if line.is_empty() || line.starts_with('#') {
            continue;
        }
        let told = |what: String| format!("{}: {line}: {what}", index + 1);
        let (bytes, reads) = written(line).map_err(told)?;
        let found = read(&bytes);
        if found != reads {
            return Err(told(format!("the oracle reads {found:?}")));
        }
        for (input, fits) in places(&bytes, &reads) {
            in_place(&input, fits, program).map_err(told)?;
        }
        count += 1;
    }
    Ok(count)
}

/// The bytes between the bars, and what is written before them.
fn written(line: &str) -> Result<(Vec<u8>, Line), String> {
    let (reads, text) = line.split_once(" |").ok_or("a line stands between bars")?;
    let text = text.strip_suffix('|').ok_or("a line stands between bars")?;
    let bytes = text.replace("\\t", "\t").replace("\\r", "\r").into_bytes();
    let (kind, rest) = reads.split_once(' ').unwrap_or((reads, ""));
    let numbers: Result<Vec<u32>, _> = rest.split_whitespace().map(str::parse).collect();
    let numbers = numbers.map_err(|_| format!("'{rest}' is no list of numbers"))?;
    let reads = match (kind, &numbers[..]) {
        ("sizes", &[k, nodes]) => Line::First { k, nodes },
        ("row", row) => Line::Row(row.try_into().map_err(|_| "a row has nine numbers")?),
        ("event", [predicate, values @ ..]) => Line::Event {
            predicate: *predicate,
            values: values.to_vec(),
        },
        ("bad", []) => Line::Bad,
        _ => return Err(format!("'{reads}' is no reading")),
    };
    Ok((bytes, reads))
}

/// The inputs that have a line first, after the sizes, and after an event, each with whether what it reads as can stand there.
fn places(line: &[u8], reads: &Line) -> [(Vec<u8>, bool); 3] {
    let sizes = matches!(reads, Line::First { .. });
    let event = matches!(reads, Line::Event { .. });
    let row = matches!(reads, Line::Row(_));
    let rule = b"r 1 0 0 0 0 0 0 0 0\ne 9\n";
    [
        ([line, b"\n", rule].concat(), sizes),
        ([b"2 64\n", line, b"\n"].concat(), row || event),
        ([b"2 64\n", &rule[..], line, b"\n"].concat(), event),
    ]
}

/// The program prints what the oracle prints, and that is a bad line exactly where the line does not fit.
fn in_place(input: &[u8], fits: bool, program: &mut Program) -> Result<(), String> {
    let wanted = printed(&mut Oracle::default(), input);
    let found = program(input)?;
    let said = |bytes: &[u8]| String::from_utf8_lossy(bytes).into_owned();
    if wanted != found {
        let (wanted, found) = (said(&wanted), said(&found));
        return Err(format!("{found}is printed, and by the oracle\n{wanted}"));
    }
    match wanted.ends_with(b"bad line\n") == fits {
        false => Ok(()),
        true => Err(format!("{}is printed for\n{}", said(&wanted), said(input))),
    }
}
