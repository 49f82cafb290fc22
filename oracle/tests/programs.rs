//! The comparison of programs finds programs that read or print a little differently.

use oracle::coverage::{Coverage, BY_INPUTS};
use oracle::generate::inputs::input;
use oracle::monitor::Stepping;
use oracle::runs::{printed, program_inputs, FIXED_INPUTS, FIXED_SEED};

type Program = fn(&[u8]) -> Vec<u8>;

fn right(input: &[u8]) -> Vec<u8> {
    printed(&mut Stepping, input)
}

/// The right program on lines that are changed first.
fn on_lines(input: &[u8], change: impl Fn(&str) -> String) -> Vec<u8> {
    let Ok(text) = std::str::from_utf8(input) else {
        return right(input);
    };
    let lines: Vec<String> = text.split('\n').map(change).collect();
    right(lines.join("\n").as_bytes())
}

/// The right program's text, changed.
fn on_text(input: &[u8], change: impl Fn(&str) -> String) -> Vec<u8> {
    let output = right(input);
    change(&String::from_utf8_lossy(&output)).into_bytes()
}

const WRONG: [(&str, Program); 14] = [
    ("a carriage return is left out", |input| {
        on_lines(input, |line| line.trim_end_matches('\r').to_string())
    }),
    ("a space at the end is left out", |input| {
        on_lines(input, |line| line.trim_end_matches(' ').to_string())
    }),
    ("two spaces are one", |input| {
        on_lines(input, |line| line.replace("  ", " "))
    }),
    ("a tab is a space", |input| {
        on_lines(input, |line| line.replace('\t', " "))
    }),
    ("a plus sign is left out", |input| {
        on_lines(input, |line| line.replace('+', ""))
    }),
    ("leading zeros are left out", |input| {
        on_lines(input, |line| {
            let strip = |word: &str| match word.trim_start_matches('0') {
                "" => word.to_string(),
                rest => rest.to_string(),
            };
            line.split(' ').map(strip).collect::<Vec<_>>().join(" ")
        })
    }),
    ("2^32 is 0", |input| {
        on_lines(input, |line| line.replace("4294967296", "0"))
    }),
    ("empty lines at the end are left out", |input| {
        let mut input = input.to_vec();
        while input.ends_with(b"\n\n") {
            input.pop();
        }
        right(&input)
    }),
    ("a last line without line end is not read", |input| {
        let end = input.iter().rposition(|&byte| byte == b'\n');
        right(&input[..end.map_or(0, |end| end + 1)])
    }),
    ("what was printed before a bad line is lost", |input| {
        on_text(input, |text| match text.ends_with("bad line\n") {
            true => "bad line\n".to_string(),
            false => text.to_string(),
        })
    }),
    ("the header comes before a bad line", |input| {
        on_text(input, |text| match text {
            "bad line\n" => "event verdict kept room\nbad line\n".to_string(),
            _ => text.to_string(),
        })
    }),
    ("without events there is no header", |input| {
        on_text(input, |text| match text {
            "event verdict kept room\n" => String::new(),
            _ => text.to_string(),
        })
    }),
    ("refused events are not counted", |input| {
        on_text(input, |text| {
            let kept: Vec<&str> = text
                .lines()
                .filter(|line| !line.contains("refused"))
                .collect();
            kept.join("\n") + "\n"
        })
    }),
    ("the last line has no line end", |input| {
        on_text(input, |text| text.trim_end().to_string())
    }),
];

#[test]
fn every_wrong_program_is_found() {
    for (name, program) in WRONG {
        let mut run = |input: &[u8]| Ok(program(input));
        let mut coverage = Coverage::of(BY_INPUTS);
        let found = program_inputs(FIXED_SEED, FIXED_INPUTS, &mut run, &mut coverage);
        let difference = found.expect_err(name);
        println!("{name}: {}", difference.lines().next().unwrap_or_default());
    }
}

#[test]
fn a_66th_row_line_is_bad_and_a_65th_is_refused() {
    let row = "r 1 0 0 0 0 0 0 0 0\n";
    let rows = |count: usize| format!("2 64\n{}e 1\n", row.repeat(count));
    assert_eq!(right(rows(66).as_bytes()), b"bad line\n");
    assert_eq!(right(rows(65).as_bytes()), b"no start 2 0\n");
    assert!(right(rows(64).as_bytes()).ends_with(b"1 yes 0 0\n"));
}

#[test]
fn an_input_is_the_same_each_time_and_not_the_next() {
    assert_eq!(input(5, 9), input(5, 9));
    assert_ne!(input(5, 9), input(5, 10));
    assert_ne!(input(5, 9), input(6, 9));
}
