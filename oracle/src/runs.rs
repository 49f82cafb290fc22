//! Sets of trials and inputs, each run on the oracle and on a subject.

use std::io::Write;
use std::process::{Command, Stdio};

use crate::coverage::{Coverage, BY_CALLS, BY_INPUTS};
use crate::enumerating::Oracle;
use crate::generate::{calls, inputs, laws, small};
use crate::monitor::Monitor;
use crate::{compare, program};

/// A program under comparison: what it prints for an input, or why it could not be run.
pub type Program<'a> = dyn FnMut(&[u8]) -> Result<Vec<u8>, String> + 'a;

/// The seed of the fixed set.
pub const FIXED_SEED: u64 = 2026;
/// How many trials the fixed set has.
pub const FIXED_TRIALS: u64 = 12_000;
/// How many rules with both sides of a law the fixed set has.
pub const FIXED_PAIRS: u64 = 3_000;
/// How many inputs of the program the fixed set has.
pub const FIXED_INPUTS: u64 = 4_000;

/// Runs trials, and gives the first difference with its seed and index.
pub fn trials(
    seed: u64,
    count: u64,
    subject: &mut dyn Monitor,
    coverage: &mut Coverage,
) -> Result<(), String> {
    for index in 0..count {
        calls::trial(seed, index)
            .run(subject, coverage)
            .map_err(|difference| format!("seed {seed}, trial {index}: {difference}"))?;
    }
    Ok(())
}

/// Runs rules with both sides of a law, and gives the first difference with its seed and index.
pub fn pairs(
    seed: u64,
    count: u64,
    subject: &mut dyn Monitor,
    coverage: &mut Coverage,
) -> Result<(), String> {
    for index in 0..count {
        laws::pair(seed, index)
            .run(subject, coverage)
            .map_err(|difference| format!("seed {seed}, pair {index}: {difference}"))?;
    }
    Ok(())
}

/// Runs all small rules, and gives how many cases there were or the first difference.
pub fn all_small(subject: &mut dyn Monitor, coverage: &mut Coverage) -> Result<u64, String> {
    let mut count = 0;
    for alphabet in small::alphabets() {
        alphabet.each(&mut |case| {
            compare::compare(case, subject, coverage)
                .map_err(|difference| format!("small case {count}: {difference}\n{case:?}"))?;
            count += 1;
            Ok(())
        })?;
    }
    Ok(count)
}

/// What a monitor's program prints for an input.
pub fn printed(monitor: &mut dyn Monitor, input: &[u8]) -> Vec<u8> {
    let mut output: Vec<u8> = Vec::new();
    program::run(monitor, input, &mut output).expect("bytes in memory are read and written");
    output
}

/// Gives a program the inputs of a seed, and gives the first whose output is not the oracle's, byte for byte.
pub fn program_inputs(
    seed: u64,
    count: u64,
    subject: &mut Program,
    coverage: &mut Coverage,
) -> Result<(), String> {
    for index in 0..count {
        let input = inputs::input(seed, index);
        let wanted = printed(&mut Oracle::default(), &input);
        let found = subject(&input)?;
        if wanted != found {
            let (wanted, found) = (
                String::from_utf8_lossy(&wanted),
                String::from_utf8_lossy(&found),
            );
            let input = String::from_utf8_lossy(&input);
            return Err(format!(
                "seed {seed}, input {index}:\n{input}\n-- the oracle prints\n{wanted}-- the subject prints\n{found}"
            ));
        }
        reached_by(&input, &wanted, coverage);
    }
    Ok(())
}

/// What a command prints for an input.
pub fn command_printed(command: &[String], input: &[u8]) -> Result<Vec<u8>, String> {
    let failed = |error: std::io::Error| format!("{}: {error}", command[0]);
    let mut child = Command::new(&command[0])
        .args(&command[1..])
        .stdin(Stdio::piped())
        .stdout(Stdio::piped())
        .spawn()
        .map_err(failed)?;
    let mut pipe = child.stdin.take().expect("standard input is a pipe");
    let output = std::thread::scope(|scope| {
        // A program that ends early closes the pipe; what it printed is compared all the same.
        scope.spawn(move || pipe.write_all(input));
        child.wait_with_output()
    });
    output.map(|output| output.stdout).map_err(failed)
}

fn reached_by(input: &[u8], output: &[u8], coverage: &mut Coverage) {
    let output = String::from_utf8_lossy(output);
    let rows = input
        .split(|&byte| byte == b'\n')
        .filter(|line| line.starts_with(b"r "));
    let rows = rows.count();
    let bad = output.ends_with("bad line\n");
    let alone = output == "bad line\n";
    let events = input.windows(3).any(|bytes| bytes == b"\ne ");
    let mut note = |met: bool, name: &str| {
        if met {
            coverage.add(name);
        }
    };
    note(input.is_empty(), "empty input");
    note(alone && rows == 0, "bad line in place of the first");
    note(alone && rows > 0 && events, "bad line among the rows");
    note(
        alone && rows > 0 && !events,
        "bad line where the first event would stand",
    );
    note(bad && !alone, "bad line after an event");
    note(output == "no start 2 0\n" && rows == 65, "65 row lines");
    note(alone && rows == 66, "66 row lines");
    for number in 1..=3 {
        note(
            output.starts_with(&format!("no start {number} ")),
            &format!("no start {number}"),
        );
    }
    note(output == "event verdict kept room\n", "header alone");
    note(output.contains(" yes "), "verdict yes");
    note(output.contains(" no "), "verdict no");
    note(output.contains(" refused 5 "), "refused 5 for 4 values");
    note(output.contains(" refused 6 "), "refused 6");
    note(output.contains(" refused 7 "), "refused 7");
    note(
        !input.is_empty() && !input.ends_with(b"\n") && !bad,
        "last line end missing",
    );
    note(
        input.windows(4).take(4).any(|bytes| bytes == b" 512") && !bad,
        "C = 512",
    );
}

/// What a run says in one line, and what it never reached.
pub struct Summary {
    pub said: String,
    pub missing: Vec<&'static str>,
}

/// Runs trials, the small rules, pairs and program inputs, and prints how often each thing was reached.
pub fn all(
    seed: u64,
    trial_count: u64,
    pair_count: u64,
    input_count: u64,
    subject: &mut dyn Monitor,
) -> Result<Summary, String> {
    let mut by_calls = Coverage::of(BY_CALLS);
    let mut by_inputs = Coverage::of(BY_INPUTS);
    trials(seed, trial_count, subject, &mut by_calls)?;
    pairs(seed, pair_count, subject, &mut by_calls)?;
    let small = all_small(subject, &mut by_calls)?;
    let mut program = |input: &[u8]| Ok(printed(subject, input));
    program_inputs(seed, input_count, &mut program, &mut by_inputs)?;
    by_calls.print();
    by_inputs.print();
    Ok(Summary {
        said: format!(
            "seed {seed}: {trial_count} trials, {pair_count} pairs, {small} small cases and {input_count} inputs, no difference"
        ),
        missing: [by_calls.missing(), by_inputs.missing()].concat(),
    })
}
