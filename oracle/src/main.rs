//! The oracle as a program: on its own it is the monitor's program; with a command it compares.

use std::io::{stdin, stdout, BufWriter, Write};
use std::process::ExitCode;

use oracle::coverage::{Coverage, BY_INPUTS};
use oracle::enumerating::Oracle;
use oracle::generate::{calls, inputs, laws};
use oracle::monitor::Monitor;
use oracle::{cards, limits, program, runs, texts};

#[cfg(feature = "linked")]
use oracle::linked::Linked as Subject;
#[cfg(not(feature = "linked"))]
use oracle::monitor::Stepping as Subject;

/// The meaning calls itself once or more for each event so far, so long logs need a deep stack.
const STACK: usize = 1 << 30;

const USAGE: &str = "oracle < FILE
oracle fixed
oracle compare SEED COUNT
oracle compare-program SEED COUNT --run COMMAND..
oracle limits FILE..
oracle lines FILE --run COMMAND..
oracle cards SEED COUNT FOLDER --run COMMAND..
oracle texts SEED COUNT FOLDER FILE --run COMMAND..
oracle input SEED INDEX
oracle trial SEED INDEX
oracle pair SEED INDEX";

fn main() -> ExitCode {
    let work = std::thread::Builder::new().stack_size(STACK).spawn(command);
    let done = work.expect("a thread can be started").join();
    match done.unwrap_or_else(|_| Err("the oracle stopped".to_string())) {
        Ok(()) => ExitCode::SUCCESS,
        Err(message) => {
            eprintln!("{message}");
            ExitCode::FAILURE
        }
    }
}

fn command() -> Result<(), String> {
    let words: Vec<String> = std::env::args().skip(1).collect();
    let words: Vec<&str> = words.iter().map(String::as_str).collect();
    let said = match words[..] {
        [] => return program_on_standard_input().map_err(|error| error.to_string()),
        ["fixed"] => fixed()?,
        ["compare", seed, count] => {
            let (seed, count) = (number(seed)?, number(count)?);
            runs::all(seed, count, count / 4, count / 3, &mut Subject)?.said
        }
        ["compare-program", seed, count, "--run", ref run @ ..] if !run.is_empty() => {
            compare_program(number(seed)?, number(count)?, run)?
        }
        ["lines", file, "--run", ref run @ ..] if !run.is_empty() => lines(file, run)?,
        ["cards", seed, count, folder, "--run", ref run @ ..] if !run.is_empty() => {
            let subject = cards::compare::Subject::new(run, std::path::Path::new(folder));
            cards::compare::all(number(seed)?, number(count)?, &subject)?
        }
        ["texts", seed, count, folder, file, "--run", ref run @ ..] if !run.is_empty() => {
            let subject = texts::compare::Subject::new(run, std::path::Path::new(folder));
            let stored = texts::compare::stored(file, &subject)?;
            let seeded = texts::compare::all(number(seed)?, number(count)?, &subject)?;
            format!("{stored} stored texts; {seeded}")
        }
        ["limits", ref files @ ..] if !files.is_empty() => written(files)?,
        ["input", seed, index] => {
            let input = inputs::input(number(seed)?, number(index)?);
            return stdout()
                .write_all(&input)
                .map_err(|error| error.to_string());
        }
        ["trial", seed, index] => format!("{:#?}", calls::trial(number(seed)?, number(index)?)),
        ["pair", seed, index] => format!("{:#?}", laws::pair(number(seed)?, number(index)?)),
        _ => return Err(USAGE.to_string()),
    };
    println!("{said}");
    Ok(())
}

fn number(word: &str) -> Result<u64, String> {
    word.parse()
        .map_err(|_| format!("'{word}' is no number\n{USAGE}"))
}

fn program_on_standard_input() -> std::io::Result<()> {
    let mut output = BufWriter::new(stdout().lock());
    program::run(&mut Oracle::default(), stdin().lock(), &mut output)?;
    output.flush()
}

/// The fixed set must reach everything on the lists.
fn fixed() -> Result<String, String> {
    let summary = runs::all(
        runs::FIXED_SEED,
        runs::FIXED_TRIALS,
        runs::FIXED_PAIRS,
        runs::FIXED_INPUTS,
        &mut Subject,
    )?;
    match &summary.missing[..] {
        [] => Ok(summary.said),
        missing => Err(format!("never reached: {}", missing.join("; "))),
    }
}

fn compare_program(seed: u64, count: u64, run: &[&str]) -> Result<String, String> {
    let mut coverage = Coverage::of(BY_INPUTS);
    runs::program_inputs(seed, count, &mut command_of(run), &mut coverage)?;
    coverage.print();
    Ok(format!("seed {seed}: {count} inputs, no difference"))
}

/// The program that a command is.
fn command_of(run: &[&str]) -> impl FnMut(&[u8]) -> Result<Vec<u8>, String> {
    let run: Vec<String> = run.iter().map(ToString::to_string).collect();
    move |input| runs::command_printed(&run, input)
}

fn text_of(file: &str) -> Result<String, String> {
    std::fs::read_to_string(file).map_err(|error| format!("{file}: {error}"))
}

/// The written lines, in inputs of a command.
fn lines(file: &str, run: &[&str]) -> Result<String, String> {
    let count = limits::run_lines(&text_of(file)?, &mut command_of(run));
    let count = count.map_err(|wrong| format!("{file}:{wrong}"))?;
    Ok(format!("{count} lines read as written"))
}

/// The written cases, on every monitor that is here.
fn written(files: &[&str]) -> Result<String, String> {
    let (mut cases, mut calls) = (0, 0);
    for file in files {
        let at = |wrong: String| format!("{file}:{wrong}");
        let all = limits::read(&text_of(file)?).map_err(at)?;
        cases += all.len();
        for case in &all {
            let mut oracle = Oracle::default();
            let monitors: [&mut dyn Monitor; 2] = [&mut oracle, &mut Subject];
            for monitor in monitors {
                calls += limits::run(case, monitor).map_err(at)?;
            }
        }
    }
    Ok(format!(
        "{cases} cases, {} calls, all as written",
        calls / 2
    ))
}
