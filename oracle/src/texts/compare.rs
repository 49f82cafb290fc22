//! Compares a program with the reader here: on stored texts, on all short ones over some words, and on seeded ones.

use std::fs;
use std::io::Write;
use std::path::Path;
use std::process::{Command, Stdio};

use super::generate;
use super::reader::{names, read};
use super::rows::{answer, Answer};
use crate::random::Random;

/// A program that is handed a file for its status, and a text on standard input.
pub struct Subject<'a> {
    run: &'a [&'a str],
    status: String,
}

impl<'a> Subject<'a> {
    pub fn new(run: &'a [&'a str], folder: &Path) -> Subject<'a> {
        let status = folder.join("status").display().to_string();
        Subject { run, status }
    }

    /// What it writes to standard output and to standard error, and whether all went well.
    fn run(&self, text: &[u8], options: &[&str]) -> Result<(String, String, bool), String> {
        let _ = fs::remove_file(&self.status);
        let mut child = Command::new(self.run[0])
            .args(&self.run[1..])
            .arg(&self.status)
            .args(options)
            .stdin(Stdio::piped())
            .stdout(Stdio::piped())
            .stderr(Stdio::piped())
            .spawn()
            .map_err(|error| error.to_string())?;
        let mut input = child.stdin.take().expect("it has a standard input");
        input.write_all(text).map_err(|error| error.to_string())?;
        drop(input);
        let out = child
            .wait_with_output()
            .map_err(|error| error.to_string())?;
        let text = |bytes: &[u8]| String::from_utf8_lossy(bytes).into_owned();
        Ok((
            text(&out.stdout),
            text(&out.stderr),
            Path::new(&self.status).exists(),
        ))
    }

    fn answer(&self, text: &[u8]) -> Result<Answer, String> {
        let (told, said, good) = self.run(text, &[])?;
        let words: Vec<&str> = said
            .split([' ', ':'])
            .filter(|word| !word.is_empty())
            .collect();
        if let ["rule", "refused", number, "at", place, ..] = words[..] {
            return match (number.parse(), place.parse()) {
                (Ok(number), Ok(place)) if !good && told.is_empty() => {
                    Ok(Answer::Refused(number, place))
                }
                _ => Err(format!("it says: {said}")),
            };
        }
        let mut rows = Vec::new();
        for line in told.lines() {
            let numbers: Vec<u32> = line
                .split(' ')
                .skip(1)
                .map_while(|word| word.parse().ok())
                .collect();
            let row: [u32; 9] = numbers
                .try_into()
                .map_err(|_| format!("it writes: {line}"))?;
            rows.push(row);
        }
        if !good || !said.is_empty() {
            return Err(format!("it says: {said}"));
        }
        Ok(Answer::Rows(rows))
    }

    fn same(&self, text: &[u8], wanted: &Answer) -> Result<(), String> {
        // The program leaves one line end after the text out.
        let mut line = text.to_vec();
        line.push(b'\n');
        let got = self.answer(&line)?;
        let shown = String::from_utf8_lossy(text);
        if got != *wanted {
            return Err(format!("{shown}\nis answered {got:?}\nand not {wanted:?}"));
        }
        if let Answer::Rows(_) = wanted {
            let (told, said, good) = self.run(&line, &["-n"])?;
            if told != names(text) || !said.is_empty() || !good {
                return Err(format!("{shown}\nhas not the names\n{told}{said}"));
            }
        }
        Ok(())
    }
}

/// A line of a stored file: a text, ` = `, and a refusal with its place or `rows` and their count.
pub fn stored(file: &str, subject: &Subject) -> Result<usize, String> {
    let all = fs::read_to_string(file).map_err(|error| error.to_string())?;
    let mut count = 0;
    for line in all.lines().filter(|line| !line.starts_with('#')) {
        let (text, said) = line
            .rsplit_once(" = ")
            .ok_or_else(|| format!("no answer: {line}"))?;
        let wanted = read(text.as_bytes());
        let shown = match &wanted {
            Answer::Refused(number, place) => format!("{number} {place}"),
            Answer::Rows(rows) => format!("rows {}", rows.len()),
        };
        if shown != said {
            return Err(format!("{text}\nis read as {shown}\nand not {said}"));
        }
        subject.same(text.as_bytes(), &wanted)?;
        count += 1;
    }
    Ok(count)
}

/// All texts of up to so many of these words, a space between two.
fn short(subject: &Subject, most: usize) -> Result<usize, String> {
    let words = ["p", "(", ")", "x", "S", "->", "!", "exists", ".", ",", "1"];
    let mut texts = vec![String::new()];
    let mut count = 0;
    for _ in 0..=most {
        let mut longer = Vec::new();
        for text in &texts {
            subject.same(text.as_bytes(), &read(text.as_bytes()))?;
            count += 1;
            longer.extend(words.iter().map(|word| format!("{text}{word} ")));
        }
        texts = longer;
    }
    Ok(count)
}

/// Texts on both sides of the longest.
fn long(subject: &Subject) -> Result<usize, String> {
    let lengths = [4095, 4096, 4097, 4098];
    for length in lengths {
        let mut text = b"p".to_vec();
        text.resize(length, b' ');
        subject.same(&text, &read(&text))?;
    }
    Ok(lengths.len())
}

#[derive(Default)]
struct Reached {
    rows: usize,
    refusals: [usize; 10],
}

impl Reached {
    fn note(&mut self, answer: &Answer) {
        match answer {
            Answer::Rows(_) => self.rows += 1,
            Answer::Refused(number, _) => self.refusals[*number as usize] += 1,
        }
    }
}

/// Seeded texts: written trees, damaged ones, and any words.
pub fn all(seed: u64, count: u64, subject: &Subject) -> Result<String, String> {
    let mut reached = Reached::default();
    for index in 0..count {
        let mut random = Random::of_case(seed, index);
        let size = [3, 6, 12, 40][random.below(4)];
        let tree = generate::closed(&mut random, size);
        let text = generate::text(&mut random, &tree);
        let wanted = if text.len() > 4096 {
            Answer::Refused(2, 0)
        } else {
            answer(&tree)
        };
        if read(&text) != wanted {
            return Err(format!(
                "the reader here reads another tree: {}",
                String::from_utf8_lossy(&text)
            ));
        }
        for text in [
            text.clone(),
            generate::damaged(&mut random, &text),
            generate::any(&mut random),
        ] {
            let wanted = read(&text);
            reached.note(&wanted);
            subject.same(&text, &wanted)?;
        }
    }
    let short = short(subject, 3)?;
    let long = long(subject)?;
    let missing: Vec<usize> = (3..10)
        .filter(|number| reached.refusals[*number] == 0)
        .collect();
    if !missing.is_empty() && count >= 1000 {
        return Err(format!("refusals that no text comes to: {missing:?}"));
    }
    Ok(format!(
        "{} seeded texts, {} with rows, refusals 3 to 9: {:?}; {short} short texts, {long} long ones",
        3 * count,
        reached.rows,
        &reached.refusals[3..]
    ))
}
