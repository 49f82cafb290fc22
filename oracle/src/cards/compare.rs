//! The comparison of a program with the independent reading, mending and writing: every byte that it writes.

use std::fs;
use std::path::{Path, PathBuf};
use std::process::{Command, Stdio};

use super::{generate, mend, read, text, write};
use crate::random::Random;

/// A program under comparison, and the folder that its files lie in.
pub struct Subject {
    run: Vec<String>,
    folder: PathBuf,
}

/// What a run printed, and whether it noted that all went well.
struct Said {
    out: String,
    error: String,
    done: bool,
}

impl Subject {
    pub fn new(run: &[&str], folder: &Path) -> Subject {
        Subject {
            run: run.iter().map(ToString::to_string).collect(),
            folder: folder.to_path_buf(),
        }
    }

    fn file(&self, name: &str) -> String {
        self.folder.join(name).display().to_string()
    }

    fn say(&self, words: &[&str], input: Option<&str>) -> Result<Said, String> {
        let status = self.file("status");
        let _ = fs::remove_file(&status);
        let stdin = match input {
            Some(name) => Stdio::from(fs::File::open(name).map_err(|error| error.to_string())?),
            None => Stdio::null(),
        };
        let output = Command::new(&self.run[0])
            .args(&self.run[1..])
            .arg(&status)
            .args(words)
            .stdin(stdin)
            .output()
            .map_err(|error| format!("{}: {error}", self.run[0]))?;
        Ok(Said {
            out: String::from_utf8_lossy(&output.stdout).into_owned(),
            error: String::from_utf8_lossy(&output.stderr).into_owned(),
            done: Path::new(&status).exists(),
        })
    }

    /// Reads and mends a card.
    pub fn card(&self, card: &[u8]) -> Result<(), String> {
        let (file, out) = (self.file("card"), self.file("mended"));
        fs::write(&file, card).map_err(|error| error.to_string())?;
        let said = self.say(&["read", &file], None)?;
        let (shown, refused) = match read(card) {
            Ok(stretches) => (text::moments(&stretches), String::new()),
            Err((place, why)) => (String::new(), text::refusal(&file, place, why)),
        };
        same("read", &said.out, &shown)?;
        same("read's refusal", &said.error, &refused)?;
        same("read's status", &said.done, &refused.is_empty())?;

        let _ = fs::remove_file(&out);
        let said = self.say(&["mend", &file, &out], None)?;
        let (mended, list) = mend(card);
        same("the list", &said.out, &text::list(&list))?;
        same("mend's status", &said.done, &true)?;
        let written = fs::read(&out).map_err(|error| error.to_string())?;
        same("the mended card", &written, &mended)?;
        // What mending puts out the reader takes.
        read(&mended)
            .map_err(|(place, why)| format!("the mended card is refused: {place} {why:?}"))?;
        Ok(())
    }

    /// Writes moments, and reads them back.
    pub fn moments(&self, seed: u64, index: u64) -> Result<(), String> {
        let mut random = Random::of_case(seed, index);
        let moments = generate::moments(&mut random, 40);
        let (lines, file) = (self.file("lines"), self.file("written"));
        let shown: String = moments
            .iter()
            .map(|records| text::moment(records))
            .collect();
        fs::write(&lines, &shown).map_err(|error| error.to_string())?;
        let _ = fs::remove_file(&file);
        let said = self.say(&["write", &file], Some(&lines))?;
        same(
            "write",
            &(said.out, said.error, said.done),
            &(String::new(), String::new(), true),
        )?;
        let written = fs::read(&file).map_err(|error| error.to_string())?;
        same("the written card", &written, &write(&moments))?;
        same("the moments read back", &read(&written), &Ok(vec![moments]))
    }
}

fn same<T: PartialEq + std::fmt::Debug>(what: &str, found: &T, right: &T) -> Result<(), String> {
    if found == right {
        return Ok(());
    }
    Err(format!("{what}: found {found:?}, and it is {right:?}"))
}

/// The systematic cards, and so many of a seed; the damages that never came are an error.
pub fn all(seed: u64, count: u64, subject: &Subject) -> Result<String, String> {
    let systematic = generate::systematic();
    for (at, card) in systematic.iter().enumerate() {
        subject
            .card(card)
            .map_err(|wrong| format!("systematic card {at}: {wrong}"))?;
    }
    let mut met = [0; generate::DAMAGES.len()];
    let (mut taken, mut refused) = (0, 0);
    for index in 0..count {
        let (card, damages) = generate::card(seed, index);
        damages.iter().for_each(|damage| met[*damage] += 1);
        match read(&card) {
            Ok(_) => taken += 1,
            Err(_) => refused += 1,
        }
        subject
            .card(&card)
            .map_err(|wrong| format!("seed {seed}, card {index}: {wrong}"))?;
        subject
            .moments(seed, index)
            .map_err(|wrong| format!("seed {seed}, moments {index}: {wrong}"))?;
    }
    let never: Vec<&str> = (0..met.len())
        .filter(|damage| met[*damage] == 0)
        .map(|damage| generate::DAMAGES[damage])
        .collect();
    if !never.is_empty() && count >= 100 {
        return Err(format!("never met: {}", never.join("; ")));
    }
    Ok(format!(
        "{} systematic cards, {count} of seed {seed} ({taken} taken, {refused} refused), {count} written, no difference",
        systematic.len()
    ))
}
