//! Inputs of the program, each from a seed and an index: good ones, and ones with something wrong in them.

use crate::case::{Begin, Case};
use crate::event::{Event, Fact};
use crate::generate::bases::fact_by_fact;
use crate::generate::refused::refuse;
use crate::generate::smear::within_reach;
use crate::random::Random;
use crate::rows::FIELDS;

pub fn input(seed: u64, index: u64) -> Vec<u8> {
    let mut random = Random::of_case(seed ^ 0x696e_7075_7473, index);
    let random = &mut random;
    let case = base(random, index);
    let mut lines = lines(random, &case);
    match index % 8 {
        0..=2 => {}
        3 => wrong_first(random, &mut lines),
        4 => many_rows(random, &mut lines),
        5 => wrong_order(random, &mut lines),
        _ => wrong_bytes(random, &mut lines),
    }
    let mut bytes = lines.join(&b'\n');
    match random.below(12) {
        0 => {}
        1 => bytes.extend(b"\n\n"),
        2 if random.once_in(3) => bytes.clear(),
        _ => bytes.push(b'\n'),
    }
    bytes
}

fn base(random: &mut Random, index: u64) -> Case {
    loop {
        let case = fact_by_fact(random);
        let case = if index % 16 == 1 {
            refuse(random, &case)
        } else {
            case
        };
        if within_reach(&case) {
            return case;
        }
    }
}

fn lines(random: &mut Random, case: &Case) -> Vec<Vec<u8>> {
    let Begin::Start { k } = case.begin else {
        unreachable!("the case begins with a start");
    };
    let count = if random.once_in(10) {
        512
    } else {
        (case.nodes.len() / 3).min(512)
    };
    let mut lines = vec![format!("{k} {count}")];
    lines.extend(case.rows.chunks(FIELDS).map(|row| words("r", row)));
    let facts = case.events.iter().flat_map(|Event { facts }| facts);
    lines.extend(facts.map(event_line));
    lines.into_iter().map(String::into_bytes).collect()
}

fn words(letter: &str, numbers: &[u32]) -> String {
    let numbers = numbers.iter().map(u32::to_string);
    let words: Vec<String> = std::iter::once(letter.to_string()).chain(numbers).collect();
    words.join(" ")
}

/// A fact of more than three values has a fourth, and now and then a fifth.
fn event_line(fact: &Fact) -> String {
    let [first, second, third] = fact.values;
    let values = [fact.predicate, first, second, third, first, second];
    let count = match fact.count {
        0..=4 => fact.count as usize,
        5..=9 => 5,
        _ => 4,
    };
    words("e", &values[..=count])
}

fn wrong_first(random: &mut Random, lines: &mut Vec<Vec<u8>>) {
    let first: &[u8] = match random.below(10) {
        0 => b"0 64",
        1 => b"11 64",
        2 => b"2 513",
        3 => b"2 0",
        4 => b"4294967295 9",
        5 => b"4294967296 9",
        6 => b"2",
        7 => b"2 64 1",
        8 => b"",
        _ => {
            lines.remove(0);
            return;
        }
    };
    lines[0] = first.to_vec();
}

/// The first row line 65 or 66 times over.
fn many_rows(random: &mut Random, lines: &mut Vec<Vec<u8>>) {
    let row = b"r 1 0 0 0 0 0 0 0 0".to_vec();
    let rows = lines.iter().filter(|line| line.starts_with(b"r")).count();
    let count = random.between(64, 66);
    lines.splice(1..1 + rows, vec![row; count]);
}

/// A line is said twice, at its own or at another place.
fn wrong_order(random: &mut Random, lines: &mut Vec<Vec<u8>>) {
    let line = random.pick(lines).clone();
    let place = random.below(lines.len() + 1);
    lines.insert(place, line);
}

/// One line gets something that does not read.
fn wrong_bytes(random: &mut Random, lines: &mut [Vec<u8>]) {
    let which = random.below(lines.len());
    let line = &mut lines[which];
    let place = random.below(line.len() + 1);
    let space = line.iter().position(|&byte| byte == b' ').unwrap_or(0);
    match random.below(14) {
        0 => line.insert(space, b' '),
        1 => line.insert(0, b' '),
        2 => line.push(b' '),
        3 => line.push(b'\r'),
        4 => line[space] = b'\t',
        5 => line.insert(space + 1, b'0'),
        6 => line.insert(space + 1, b'+'),
        7 => line.insert(space + 1, b'-'),
        8 => drop(line.splice(space + 1.., b"4294967296".iter().copied())),
        9 => drop(line.splice(space + 1.., [b'9'].repeat(5000))),
        10 => line.insert(place, random.draw() as u8 | 0x80),
        11 => line.insert(place, *random.pick(b"\0rexE.,;#\x0b\x0c")),
        12 => line.truncate(place),
        _ => line.extend(b" 1"),
    }
}
