//! Logs with several facts in one moment.

use crate::case::Case;
use crate::event::{Event, Fact, MOST_FACTS};
use crate::generate::events::{fact, pool};
use crate::random::Random;
use crate::refusals::unfit;
use crate::rows::Rule;
use crate::table::bits;

/// Half of the cases as they are, and half with lists of facts for their events.
pub fn moments(random: &mut Random, mut case: Case, k: u32) -> Case {
    if case.events.is_empty() || random.once_in(2) {
        return case;
    }
    let rule = Rule::read(&case.rows).expect("made rules are right");
    let facts: Vec<Fact> = case
        .events
        .iter()
        .flat_map(|event| event.facts.clone())
        .collect();
    // A list asks many numbers: few values let them last, and many use them up at once.
    let mut values: Vec<u32> = facts.iter().flat_map(|fact| fact.values).collect();
    match random.below(4) {
        0 | 1 => values.truncate(1 << (k - 1)),
        2 => values = pool(random, 40),
        _ => {}
    }
    // One event on large tables takes long enough with few facts.
    let large = bits(k, &case.rows) > Some(12);
    for event in &mut case.events {
        let size = match size(random) {
            4.. if large => 2,
            size => size,
        };
        event.facts = list(random, &rule, &facts, &values, size);
    }
    case
}

fn size(random: &mut Random) -> usize {
    match random.below(16) {
        0 | 1 => 0,
        2..=4 => 1,
        5..=8 => 2,
        9 | 10 => 3,
        11 => random.between(4, 7),
        12..=14 => MOST_FACTS,
        _ => random.between(MOST_FACTS + 1, MOST_FACTS + 4),
    }
}

/// So many facts: some of the log, some of this list once more, and some that are made here; in a third of the lists all are of one
/// predicate. Few have a wrong count.
fn list(random: &mut Random, rule: &Rule, log: &[Fact], values: &[u32], size: usize) -> Vec<Fact> {
    let mut facts: Vec<Fact> = Vec::new();
    let alike = random.once_in(3);
    while facts.len() < size {
        let mut next = match random.below(6) {
            1.. if alike && !facts.is_empty() => Fact {
                values: [(); 3].map(|()| *random.pick(values)),
                ..facts[0]
            },
            0 if !facts.is_empty() => *random.pick(&facts),
            1 => *random.pick(log),
            _ => fact(random, rule, values),
        };
        if unfit(rule, &next) && !random.once_in(4) {
            let count = rule.count_of(next.predicate).unwrap_or(0);
            next.count = count as u32;
        }
        facts.push(next);
    }
    facts
}

/// The same log with the facts of each event in another order, or in the same.
pub fn reordered(random: &mut Random, case: &Case) -> Case {
    let mut other = case.clone();
    for Event { facts } in &mut other.events {
        for last in (1..facts.len()).rev() {
            facts.swap(last, random.below(last + 1));
        }
    }
    other
}
