//! Facts for a rule, from a small pool of values, so that values come again.

use crate::event::{Event, Fact};
use crate::generate::rules::{CONSTANTS, PREDICATES};
use crate::random::Random;
use crate::rows::Rule;

/// A pool of different values: the rule's constants may be among them, and so may values that look like numbers.
pub fn pool(random: &mut Random, size: usize) -> Vec<u32> {
    let mut pool: Vec<u32> = Vec::new();
    while pool.len() < size {
        let value = match random.below(4) {
            0 => *random.pick(&CONSTANTS),
            1 => random.number(),
            _ => random.below(2 * size + 4) as u32,
        };
        if !pool.contains(&value) {
            pool.push(value);
        }
    }
    pool
}

/// A fact that refusal 5 lets through, or seldom one that it does not.
pub fn fact(random: &mut Random, rule: &Rule, pool: &[u32]) -> Fact {
    let named: Vec<u32> = PREDICATES
        .into_iter()
        .filter(|&predicate| rule.count_of(predicate).is_some())
        .collect();
    let predicate = if named.is_empty() || random.once_in(10) {
        random.number()
    } else {
        *random.pick(&named)
    };
    let known = rule.count_of(predicate);
    let count = match random.below(40) {
        0 => random.number(),
        1 => random.below(5) as u32,
        _ => known.map_or_else(|| random.below(4) as u32, |count| count as u32),
    };
    Fact {
        predicate,
        count,
        values: [(); 3].map(|()| *random.pick(pool)),
    }
}

/// So many events of one fact.
pub fn log(random: &mut Random, rule: &Rule, pool: &[u32], length: usize) -> Vec<Event> {
    (0..length)
        .map(|_| Event::one(fact(random, rule, pool)))
        .collect()
}
