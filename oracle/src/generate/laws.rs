//! Rules in which one formula stands in two forms: the sides of a law, over rows of a rule.

use crate::generate::bases::{setting, start_of, state_of};
use crate::generate::rules::{close, encode};
use crate::laws::{Law, Pair, LAWS};
use crate::random::Random;
use crate::rows::{Row, Rule, MOST_ROWS, VARIABLES};

/// The most rows that both sides of a law and the closing of a rule add.
const ADDED: usize = 11 + 2 * VARIABLES;

/// A case of each law in turn, from a fresh start or from any well-formed state.
pub fn pair(seed: u64, index: u64) -> Pair {
    let mut random = Random::of_case(seed, index);
    let random = &mut random;
    let law = LAWS[index as usize % LAWS.len()];
    loop {
        let (k, rows) = setting(random);
        let rule = Rule::read(&rows).expect("made rules are right");
        if rule.rows.len() + ADDED > MOST_ROWS {
            continue;
        }
        let (rows, sides) = with_sides(random, law, &rule);
        let case = if random.once_in(2) {
            Some(start_of(random, k, rows))
        } else {
            state_of(random, k, rows)
        };
        if let Some(case) = case {
            return Pair { law, sides, case };
        }
    }
}

/// A rule with both sides of a law behind it, and the places of the sides.
fn with_sides(random: &mut Random, law: Law, rule: &Rule) -> (Vec<u32>, [usize; 2]) {
    let mut rows = rule.rows.clone();
    let [p, q, r] = [(); 3].map(|()| random.below(rule.rows.len()));
    let [x, y] = two_variables(random, &rule.free[p]);
    let mut add = |row: Row| {
        rows.push(row);
        rows.len() - 1
    };
    let sides = match law {
        Law::AndCommutes => [add(Row::And(p, q)), add(Row::And(q, p))],
        Law::AndAssociates => {
            let (first, last) = (add(Row::And(p, q)), add(Row::And(q, r)));
            [add(Row::And(first, r)), add(Row::And(p, last))]
        }
        Law::AndIdempotent => [add(Row::And(p, p)), p],
        Law::NotTwice => {
            let once = add(Row::Not(p));
            [add(Row::Not(once)), p]
        }
        Law::RemovalsCommute => [[y, x], [x, y]].map(|order| {
            order
                .into_iter()
                .fold(p, |row, variable| add(Row::Exists { variable, row }))
        }),
        Law::RemovalOfOr => {
            let whole = or(&mut add, p, q);
            let parts = [p, q].map(|row| add(Row::Exists { variable: x, row }));
            let removed = Row::Exists {
                variable: x,
                row: whole,
            };
            [add(removed), or(&mut add, parts[0], parts[1])]
        }
    };
    close(random, &mut rows);
    (rows.iter().flat_map(encode).collect(), sides)
}

/// Or has no row of its own: it is written by not and and.
fn or(add: &mut impl FnMut(Row) -> usize, one: usize, two: usize) -> usize {
    let (one, two) = (add(Row::Not(one)), add(Row::Not(two)));
    let neither = add(Row::And(one, two));
    add(Row::Not(neither))
}

/// Two different variables, mostly such as are free.
fn two_variables(random: &mut Random, free: &[bool; VARIABLES]) -> [usize; 2] {
    let mut all: Vec<usize> = (0..VARIABLES).collect();
    all.rotate_left(random.below(VARIABLES));
    if !random.once_in(4) {
        all.sort_by_key(|&variable| !free[variable]);
    }
    [all[0], all[1]]
}
