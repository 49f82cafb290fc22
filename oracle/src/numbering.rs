//! Numbers for values: each variable's list of values in number order, and what an event asks.

use crate::event::{Event, Fact};
use crate::rows::{Argument, Row, Rule, VARIABLES};

/// How many numbers a variable can give out: 2^k - 1 is reserved.
pub fn numbers(k: u32) -> usize {
    (1 << k) - 1
}

/// The values of each variable that have a number, in number order.
#[derive(Clone, Debug, PartialEq, Eq)]
pub struct Lists(pub [Vec<u32>; VARIABLES]);

impl Lists {
    pub fn read(k: u32, counts: &[u32; VARIABLES], values: &[u32]) -> Lists {
        let list = |variable: usize| {
            let first = variable * numbers(k);
            values[first..first + counts[variable] as usize].to_vec()
        };
        Lists(std::array::from_fn(list))
    }

    pub fn write(&self, k: u32, values: &mut [u32]) {
        values.fill(0);
        for (variable, list) in self.0.iter().enumerate() {
            let first = variable * numbers(k);
            values[first..first + list.len()].copy_from_slice(list);
        }
    }

    pub fn counts(&self) -> [u32; VARIABLES] {
        std::array::from_fn(|variable| self.0[variable].len() as u32)
    }

    pub fn number_of(&self, variable: usize, value: u32) -> Option<usize> {
        self.0[variable].iter().position(|&listed| listed == value)
    }

    /// The lists after an event has asked its numbers, whether or not the variables have so many: fact by fact, the rows in
    /// order within each.
    pub fn asked(&self, rule: &Rule, event: &Event) -> Lists {
        let mut lists = self.clone();
        for fact in &event.facts {
            for row in &rule.rows {
                lists.ask(row, fact);
            }
        }
        lists
    }

    /// Gives a number to each value that an atom which matches the fact has none for.
    pub fn ask(&mut self, row: &Row, fact: &Fact) {
        for (variable, value) in bindings(row, fact).unwrap_or_default() {
            if self.number_of(variable, value).is_none() {
                self.0[variable].push(value);
            }
        }
    }

    /// The lowest variable that has given out more numbers than there are.
    pub fn short(&self, k: u32) -> Option<u32> {
        (0..VARIABLES as u32).find(|&variable| self.0[variable as usize].len() > numbers(k))
    }
}

/// What an atom that matches the fact binds, in argument order; nothing for any other row.
pub fn bindings(row: &Row, fact: &Fact) -> Option<Vec<(usize, u32)>> {
    let Row::Atom {
        predicate,
        arguments,
    } = row
    else {
        return None;
    };
    if *predicate != fact.predicate {
        return None;
    }
    let mut bound: Vec<(usize, u32)> = Vec::new();
    for (argument, &value) in arguments.iter().zip(fact.given()) {
        match *argument {
            Argument::Constant(constant) if constant != value => return None,
            Argument::Constant(_) => {}
            Argument::Variable(variable) => {
                if bound
                    .iter()
                    .any(|&(other, found)| other == variable && found != value)
                {
                    return None;
                }
                bound.push((variable, value));
            }
        }
    }
    Some(bound)
}
