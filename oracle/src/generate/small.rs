//! All rules of a few rows over a small alphabet, and all short logs for each of them.

use crate::case::Case;
use crate::event::{Event, Fact};
use crate::generate::rules::encode;
use crate::rows::{Argument, Row, Rule};

/// What the rules are made of, and how far they go.
pub struct Alphabet {
    leaves: Vec<Row>,
    variables: Vec<usize>,
    rows: usize,
    events: Vec<Event>,
    length: usize,
    ks: std::ops::RangeInclusive<u32>,
}

/// C for these cases: more than the rules need for k up to 2, now and then less above.
const COUNT: usize = 16;

pub fn alphabets() -> Vec<Alphabet> {
    let atom = |arguments: &[Argument]| Row::Atom {
        predicate: 1,
        arguments: arguments.to_vec(),
    };
    let (x, y) = (Argument::Variable(0), Argument::Variable(1));
    let one = vec![Row::True, atom(&[x]), atom(&[Argument::Constant(6)])];
    let two = vec![atom(&[x, y]), atom(&[y, x]), atom(&[x, x])];
    let event = |facts: &[Fact]| Event {
        facts: facts.to_vec(),
    };
    let [six, seven, other] = [Fact::new(1, &[6]), Fact::new(1, &[7]), Fact::new(2, &[])];
    let facts = vec![event(&[six]), event(&[seven]), event(&[other])];
    let lists = vec![
        event(&[]),
        event(&[six]),
        event(&[seven, six]),
        event(&[other, seven]),
    ];
    let pairs = [[1, 1], [1, 2], [6, 1]].map(|pair| Fact::new(1, &pair));
    let [both, up, down] = pairs;
    let pairs = pairs.map(|fact| event(&[fact])).to_vec();
    let pair_lists = vec![event(&[]), event(&[up, down]), event(&[down, both])];
    vec![
        Alphabet {
            leaves: one.clone(),
            variables: vec![0],
            rows: 3,
            events: facts.clone(),
            length: 3,
            ks: 1..=4,
        },
        Alphabet {
            leaves: one.clone(),
            variables: vec![0],
            rows: 4,
            events: facts,
            length: 2,
            ks: 1..=2,
        },
        Alphabet {
            leaves: two.clone(),
            variables: vec![0, 1],
            rows: 4,
            events: pairs,
            length: 2,
            ks: 1..=4,
        },
        Alphabet {
            leaves: one,
            variables: vec![0],
            rows: 3,
            events: lists,
            length: 3,
            ks: 1..=3,
        },
        Alphabet {
            leaves: two,
            variables: vec![0, 1],
            rows: 4,
            events: pair_lists,
            length: 2,
            ks: 2..=3,
        },
    ]
}

impl Alphabet {
    /// Every right rule of exactly so many rows with every k and every log of exactly so many events.
    pub fn each(&self, visit: &mut dyn FnMut(&Case) -> Result<(), String>) -> Result<(), String> {
        self.grow(&mut Vec::new(), visit)
    }

    fn grow(
        &self,
        rows: &mut Vec<Row>,
        visit: &mut dyn FnMut(&Case) -> Result<(), String>,
    ) -> Result<(), String> {
        if rows.len() == self.rows {
            return self.logs(rows, visit);
        }
        for row in self.choices(rows.len()) {
            rows.push(row);
            self.grow(rows, visit)?;
            rows.pop();
        }
        Ok(())
    }

    /// All rows that can stand at a place.
    fn choices(&self, place: usize) -> Vec<Row> {
        let mut choices = self.leaves.clone();
        for one in 0..place {
            choices.push(Row::Not(one));
            choices.push(Row::Previous(one));
            for &variable in &self.variables {
                choices.push(Row::Exists { variable, row: one });
            }
            for two in 0..place {
                choices.push(Row::And(one, two));
                choices.push(Row::Since {
                    left: one,
                    right: two,
                });
            }
        }
        choices
    }

    fn logs(
        &self,
        rows: &[Row],
        visit: &mut dyn FnMut(&Case) -> Result<(), String>,
    ) -> Result<(), String> {
        let numbers: Vec<u32> = rows.iter().flat_map(encode).collect();
        if Rule::read(&numbers).is_err() {
            return Ok(());
        }
        for k in self.ks.clone() {
            for which in 0..self.events.len().pow(self.length as u32) {
                let events = (0..self.length).map(|place| {
                    let digit = which / self.events.len().pow(place as u32);
                    self.events[digit % self.events.len()].clone()
                });
                visit(&Case::fresh(k, numbers.clone(), COUNT, events.collect()))?;
            }
        }
        Ok(())
    }
}
