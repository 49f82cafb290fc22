//! The meaning of a rule over the events taken so far, by recursion over its definition.
//! There are no numbers for values and no diagrams here.

use std::collections::{BTreeSet, HashMap};

use crate::event::{Event, Fact};
use crate::rows::{Argument, Row, Rule, VARIABLES};

/// A binding for each variable. Bindings are whole numbers of any size; events and constants stay below 2^32.
pub type Assignment = [u64; VARIABLES];

/// A value that no event and no constant has.
pub const UNSEEN: u64 = 1 << 32;

/// The rule, the events so far, and the answers already worked out.
///
/// Quantifiers range over the values of the events, the rule's constants and one unseen value. One is enough:
/// a binding enters the meaning only where an atom compares it with a value of a fact, never with another
/// binding, and any two values that are in no event fail each such comparison alike. So any binding outside
/// the events' values can be exchanged for `UNSEEN`, also where two variables are both bound to it.
/// For the same reason an answer stays right when later events widen the range.
pub struct Meaning {
    rule: Rule,
    events: Vec<Event>,
    range: BTreeSet<u64>,
    /// For each position from 1 on, what is known of the rows there.
    known: Vec<HashMap<(usize, Assignment), bool>>,
}

impl Meaning {
    pub fn new(rule: Rule) -> Meaning {
        let constants = rule.rows.iter().flat_map(|row| match row {
            Row::Atom { arguments, .. } => arguments.clone(),
            _ => Vec::new(),
        });
        let mut range: BTreeSet<u64> = constants
            .filter_map(|argument| match argument {
                Argument::Constant(value) => Some(u64::from(value)),
                Argument::Variable(_) => None,
            })
            .collect();
        range.insert(UNSEEN);
        Meaning {
            rule,
            events: Vec::new(),
            range,
            known: Vec::new(),
        }
    }

    /// Lets quantifiers range over a further value.
    pub fn widen(&mut self, value: u64) {
        self.range.insert(value);
    }

    pub fn take(&mut self, event: &Event) {
        for &value in event.facts.iter().flat_map(Fact::given) {
            self.widen(u64::from(value));
        }
        self.events.push(event.clone());
        self.known.push(HashMap::new());
    }

    /// Takes back the events after a position.
    pub fn go_back(&mut self, position: usize) {
        self.events.truncate(position);
        self.known.truncate(position);
    }

    /// How many events were taken, which is the position of the last one.
    pub fn position(&self) -> usize {
        self.events.len()
    }

    pub fn holds(&mut self, row: usize, position: usize, assignment: &Assignment) -> bool {
        if position == 0 {
            return false;
        }
        let mut bound = *assignment;
        for (variable, binding) in bound.iter_mut().enumerate() {
            if !self.rule.free[row][variable] {
                *binding = UNSEEN;
            }
        }
        if let Some(&known) = self.known[position - 1].get(&(row, bound)) {
            return known;
        }
        let answer = self.by_definition(row, position, &bound);
        self.known[position - 1].insert((row, bound), answer);
        answer
    }

    fn by_definition(&mut self, row: usize, position: usize, bound: &Assignment) -> bool {
        match self.rule.rows[row].clone() {
            Row::True => true,
            Row::Atom {
                predicate,
                arguments,
            } => {
                let matches = |fact: &Fact| {
                    fact.predicate == predicate
                        && arguments
                            .iter()
                            .zip(fact.given())
                            .all(|(argument, &value)| match *argument {
                                Argument::Constant(constant) => constant == value,
                                Argument::Variable(variable) => bound[variable] == u64::from(value),
                            })
                };
                self.events[position - 1].facts.iter().any(matches)
            }
            Row::And(left, right) => {
                self.holds(left, position, bound) && self.holds(right, position, bound)
            }
            Row::Not(below) => !self.holds(below, position, bound),
            Row::Since { left, right } => {
                self.holds(right, position, bound)
                    || (self.holds(left, position, bound) && self.holds(row, position - 1, bound))
            }
            Row::Previous(below) => self.holds(below, position - 1, bound),
            Row::Exists {
                variable,
                row: below,
            } => {
                let range: Vec<u64> = self.range.iter().copied().collect();
                range.into_iter().any(|value| {
                    let mut binding = *bound;
                    binding[variable] = value;
                    self.holds(below, position, &binding)
                })
            }
        }
    }
}
