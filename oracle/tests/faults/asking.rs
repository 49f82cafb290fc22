//! What an event asks of the lists, with a fault in it.

use oracle::event::Fact;
use oracle::numbering::{bindings, Lists};
use oracle::refusals::{in_state, Refusal};
use oracle::rows::Row;

use crate::fault::Fault;
use crate::step::Step;

impl Step<'_> {
    /// The lists with what the event asks.
    pub fn lists(&self) -> Result<Lists, Refusal> {
        let before = Lists::read(self.state.k, &self.state.counts, self.values);
        let right = in_state(self.state, self.rule, self.nodes, self.values, self.event);
        let facts = &self.event.facts;
        let rows = || self.rule.rows.iter();
        let ask = |mut lists: Lists, (row, fact): (&Row, &Fact)| {
            lists.ask(row, fact);
            lists
        };
        match (self.fault, right) {
            (Fault::LastNumberGiven, Err((6, place))) => {
                let asked = before.asked(self.rule, self.event);
                let past = asked.0.iter().any(|list| list.len() > 1 << self.state.k);
                if past {
                    Err((6, place))
                } else {
                    Ok(asked)
                }
            }
            (Fault::AtMostTwoNumbers, Ok((before, after))) => {
                let many =
                    |&variable: &usize| after.0[variable].len() > before.0[variable].len() + 2;
                (0..4)
                    .find(many)
                    .map_or(Ok(after.clone()), |place| Err((6, place as u32)))
            }
            (Fault::WalkStopsAtFirstAtom, Ok(_)) => {
                let first = |fact| rows().find(|row| bindings(row, fact).is_some());
                let pairs = facts.iter().filter_map(|fact| Some((first(fact)?, fact)));
                Ok(pairs.fold(before, ask))
            }
            (Fault::WalkFromLastRow, Ok(_)) => {
                let pairs = facts
                    .iter()
                    .flat_map(|fact| rows().rev().map(move |row| (row, fact)));
                Ok(pairs.fold(before, ask))
            }
            (Fault::NumbersRowsFirst, Ok(_)) => {
                let pairs = rows().flat_map(|row| facts.iter().map(move |fact| (row, fact)));
                Ok(pairs.fold(before, ask))
            }
            (Fault::NumbersOfFirstFactOnly, Ok(_)) => {
                let pairs = facts
                    .iter()
                    .take(1)
                    .flat_map(|fact| rows().map(move |row| (row, fact)));
                Ok(pairs.fold(before, ask))
            }
            (Fault::PastValuesRead, Ok((_, after))) => {
                let mut past = facts
                    .iter()
                    .flat_map(|fact| &fact.values[fact.count as usize..]);
                if past.any(|&value| value != 0) {
                    Err((5, 0))
                } else {
                    Ok(after)
                }
            }
            (_, right) => right.map(|lists| lists.1),
        }
    }
}
