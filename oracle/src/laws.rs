//! Laws that tidy a rule: both sides of one stand in a rule as rows, and after every event taken they have the same reference.

use crate::case::Case;
use crate::compare::compare;
use crate::coverage::Coverage;
use crate::event::Answer;
use crate::monitor::Monitor;

#[derive(Clone, Copy, Debug, PartialEq, Eq)]
pub enum Law {
    /// p & q and q & p.
    AndCommutes,
    /// (p & q) & r and p & (q & r).
    AndAssociates,
    /// p & p and p.
    AndIdempotent,
    /// !!p and p.
    NotTwice,
    /// exists x exists y p and exists y exists x p.
    RemovalsCommute,
    /// exists x (p | q) and exists x p | exists x q.
    RemovalOfOr,
}

pub const LAWS: [Law; 6] = [
    Law::AndCommutes,
    Law::AndAssociates,
    Law::AndIdempotent,
    Law::NotTwice,
    Law::RemovalsCommute,
    Law::RemovalOfOr,
];

/// A case whose rule has both sides of a law, and their places among its rows.
#[derive(Clone, Debug)]
pub struct Pair {
    pub law: Law,
    pub sides: [usize; 2],
    pub case: Case,
}

impl Pair {
    /// Runs the case on the oracle and on the subject. The comparison sees that both leave the same state, so that what is
    /// looked at here is the references of both.
    pub fn run(&self, subject: &mut dyn Monitor, coverage: &mut Coverage) -> Result<(), String> {
        for left in compare(&self.case, subject, coverage)? {
            let Answer::Verdict { .. } = left.answer else {
                continue;
            };
            let [one, two] = self.sides.map(|side| left.state.refs[side]);
            if one != two {
                let Pair { law, sides, .. } = self;
                return Err(format!(
                    "{law:?}: the rows {sides:?} have references {one} and {two}"
                ));
            }
            if one > 1 {
                coverage.add(&format!("both sides of {:?} one node", self.law));
            }
        }
        Ok(())
    }
}
