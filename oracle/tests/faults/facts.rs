//! The facts of an event, with a fault in how they are taken.

use oracle::event::{Event, Fact, MOST_FACTS};
use oracle::refusals::unfit;
use oracle::rows::Rule;

use crate::fault::Fault;

/// The facts that a fault sees of those that are handed in.
pub fn seen(fault: Fault, rows: &[u32], handed: &Event) -> Event {
    let mut event = handed.clone();
    let facts = &mut event.facts;
    match (fault, Rule::read(rows)) {
        (Fault::NineFactsTaken, _) if facts.len() == MOST_FACTS + 1 => facts.truncate(MOST_FACTS),
        (Fault::FactsPastEightIgnored, _) => facts.truncate(MOST_FACTS),
        (Fault::EqualFactsCountOnce, _) => {
            let mut once: Vec<Fact> = Vec::new();
            for fact in facts.drain(..) {
                if !once.contains(&fact) {
                    once.push(fact);
                }
            }
            *facts = once;
        }
        (Fault::UnfitFactsLeftOut, Ok(rule)) if facts.len() <= MOST_FACTS => {
            facts.retain(|fact| !unfit(&rule, fact));
        }
        (Fault::FirstFactAloneJudged, Ok(rule)) if facts.len() <= MOST_FACTS => {
            let mut place = 0;
            facts.retain(|fact| {
                place += 1;
                place == 1 || !unfit(&rule, fact)
            });
        }
        (Fault::FactsFromTheLast, _) => facts.reverse(),
        _ => {}
    }
    event
}
