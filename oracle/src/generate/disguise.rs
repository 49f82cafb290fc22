//! Disguised logs: values renamed one to one, the rule's constants left as they are and met by no other value.

use crate::case::Case;
use crate::generate::rules::CONSTANTS;
use crate::random::Random;

#[derive(Debug)]
pub struct Renaming(Vec<(u32, u32)>);

impl Renaming {
    /// The new name of a value that the log uses.
    pub fn of(&self, value: u32) -> u32 {
        let found = self.0.iter().find(|(old, _)| *old == value);
        found.map_or(value, |&(_, new)| new)
    }
}

/// Names for the values of a log. Some are exchanged for one another, some are new.
pub fn renaming(random: &mut Random, case: &Case) -> Renaming {
    let mut renamed: Vec<(u32, u32)> = Vec::new();
    let facts = case.events.iter().flat_map(|event| &event.facts);
    let values = facts.flat_map(|fact| fact.values);
    let mut used: Vec<u32> = values.filter(|value| !CONSTANTS.contains(value)).collect();
    used.sort_unstable();
    used.dedup();
    let mut names = used.clone();
    names.extend(
        used.iter()
            .map(|value| value.wrapping_mul(2_654_435_761).wrapping_add(97)),
    );
    names.retain(|name| !CONSTANTS.contains(name));
    names.sort_unstable();
    names.dedup();
    for value in used {
        let name = names.swap_remove(random.below(names.len()));
        renamed.push((value, name));
    }
    Renaming(renamed)
}

/// The same case on the renamed log, all facts of an event alike. Values past a fact's count change too, by no rule.
pub fn disguise(random: &mut Random, case: &Case, renaming: &Renaming) -> Case {
    let mut disguised = case.clone();
    for fact in disguised
        .events
        .iter_mut()
        .flat_map(|event| &mut event.facts)
    {
        for (place, value) in fact.values.iter_mut().enumerate() {
            *value = if place < fact.count as usize {
                renaming.of(*value)
            } else {
                random.number()
            };
        }
    }
    disguised
}
