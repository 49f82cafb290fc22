//! The comparison of a log with the same log in another order, and of a log with its disguise: they can fail, and do where a fact is
//! another one.

use oracle::case::Case;
use oracle::coverage::{Coverage, BY_CALLS};
use oracle::event::Fact;
use oracle::generate::calls::trial;
use oracle::monitor::Stepping;
use oracle::refusals::unfit;
use oracle::rows::Rule;
use oracle::trial::Trial;

const SEED: u64 = 77;
const TRIALS: u64 = 6_000;

fn told(trial: &Trial) -> Option<String> {
    let mut coverage = Coverage::of(BY_CALLS);
    trial.run(&mut Stepping, &mut coverage).err()
}

/// The trials of a seed that are logs in two orders.
fn reordered() -> impl Iterator<Item = (Case, Case)> {
    (0..TRIALS).filter_map(|index| match trial(SEED, index) {
        Trial::Reordered { one, other } => Some((one, other)),
        _ => None,
    })
}

#[test]
fn the_same_facts_in_another_order_say_the_same() {
    let mut moved = 0;
    for (one, other) in reordered() {
        moved += usize::from(one.events != other.events);
        assert_eq!(told(&Trial::Reordered { one, other }), None);
    }
    assert!(moved > 300, "{moved} logs in another order are too few");
}

/// Gives the last fact of a log that the rule names another value, past the limit of what the generator makes up.
fn change_a_value(case: &mut Case) -> bool {
    let rule = Rule::read(&case.rows).expect("made rules are right");
    let named = |fact: &&mut Fact| {
        !unfit(&rule, fact) && rule.count_of(fact.predicate).is_some_and(|count| count > 0)
    };
    let facts = case.events.iter_mut().flat_map(|event| &mut event.facts);
    let Some(fact) = facts.filter(named).last() else {
        return false;
    };
    fact.values[0] = 777_777;
    true
}

#[test]
fn another_fact_in_one_of_the_orders_is_told() {
    let (mut found, mut kinds) = (0, [false; 3]);
    for (one, mut other) in reordered() {
        if !change_a_value(&mut other) {
            continue;
        }
        let Some(what) = told(&Trial::Reordered { one, other }) else {
            continue;
        };
        let told = ["another verdict", "row ", "variable "];
        for (kind, says) in kinds.iter_mut().zip(told) {
            *kind |= what.starts_with(&format!("another order, {says}"));
        }
        assert!(what.starts_with("another order, "), "{what}");
        found += 1;
    }
    assert!(found > 100, "found in {found} logs");
    assert_eq!(kinds, [true; 3], "a verdict, a set and a list are told");
}

#[test]
fn a_disguise_of_one_fact_alone_is_seen_through() {
    let mut found = 0;
    for index in 0..TRIALS {
        let Trial::Disguised {
            plain,
            mut disguised,
            renaming,
        } = trial(SEED, index)
        else {
            continue;
        };
        // The last fact of each list keeps its own values.
        let mut several = false;
        for (event, was) in disguised.events.iter_mut().zip(&plain.events) {
            if let ([_, .., last], [.., own]) = (&mut event.facts[..], &was.facts[..]) {
                *last = *own;
                several = true;
            }
        }
        let trial = Trial::Disguised {
            plain,
            disguised,
            renaming,
        };
        if let (true, Some(what)) = (several, told(&trial)) {
            assert!(what.starts_with("a disguise was seen through"), "{what}");
            found += 1;
        }
    }
    assert!(found > 20, "found in {found} logs");
}
