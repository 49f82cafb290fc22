//! The comparison finds each of a set of seeded faults.

mod asking;
mod facts;
mod fault;
mod kept;
mod mutant;
mod step;

use fault::Fault;
use mutant::Mutant;
use oracle::coverage::{Coverage, BY_CALLS};
use oracle::runs::{self, FIXED_SEED, FIXED_TRIALS};

#[test]
fn every_fault_is_found() {
    let mut missed: Vec<Fault> = Vec::new();
    for fault in Fault::all() {
        let mut mutant = Mutant { fault, first: None };
        let found = runs::trials(
            FIXED_SEED,
            FIXED_TRIALS,
            &mut mutant,
            &mut Coverage::of(BY_CALLS),
        );
        match found {
            Err(difference) => println!(
                "{fault:?}: {}",
                difference.chars().take(150).collect::<String>()
            ),
            Ok(()) => missed.push(fault),
        }
    }
    assert!(missed.is_empty(), "not found: {missed:?}");
}

#[test]
fn without_a_fault_nothing_is_found() {
    let mut mutant = Mutant {
        fault: Fault::Nothing,
        first: None,
    };
    let found = runs::trials(FIXED_SEED, 2_000, &mut mutant, &mut Coverage::of(BY_CALLS));
    assert_eq!(found, Ok(()));
}
